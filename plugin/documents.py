"""The documents of manifests: what -f names, cut into documents as kubectl cuts it.

Each document is known by its file and line. Nothing is looked at within a document: what is YAML there is kubectl's to
say. But where YAML begins a document and kubectl sees none, all behind it would be missing without a word; that is
refused.
"""
from __future__ import annotations

import json
import os
import re
import sys
from pathlib import Path
from typing import Iterator, List, NamedTuple, Tuple

from plugin import jsontext
from plugin.said import say, stop

# kubectl reads these of a folder.
_SUFFIXES = (".json", ".yaml", ".yml")
# A folder with one of these is an overlay.
KUSTOMIZATIONS = ("kustomization.yaml", "kustomization.yml", "Kustomization")
_STANDARD_INPUT = "standard input"

# A line at which kubectl ends a document.
_SEPARATOR = re.compile(rb"---[ \t]*(#.*)?\r?")
# A line at which YAML ends one, and one at which it ends or begins one.
_END = re.compile(rb"\.\.\.[ \t]*(#.*)?\r?")
_MARKER = re.compile(rb"(---|\.\.\.)([ \t].*)?\r?")
_NOTHING = re.compile(rb"[ \t\r]*(#.*)?")
# What ends a line in YAML, but not for kubectl.
_OTHER_ENDS = re.compile(rb"\r(?!\n)|\xc2\x85|\xe2\x80[\xa8\xa9]")
_UTF_16 = (b"\xff\xfe", b"\xfe\xff")


class Document(NamedTuple):
    """A document: the name of its file, the line at which it begins, from 1, and its text. `is_found` says that the file
    was found in a folder, and not named; `is_json` that it is JSON, in which no member stands twice."""

    name: str
    line: int
    text: bytes
    is_found: bool = False
    is_json: bool = False

    @property
    def place(self) -> str:
        """Where it stands, as `m/b.yaml:14`."""
        return "%s:%d" % (self.name, self.line)


def read(paths: List[str], is_recursive: bool) -> List[Document]:
    """The documents at the paths, in their order: files, folders, and - for standard input."""
    found: List[Document] = []
    for path in paths:
        for name, is_found in _files(path, is_recursive):
            found += cut(name, _bytes_of(name), is_found)
    return found


def _files(path: str, is_recursive: bool) -> Iterator[Tuple[str, bool]]:
    """The files at the path, and whether each was found in a folder."""
    if path == "-":
        yield _STANDARD_INPUT, False
    elif os.path.isdir(path):
        yield from ((name, True) for name in _files_of_folder(path, is_recursive))
    elif not os.path.exists(path) and re.search(r"[*?[]", path):
        stop(2, "'%s' is a pattern: name a file, or a folder (-R takes those in it too)" % path)
    else:
        yield path, False


def _files_of_folder(folder: str, is_recursive: bool) -> Iterator[str]:
    for path, folders, files in os.walk(folder, onerror=_refuse_folder):
        folders.sort()
        for name in sorted(files):
            if name in KUSTOMIZATIONS:
                say("%s is an overlay, which -k builds; its %s is passed over" % (path, name))
            elif name.endswith(_SUFFIXES):
                yield os.path.join(path, name)
        if not is_recursive:
            return


def _refuse_folder(error: OSError) -> None:
    stop(3, "'%s' cannot be read: %s" % (error.filename, error.strerror))


def _bytes_of(name: str) -> bytes:
    """The bytes of the file. It is read once, whatever it is: a pipe too."""
    try:
        if name == _STANDARD_INPUT:
            return sys.stdin.buffer.read() if sys.stdin else b""
        return Path(name).read_bytes()
    except (OSError, ValueError) as error:
        say("'%s' cannot be read: %s" % (name, getattr(error, "strerror", None) or error))
        stop(3, "the manifests cannot be read, so there is no answer")


def cut(name: str, data: bytes, is_found: bool = False) -> Iterator[Document]:
    """The documents of a file, but for those in which nothing stands."""
    if data.startswith(_UTF_16) or b"\0" in data:
        stop(3, "'%s' is no text in UTF-8" % name)
    parts = _json_texts(name, data) if data.lstrip()[:1] == b"{" else []
    for line, text in parts or _yaml_texts(name, data):
        if any(not _NOTHING.fullmatch(each) for each in text.split(b"\n")):
            yield Document(name, line, text, is_found, bool(parts))


def _json_texts(name: str, data: bytes) -> List[Tuple[int, bytes]]:
    """The JSON texts of a file that stand one behind the other, each with its line; none where the file is another. A
    member that stands twice is refused, as it is in YAML."""
    try:
        values = jsontext.read_once(data)
    except jsontext.Twins as error:
        stop(3, "%s: the member %s stands twice in an object" % (name, json.dumps(error.name)))
    except jsontext.NotTaken:
        return []
    return [(line, jsontext.write(value)) for line, value in values]


def _yaml_texts(name: str, data: bytes) -> Iterator[Tuple[int, bytes]]:
    """The documents of a file of YAML, each with the line at which it begins."""
    first = 1
    lines: List[bytes] = []
    is_over = False  # whether the document has ended for YAML
    for number, line in enumerate(data.split(b"\n"), 1):
        if _SEPARATOR.fullmatch(line):
            yield first, b"\n".join(lines)
            first, lines, is_over = number + 1, [], False
            continue
        is_end = _END.fullmatch(line) is not None
        if (is_over and not _NOTHING.fullmatch(line)) or (not is_end and _has_marker(line)):
            stop(3, "%s:%d: another document begins here, and kubectl does not see it: write a line --- between two "
                    "documents, and end lines with a line feed" % (name, number))
        is_over = is_over or is_end
        lines.append(line)
    yield first, b"\n".join(lines)


def _has_marker(line: bytes) -> bool:
    """Whether a document ends or begins in the line for YAML, and not for kubectl."""
    return any(map(_MARKER.fullmatch, _OTHER_ENDS.split(line)))
