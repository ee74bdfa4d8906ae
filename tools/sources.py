"""The sources of the program np: the crates that it stands on, and the digests of their files, as dist/manifest has them."""
from __future__ import annotations

import hashlib
import os
from pathlib import Path
from typing import Dict, Iterator, List, NamedTuple, Set

# The folders of a crate in which files lie that are proved or compiled, and the endings of their names.
_FOLDERS = ["src", "specs", "proofs"]
_ENDINGS = (".rt", ".antt")


class Line(NamedTuple):
    """A line of crates.txt: the crate that it is about, what it says of the crates below, and the whole line."""

    crate: str
    below: List[str]
    text: str


def _lines(top: Path, comments: bool) -> List[Line]:
    """The lines of crates.txt that name a crate, with their comments or without."""
    found = []
    for whole in (top / "crates.txt").read_bytes().decode("utf-8", "surrogateescape").split("\n"):
        text = whole.partition("#")[0]
        head, colon, rest = text.partition(":")
        if colon and head.strip():
            found.append(Line(head.split()[0], rest.split(), whole if comments else text))
    return found


def crates(top: Path) -> List[str]:
    """The crates that the program stands on, and np: the closure of its line in crates.txt, in the order of that file."""
    lines = _lines(top, comments=False)
    below: Dict[str, List[str]] = {line.crate: line.below for line in lines}
    wanted: Set[str] = set()
    waiting = ["np"]
    while waiting:
        crate = waiting.pop()
        if crate in below and crate not in wanted:
            wanted.add(crate)
            waiting.extend(below[crate])
    return [line.crate for line in lines if line.crate in wanted]


def crate_lines(top: Path, comments: bool) -> List[str]:
    """The lines of crates.txt for those crates."""
    wanted = set(crates(top))
    return [line.text for line in _lines(top, comments) if line.crate in wanted]


def _files_below(folder: Path) -> Iterator[Path]:
    """The regular files of a folder and of those in it; links are not followed."""
    if folder.is_symlink():
        return
    for here, _, names in os.walk(folder):
        for name in names:
            path = Path(here, name)
            if not path.is_symlink() and path.is_file():
                yield path


def _source_files(top: Path) -> List[Path]:
    """Every file of those crates that is proved or compiled, in the order of the bytes of their paths."""
    found = []
    for crate in crates(top):
        for folder in _FOLDERS:
            found += [path for path in _files_below(top / "crates" / crate / folder) if path.name.endswith(_ENDINGS)]
    return sorted(found, key=os.fsencode)


def digest(data: bytes) -> str:
    """The SHA-256 digest of bytes, in hexadecimal."""
    return hashlib.sha256(data).hexdigest()


def digests(top: Path) -> List[str]:
    """What the program is built from, as the lines of its manifest: the digest of the lines of crates.txt that count, without their
    comments, and that of every source file. Fails with OSError where a file cannot be read."""
    lines = "".join(line + "\n" for line in crate_lines(top, comments=False))
    made = ["%s  crates.txt" % digest(lines.encode("utf-8", "surrogateescape"))]
    for path in _source_files(top):
        made.append("%s  %s" % (digest(path.read_bytes()), path.relative_to(top).as_posix()))
    return made
