"""Has kubectl read the documents of manifests: into objects, and once more by its reader for overlays, which refuses a key
that stands twice.

Two documents that are run together are one for kubectl, in which what the last of them says counts; the others would be
missing without a word. Then a key stands twice, in whatever spelling.
"""
from __future__ import annotations

import itertools
import os
import re
from pathlib import Path
from typing import Any, List, NamedTuple, Sequence, Tuple

from plugin import jsontext, kubectl
from plugin.documents import Document
from plugin.room import Room
from plugin.said import decoded, encoded, stop

# kubectl knows no cluster that it could ask without a configuration.
NO_CLUSTER = {"KUBECONFIG": os.devnull}

# How many documents kubectl is given at once.
_MOST = 200
_NO_ANSWER = "the manifests cannot be read, so there is no answer"
_NO_KIND = re.compile(rb"error: unable to decode \"[^\"]*\": Object 'Kind' is missing in ")
_TWICE = re.compile(rb'line [0-9]+: mapping key ("[^"\n]*") already defined')
_NO_NAME = b"missing metadata.name in object"


class Manifest(NamedTuple):
    """An object, and the document that it is from."""

    item: Any
    document: Document


class Read(NamedTuple):
    """The objects of documents, in their order, and the documents that are no manifests."""

    manifests: List[Manifest]
    others: List[Document]


class Reader:
    """Reads documents by files in the room."""

    def __init__(self, room: Room) -> None:
        self._room = room
        self._numbers = itertools.count()

    def read(self, documents: List[Document]) -> Read:
        """The objects of the documents; ends with status 3 where one cannot be read that has to be."""
        parts = [documents[first:first + _MOST] for first in range(0, len(documents), _MOST)]
        read = Read([], [])
        for part in kubectl.ask_all(self._read, parts):
            read.manifests.extend(part.manifests)
            read.others.extend(part.others)
        passed_over = {id(document) for document in read.others}
        kubectl.ask_all(self._check, [[each for each in part if not each.is_json and id(each) not in passed_over] for part in parts])
        return read

    # Objects.

    def _read(self, documents: List[Document]) -> Read:
        """Reads the documents at once where that goes, and else each half by itself, down to one document.

        kubectl prints what it changes, so an annotation is set, which goes with all else that np does not read.
        """
        folder, names = self._put(documents)
        ended = kubectl.run(["annotate", "--local", "--overwrite", "--output", "json", "np-read=..",
                             *("--filename=" + _quoted(folder / name) for name in names)], environment=NO_CLUSTER)
        items = _objects(ended.out) if ended.status == 0 else []
        if ended.status == 0 and len(documents) == 1:
            return Read([Manifest(item, documents[0]) for item in items], [])
        if ended.status == 0 and len(items) == len(documents):
            return Read(list(map(Manifest, items, documents)), [])
        if len(documents) == 1:
            return self._pass_over(documents[0], ended.said)
        one, other = map(self._read, _halves(documents))
        return Read(one.manifests + other.manifests, one.others + other.others)

    def _pass_over(self, document: Document, said: bytes) -> Read:
        """Passes over a document of a folder that is no object; one that is named has to be read, and so has one that may
        have a kind."""
        if document.is_found and (_NO_KIND.match(said) or b"kind" not in document.text.lower()):
            return Read([], [document])
        stop(3, _NO_ANSWER, _with_place(said, document))

    # Keys that stand twice.

    def _check(self, documents: List[Document]) -> None:
        """Refuses a key that stands twice in a document."""
        if not documents:
            return
        folder, names = self._put(documents)
        (folder / "kustomization.yaml").write_bytes(b"resources:\n" + b"".join(b"- %s\n" % name.encode() for name in names))
        ended = kubectl.run(["kustomize", str(folder)], environment=NO_CLUSTER)
        if ended.status == 0:
            return
        if len(documents) > 1:
            for half in _halves(documents):
                self._check(half)
        else:
            _refuse_twice(documents[0], ended.said)

    def _put(self, documents: Sequence[Document]) -> Tuple[Path, List[str]]:
        """Writes the documents into a folder of the room, in their order; returns it and the names."""
        folder = self._room.folder("documents.%d" % next(self._numbers))
        names = ["%06d.yaml" % place for place in range(len(documents))]
        with self._room.writing():
            for name, document in zip(names, documents):
                (folder / name).write_bytes(document.text)
        return folder, names


def _objects(data: bytes) -> List[Any]:
    try:
        return jsontext.read_all(data)
    except jsontext.NotTaken as error:
        stop(3, "%s: %s" % (_NO_ANSWER, error))


def _quoted(path: Path) -> str:
    """The path as kubectl takes it: its option has a list with commas, in which a text in quotes is taken as it stands."""
    return '"%s"' % str(path).replace('"', '""')


def _halves(documents: List[Document]) -> Tuple[List[Document], List[Document]]:
    middle = len(documents) // 2
    return documents[:middle], documents[middle:]


def _with_place(said: bytes, document: Document) -> bytes:
    """What kubectl said of a document, with its place for the path that kubectl knows."""
    return re.sub(rb"/[^\s\"':]*/documents\.[0-9.]*/000000\.yaml", lambda _: encoded(document.place), said)


def _refuse_twice(document: Document, said: bytes) -> None:
    """Ends where kubectl says of a document that a key stands twice. An object without a name it does not look through, so
    there may be no second kind in it."""
    twice = _TWICE.search(said)
    if twice:
        stop(3, "%s: the key %s stands twice; is a line --- missing between two documents?" % (document.place, decoded(twice.group(1))))
    if _NO_NAME not in said:
        stop(3, _NO_ANSWER, _with_place(said, document))
    if document.text.lower().count(b"kind") > 1:
        stop(3, "%s: an object without a name, and with more than one kind; is a line --- missing between two documents?" % document.place)
