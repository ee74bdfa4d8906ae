"""The two states that are compared: what a word of the command line stands for, and the list of its objects."""
from __future__ import annotations

import os
import re
from pathlib import Path
from typing import NamedTuple, Optional

from plugin import said, snapshot
from plugin.caveats.beside import Beside
from plugin.documents import KUSTOMIZATIONS
from plugin.manifests import Manifests
from plugin.nearest import is_near
from plugin.room import Room
from plugin.said import decoded, relay, say, stop
from plugin.words import Words

CLUSTER = "cluster"
# What may stand before a word, with a colon, where it is to be told what the word is.
_KINDS = ("list", "manifests", "overlay", CLUSTER)
_SPEAKER = said.speaker
_FOREIGN_POLICY = re.compile(r"^error: item ([0-9]+): kind: ForeignPolicy$", re.MULTILINE)


class Side(NamedTuple):
    """One of the states: A or B, the word as it was typed, the words that the plugin would have of these objects alone, and
    what is said of how the word was taken, where that is not plain."""

    label: str
    name: str
    words: Words
    remark: str

    def shown(self) -> str:
        """The state for a heading."""
        if self.name == "-" or self.name.endswith(":-"):
            return "standard input"
        return "the cluster" if self.name in (CLUSTER, CLUSTER + ":") else self.name


def side_of(label: str, name: str, words: Words) -> Side:
    """What the word stands for; ends with status 2 where that cannot be told, and with 3 where there is nothing of that name."""
    if not name:
        stop(2, "%s is an empty word" % label)
    kind, colon, value = name.partition(":")
    if colon and kind in _KINDS:
        return _named(label, name, kind, value, words)
    if name.startswith(("http://", "https://")):
        stop(2, "URLs are not fetched: '%s'" % name)
    if name == "-":
        return Side(label, name, _words(words, "list", name), "")
    if name == CLUSTER:
        if os.path.lexists(name):
            stop(2, "%s: 'cluster' is the word for the cluster, and there is a path of that name: type cluster: for the cluster, "
                    "or ./cluster for the path" % label)
        return Side(label, name, _words(words, CLUSTER, ""), "")
    return _path(label, name, words)


def _named(label: str, name: str, kind: str, value: str, words: Words) -> Side:
    if os.path.lexists(name):
        stop(2, "%s: '%s' begins with a word that says what it is, and there is a path of that name: type ./%s for the path" % (
            label, name, name))
    if not value and kind != CLUSTER:
        stop(2, "%s: '%s' lacks what it names" % (label, name))
    return Side(label, name, _words(words, kind, value), "")


def _path(label: str, name: str, words: Words) -> Side:
    """What the path is, by what is there."""
    path = Path(name)
    if path.is_dir():
        mark = next((each for each in KUSTOMIZATIONS if (path / each).is_file()), None)
        if mark is None:
            return Side(label, name, _words(words, "manifests", name), "")
        return Side(label, name, _words(words, "overlay", name),
                    "'%s' is taken for an overlay, since it has a %s; manifests:%s reads its files as they stand" % (name, mark, name))
    if path.is_file():
        if name.endswith(".json"):
            return Side(label, name, _words(words, "list", name), "")
        if _begins_with_brace(label, path):
            return Side(label, name, _words(words, "list", name),
                        "'%s' is taken for a list, since it begins with {; manifests:%s reads it as manifests" % (name, name))
        return Side(label, name, _words(words, "manifests", name), "")
    if path.exists():
        stop(2, "%s: '%s' is no regular file, so what is in it is not looked at beforehand: type list:%s or manifests:%s" % (
            label, name, name, name))
    if re.search(r"[*?[]", name):
        stop(2, "%s: '%s' is a pattern: name a file, or a folder (-R takes those in it too)" % (label, name))
    hint = "; the word for the cluster is cluster" if is_near(name, CLUSTER) else ""
    stop(3, "%s: there is no file or folder '%s'%s" % (label, name, hint))


def _begins_with_brace(label: str, path: Path) -> bool:
    try:
        with path.open("rb") as file:
            return file.read(1 << 16).lstrip()[:1] == b"{"
    except OSError as error:
        stop(3, "%s: '%s' cannot be read: %s" % (label, path, error.strerror))


def _words(given: Words, kind: str, value: str) -> Words:
    """The words that the plugin would have of these objects alone: of the options those that are about them."""
    words = Words()
    words.command = "list"
    if kind == "list":
        words.list_file = value
        return words
    words.ignored = given.ignored
    if kind == CLUSTER:
        words.kubectl = given.kubectl + (["--context", value] if value else [])
    elif kind == "overlay":
        words.overlay, words.allows_urls, words.namespace = value, given.allows_urls, given.namespace
    else:
        words.paths, words.is_recursive, words.namespace = [value], given.is_recursive, given.namespace
    return words


class Objects:
    """The objects of a state, as the list that np is given. What the plugin says of them begins with the label of the state."""

    def __init__(self, side: Side, room: Room) -> None:
        self.side = side
        self._manifests: Optional[Manifests] = None
        self._beside = Beside()
        said.speaker = "%s: %s" % (_SPEAKER, side.label)
        if side.remark:
            say(side.remark)
        self.path = self._fetch(room)
        said.speaker = _SPEAKER  # it stays where the plugin ends, and says why, as an error of this state

    def _fetch(self, room: Room) -> Path:
        words = self.side.words
        if words.list_file:
            return snapshot.fetch_file(words.list_file, room, self._beside)
        if words.has_manifests:
            self._manifests = Manifests(words, room, self._beside)
            self._manifests.fetch()
        else:
            from plugin import cluster
            cluster.fetch(words, room, self._beside)
        return room.path("list")

    def relay(self, text: bytes) -> None:
        """Repeats what np said of the objects, each line behind the label, and says of which objects."""
        said.speaker, said.name_item, said.not_given = "%s: %s" % (_SPEAKER, self.side.label), self._name_item, self._beside.left_out.counts
        relay(text, self.side.label + ": ")
        refused = _FOREIGN_POLICY.search(decoded(text))
        if refused and self._manifests is not None:
            self._manifests.tell_foreign(int(refused.group(1)))
        said.speaker, said.name_item, said.not_given = _SPEAKER, None, {}

    def _name_item(self, number: int) -> Optional[str]:
        return snapshot.name_item(self.path, number) if self._manifests is None else self._manifests.name(number)
