"""Selectors of labels as `kubectl get -l` takes them, in a statement."""
from __future__ import annotations

import re
from functools import lru_cache
from typing import Iterator, List, Tuple

from plugin.selectors import Requirement, Selector

_NAME = r"[A-Za-z0-9](?:[-A-Za-z0-9_.]{0,61}[A-Za-z0-9])?"
_KEY = r"(?P<key>(?:[a-z0-9](?:[-a-z0-9.]{0,251}[a-z0-9])?/)?%s)" % _NAME
_VALUE = "(?:%s)?" % _NAME

@lru_cache(maxsize=None)
def _forms() -> "List[Tuple[re.Pattern[str], str]]":
    """The forms of a requirement, each with the operator that it stands for."""
    return [
        (re.compile(r"!\s*%s" % _KEY), "DoesNotExist"),
        (re.compile(_KEY), "Exists"),
        (re.compile(r"%s\s*!=\s*(?P<values>\S*)" % _KEY), "NotIn"),
        (re.compile(r"%s\s*==?\s*(?P<values>[^\s=]*)" % _KEY), "In"),
        (re.compile(r"%s\s+(?:in|In)\s*\((?P<values>[^()]+)\)" % _KEY), "In"),
        (re.compile(r"%s\s+(?:notin|NotIn)\s*\((?P<values>[^()]+)\)" % _KEY), "NotIn"),
    ]


class BadSelector(ValueError):
    """The text is no selector; the error is the piece of it that is no requirement."""


def read(text: str) -> Selector:
    """The selector that the text is."""
    return Selector(tuple(_requirement(piece.strip(" ")) for piece in pieces(text, ",")))


def pieces(text: str, separator: str) -> List[str]:
    """The pieces of the text between separators that stand in no brackets."""
    found, depth, first = [], 0, 0
    for place, letter in enumerate(text):
        depth += (letter == "(") - (letter == ")")
        if depth == 0 and place >= first and text.startswith(separator, place):
            found.append(text[first:place])
            first = place + len(separator)
    return found + [text[first:]]


def _requirement(piece: str) -> Requirement:
    for form, operator in _forms():
        found = form.fullmatch(piece)
        if found is not None:
            listed = found.groupdict().get("values")
            return Requirement(found.group("key"), operator, frozenset(_values(piece, listed)))
    raise BadSelector(piece)


def _values(piece: str, listed: "str | None") -> Iterator[str]:
    for value in listed.split(",") if listed is not None else ():
        if not re.fullmatch(_VALUE, value.strip(" ")):
            raise BadSelector(piece)
        yield value.strip(" ")
