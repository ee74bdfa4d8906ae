"""Texts as JSON within a page, and texts by their numbers."""
from __future__ import annotations

import re
from typing import Dict, Iterable, List

from plugin.said import decoded, encoded, stop

_NOT_PLAIN = re.compile(r'[\x00-\x1f"\\]')
# What could end the element in which the JSON stands, and what ends a line of a script though JSON allows it in a text.
_HARMFUL = [(letter.encode(), b"\\u%04x" % ord(letter)) for letter in "<>&\u2028\u2029"]


def harmless(json: bytes) -> bytes:
    """JSON without the characters that mean something to what it stands in; only texts have them."""
    for letter, escape in _HARMFUL:
        json = json.replace(letter, escape)
    return json


def quoted(text: str) -> bytes:
    """The text as JSON."""
    return harmless(encoded('"%s"' % _NOT_PLAIN.sub(_escape, text)))


def _escape(found: "re.Match[str]") -> str:
    letter = found.group()
    return "\\" + letter if letter in '"\\' else "\\u%04x" % ord(letter)


def listed(items: Iterable[bytes]) -> bytes:
    """JSON texts as a list, each on a line of its own."""
    lines = b"\n,".join(items)
    return b"[\n" + lines + (b"\n]" if lines else b"]")


def listed_lines(lines: bytes) -> bytes:
    """Lines, each with its end, as a list of texts."""
    return b"[%s]" % b",".join(quoted(line) + b"\n" for line in decoded(lines).split("\n")[:-1])


class Numbered:
    """Texts of np in the order in which they came, each once. They need no escape of JSON."""

    def __init__(self) -> None:
        self.texts: List[bytes] = []
        self.numbers: Dict[bytes, int] = {}

    def of(self, text: bytes) -> int:
        """The number of the text, which is the next one where it is new."""
        number = self.numbers.get(text)
        if number is None:
            if b"\\" in text:
                stop(3, "a text that np-page does not know: %s" % decoded(text))
            number = self.numbers[text] = len(self.texts)
            self.texts.append(text)
        return number

    def json(self) -> bytes:
        """The texts as a list."""
        return listed(b'"%s"' % harmless(text) for text in self.texts)
