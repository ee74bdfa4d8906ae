"""The page's script and style in as few bytes as go without another name for anything: without comments, indents, and spaces that
separate nothing. The one file of the plugin has them so, since it takes a while."""
from __future__ import annotations

import re
from typing import Iterator

_STRING = r"'(?:[^'\\\n]|\\.)*'|\"(?:[^\"\\\n]|\\.)*\""
_REGEX = r"/(?:[^/\\\[\n]|\\.|\[(?:[^\]\\\n]|\\.)*\])+/[a-z]*"
# A stroke begins a regular expression where no value stands before it, and else it divides.
_AFTER_VALUE = re.compile(r"//[^\n]*|%s|[\w$]+|=>|\s|." % _STRING)
_ELSEWHERE = re.compile(r"//[^\n]*|%s|%s|[\w$]+|=>|\s|." % (_STRING, _REGEX))
_VALUE_ENDS = re.compile(r"(?!return$|typeof$|of$|in$)[\w$]+|['\")\]}].*|.+['\"]")
# Spaces beside these separate nothing. Plus and minus are not among them: two of either are another sign.
_ALONE = frozenset("=(){}[],;:?&|<>!*") | {"=>"}


def tokens(script: str) -> Iterator[str]:
    """The words, texts and signs of a script, its spaces, and the ends of its lines. No text of it goes over the end of a line."""
    place, last = 0, ""
    while place < len(script):
        found = (_AFTER_VALUE if _VALUE_ENDS.fullmatch(last) else _ELSEWHERE).match(script, place)
        assert found is not None
        place, token = found.end(), found.group()
        if not token.isspace():
            last = token
        yield token


def squeeze_script(script: str) -> str:
    """The script, which means the same."""
    lines = (line.strip() for line in script.splitlines())
    written = [""]
    for token in tokens("".join(line + "\n" for line in lines if line and not line.startswith("//"))):
        if token == " " and written[-1] in _ALONE:
            continue
        if token in _ALONE and written[-1] == " ":
            written.pop()
        written.append(token)
    return "".join(written)


def squeeze_style(style: str) -> str:
    """The style, which means the same: it has no texts in which a space stands beside a sign."""
    lines = "\n".join(line.strip() for line in style.splitlines() if line.strip())
    return re.sub(r"\s*([{};,>])\s*", r"\1", lines.replace(": ", ":")).replace(";}", "}").replace("}", "}\n")


def squeezed(name: str, part: bytes) -> bytes:
    """A part of the page by its name: a script or a style is squeezed, and else it is as it was."""
    ways = {".js": squeeze_script, ".css": squeeze_style}
    way = ways.get(name[name.rfind("."):])
    return way(part.decode()).encode() if way else part
