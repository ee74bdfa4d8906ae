"""The changes as Markdown, for a comment to a pull request. No name of an object or a path can make markup of its own."""
from __future__ import annotations

import re
from typing import Iterable, Iterator, List, Sequence

from plugin.changes.found import CLOSED, DIRECTIONS, OPENED, Change, Found
from plugin.changes.output import write_all
from plugin.changes.sides import Side
from plugin.said import decoded, encoded, say, shown

# GitHub takes no longer comment, in characters.
_MOST = 65536
# A table of more rows is folded, and of more names only so many are named.
_MOST_OPEN = 20
_MOST_NAMED = 10

# What is taken as it stands between two backticks.
_PLAIN = re.compile(r"[A-Za-z0-9/._:,#={}\[\]()-](?:[A-Za-z0-9/._:,#={}\[\]() -]*[A-Za-z0-9/._:,#={}\[\]()-])?")
_LETTER = re.compile(r"[A-Za-z0-9]")
_HEADS = {OPENED: "What opens", CLOSED: "What closes"}
_VERBS = {OPENED: ("opens", "open"), CLOSED: ("closes", "close")}


def write(found: Found, sides: Sequence[Side]) -> None:
    """Prints a heading, a line with the counts, and a table of what opens and one of what closes."""
    length = 0

    def measured() -> Iterator[bytes]:
        nonlocal length
        for text in _parts(found, sides):
            length += len(text)
            yield text.encode("utf-8")

    write_all(measured())
    if length > _MOST:
        say("the Markdown has %d characters, and GitHub takes no comment of more than %d" % (length, _MOST))


def code(text: str) -> str:
    """A text as code. Where it may hold markup, each sign in it is written by its number; within code nobody is mentioned."""
    if _PLAIN.fullmatch(text):
        return "`%s`" % text
    return "<code>%s</code>" % "".join(each if _LETTER.fullmatch(each) else "&#%d;" % ord(each) for each in shown(_whole(text)))


def _whole(text: str) -> str:
    """The text in which each byte that is no UTF-8 is a sign that says so."""
    return encoded(text).decode("utf-8", "replace")


def _parts(found: Found, sides: Sequence[Side]) -> Iterator[str]:
    yield "## Who can reach whom: what changes\n\nFrom %s to %s %s.\n" % (*(code(side.shown()) for side in sides), _summary(found))
    for title, names in (("New workloads", found.new()), ("Workloads that are gone", found.gone())):
        if names:
            yield "\n%s: %s\n" % (title, _listed(names))
    parted = found.parted()
    if parted:
        yield "\nPolicies tell the pods of %s apart otherwise than before, so that their parts count as gone and as new.\n" % (
            _listed(parted))
    for direction in DIRECTIONS:
        if found.count[direction]:
            yield from _table(found, direction)


def _summary(found: Found) -> str:
    return " and ".join(_counted(found.count[direction], one, many) for direction, (one, many) in _VERBS.items())


def _counted(count: int, one: str, many: str) -> str:
    if not count:
        return "nothing %s" % one
    return "**1 row %s**" % one if count == 1 else "**%s rows %s**" % (format(count, ","), many)


def _listed(names: List[bytes]) -> str:
    more = " and %d more" % (len(names) - _MOST_NAMED) if len(names) > _MOST_NAMED else ""
    return ", ".join(code(decoded(name)) for name in names[:_MOST_NAMED]) + more


def _table(found: Found, direction: str) -> Iterator[str]:
    count = found.count[direction]
    is_folded = count > _MOST_OPEN
    yield "\n### %s\n\n" % _HEADS[direction]
    if is_folded:
        yield "<details><summary>%s rows</summary>\n\n" % format(count, ",")
    yield "| from | to | connections |\n|---|---|---|\n"
    yield from _rows(found.changes(direction), set(found.new() if direction == OPENED else found.gone()),
                     "new" if direction == OPENED else "gone")
    if is_folded:
        yield "\n</details>\n"


def _rows(changes: Iterable[Change], marked: "set[bytes]", mark: str) -> Iterator[str]:
    for change in changes:
        ends = (code(decoded(end)) + (" **%s**" % mark if end in marked else "") for end in (change.source, change.destination))
        yield "| %s | %s%s | %s |\n" % (*ends, decoded(change.family), decoded(change.connections))
