"""What the name of a fault, a note or a caveat means, as docs/use/FAULTS.md and CAVEATS.md say it: each has a part there
below a heading of the third level, which is its name. They are shown as plain text."""
from __future__ import annotations

import difflib
import re
from itertools import groupby
from typing import Dict, Iterator, List, NamedTuple, Sequence, Tuple

from plugin import parts

_PAGES = ("docs/use/FAULTS.md", "docs/use/CAVEATS.md")
# What the parts below these headings are about; below others they are about faults.
_SORTS = {"Notes": "a note of np", "The kinds": "a caveat"}
_FAULT = "a fault of np"

_LINK = re.compile(r"\[([^][]*(?:\[[^][]*\][^][]*)*)\]\([^)]*\)")
_STRONG = re.compile(r"\*\*(.+?)\*\*", re.DOTALL)
_CELL_END = re.compile(r"(?<!\\)\|")


class Meaning(NamedTuple):
    """A part of a page: its name, what it is about, the page, and its lines."""

    name: str
    sort: str
    page: str
    lines: List[str]

    def text(self) -> str:
        """The part as plain text, behind a line that says what it is about."""
        return "%s: %s (%s)\n\n%s\n" % (self.name, self.sort, self.page, "\n".join(_plain(self.lines)))


def all_meanings() -> Dict[str, Meaning]:
    """The parts of both pages in their order, by what is compared of their names."""
    return {compared(found.name): found for page in _PAGES for found in _parts(page, parts.part(page).decode("utf-8"))}


def compared(name: str) -> str:
    """What counts of a name: neither capital letters, nor what stands between its words."""
    return re.sub(r"[^a-z0-9]", "", name.lower())


def is_fault(name: str) -> bool:
    """Whether np has a fault of this name."""
    found = all_meanings().get(compared(name))
    return found is not None and (found.name, found.sort) == (name, _FAULT)


def nearest(name: str, others: Sequence[str]) -> List[str]:
    """The nearest of the names and of other words, if one is near."""
    known = {compared(each): each for each in [*others, *(each.name for each in all_meanings().values())]}
    return [known[each] for each in difflib.get_close_matches(compared(name), known, 1, 0.6)]


def _parts(page: str, text: str) -> Iterator[Meaning]:
    """The parts of a page. A line of a fenced block is no heading."""
    sort, lines, is_fenced = "", [], False
    for line in text.splitlines():
        is_fenced = is_fenced != line.startswith("```")
        if is_fenced or not line.startswith("#"):
            lines.append(line)
            continue
        lines = []
        if line.startswith("## "):
            sort = _SORTS.get(line[3:], _FAULT)
        elif line.startswith("### "):
            yield Meaning(line[4:], sort, page, lines)


def _plain(lines: Sequence[str]) -> Iterator[str]:
    """The lines without their marks. Fenced blocks are set in, and each row of a table becomes a term and what there is
    about it."""
    for kind, group in groupby(_blocks("\n".join(lines).strip("\n").split("\n")), lambda line: line[0]):
        block = [line for _, line in group]
        if kind == "code":
            yield from ("    " + line for line in block)
        elif kind == "table":
            yield from _terms([_cells(row) for row in block])
        elif kind == "prose":
            yield from _unmarked("\n".join(block)).split("\n")


def _blocks(lines: Sequence[str]) -> Iterator[Tuple[str, str]]:
    """The lines, each with the kind of the block that it stands in."""
    is_fenced = False
    for line in lines:
        if line.startswith("```"):
            is_fenced = not is_fenced
            yield "fence", line
        elif is_fenced:
            yield "code", line
        else:
            yield "table" if line.startswith("|") else "prose", line


def _cells(row: str) -> List[str]:
    """The cells of a row of a table. A stroke within one has a backslash before it."""
    return [_unmarked(cell.strip()).replace("\\|", "|") for cell in _CELL_END.split(row)[1:-1]]


def _terms(rows: Sequence[Sequence[str]]) -> Iterator[str]:
    """The rows of a table of two columns, below their heading and its rule."""
    for term, about in rows[2:]:
        yield "  " + term
        yield "      %s: %s" % (rows[0][1], about)


def _unmarked(text: str) -> str:
    return _STRONG.sub(r"\1", _LINK.sub(r"\1", text)).replace("`", "")
