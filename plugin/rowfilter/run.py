"""Has np print its rows, and passes on those that the filters keep."""
from __future__ import annotations

from functools import lru_cache
from pathlib import Path
from typing import Callable, FrozenSet, List, Optional

from plugin import children
from plugin.children import Ended
from plugin.ports import Ports, read_connections
from plugin.program import Program
from plugin.rowfilter import focus
from plugin.rowfilter.forms import FORMS, NO_ROW, Form, Row
from plugin.rowfilter.words import Filters, Port
from plugin.said import decoded, encoded, note, relay, stop, write

_MARKS = (" (IPv4)", " (IPv6)")
_FAILURE = "the rows cannot be written"
_NO_ROWS = "%s does not print rows as np does"

Keeps = Callable[[Row], bool]


def run(filters: Filters, program: Program, path: Path) -> Ended:
    """Prints the rows of the list that are asked for, and says that there may be others; returns how np ended."""
    try:
        in_focus = focus.workloads(filters, program, path) if filters.has_focus_of_plugin else None
    except focus.Unknown as unknown:
        with path.open("rb") as file:  # np says so itself
            return program.answer(["list", *filters.own, "--focus=" + unknown.name], stdin=file)
    ended = _pass_on(filters, program, path, keeper(filters, in_focus))
    relay(ended.said)
    if ended.status == 0:
        note("rows are filtered: " + filters.text())
    return ended


def _pass_on(filters: Filters, program: Program, path: Path, keeps: Keeps) -> Ended:
    """Writes the rows of np that are kept while np prints them: there may be millions."""
    with path.open("rb") as file:
        try:
            rows = children.Stream([*program.command, "list", *filters.words_of_np], stdin=file)
        except OSError as error:
            stop(3, "%s cannot be run: %s" % (program.name, error.strerror))
    output = Output(FORMS[filters.value("--format", "text")](), keeps)
    try:
        for block in rows.lines():
            output.take(decoded(block).split("\n"))
    except NO_ROW:
        stop(3, _NO_ROWS % program.name)
    ended = rows.end()
    if ended.status == 0 and rows.is_cut:
        stop(3, _NO_ROWS % program.name)
    if ended.status == 0:
        output.end()
    return ended


class Output:
    """Writes the lines of rows that are kept."""

    def __init__(self, form: Form, keeps: Keeps) -> None:
        self._form = form
        self._keeps = keeps
        self._has_begun = False
        self._is_first = True

    def take(self, lines: List[str]) -> None:
        """Takes the next lines of np, at least one."""
        text = ""
        if not self._has_begun:
            text, lines = self._form.begin(lines)
            self._has_begun = True
        kept = [line for line, row in zip(lines, self._form.rows(lines)) if self._keeps(row)]
        text += self._form.join(kept, self._is_first)
        self._is_first = self._is_first and not kept
        if text:
            write(encoded(text), _FAILURE)

    def end(self) -> None:
        """There are no more lines."""
        if self._has_begun:
            write(encoded(self._form.end()), _FAILURE)


def keeper(filters: Filters, in_focus: Optional[FrozenSet[str]]) -> Keeps:
    """Whether a row is kept. Without a set of workloads the focus is not asked."""
    side, holds = filters.side, port_test(filters.ports)

    def keeps(row: Row) -> bool:
        source, destination, connections = row
        if in_focus is not None:
            is_from = side != "to" and source in in_focus
            if not (is_from or side != "from" and without_mark(destination) in in_focus):
                return False
        return holds(connections)

    return keeps


def without_mark(destination: str) -> str:
    """The destination of a row without the family of which alone the row speaks."""
    return destination[:-len(_MARKS[0])] if destination.endswith(_MARKS) else destination


def port_test(ports: List[Port]) -> Callable[[str], bool]:
    """Whether connections, as np prints them, hold one of the ports, or anything where no port is asked for."""
    if not ports:
        return lambda _connections: True
    wanted = [(protocol, Ports([(number, number)])) for protocol, number in ports]

    @lru_cache(maxsize=1 << 10)  # many rows have the same text, and one may be long
    def holds(connections: str) -> bool:
        held = dict(read_connections(connections))
        return any((held.get(protocol, Ports()) & port).least() is not None for protocol, port in wanted)

    return holds
