"""Reads the rows of np list into the table of a page: once, as np prints them. They are not kept, since there may be
millions."""
from __future__ import annotations

from typing import Dict, List, NoReturn, Tuple

from plugin.page.ends import RECEIVED, SENT
from plugin.page.matrix import Matrix
from plugin.page.rows import Lines, Row, row_of
from plugin.page.table import Table
from plugin.said import decoded, stop

_CONTROLLER = b"{ingress-controller}"
_MARKS = (b" (IPv4)", b" (IPv6)")
_MOST_AT_ONCE = 1024
_MOST_KNOWN = 100_000


class ListReader:
    """Reads the rows of np list. First are those between workloads, by source and then by destination, in the order
    of the names."""

    def __init__(self, table: Table, lines: Lines) -> None:
        self._table = table
        self._lines = lines
        self._names = table.workloads.texts
        self._places = table.workloads.numbers
        table.matrix = Matrix(len(self._names))
        # The last row between workloads: the place of its source, how its line ends with it, what passes, and the
        # destination's place.
        self._source = -1
        self._trail = b"\0"
        self._connections = -1
        self._destination = -1
        # What such rows say, by their lines as far as the source: the place of the destination, and what passes.
        # Other sources have rows that begin in the same way; most are known by it, which takes half the time.
        self._known: Dict[bytes, Tuple[int, int]] = {}
        # The rows of one pair that speak of one family each: the texts of its members in JSON.
        self._held: Dict[Tuple[int, int], List[bytes]] = {}

    def read(self) -> None:
        """Reads all rows; ends with status 3 where one is not as np writes it."""
        for line in self._lines:
            known = self._known.get(line[:-len(self._trail)]) if line.endswith(self._trail) else None
            if known is not None:
                self._read_pair(line, *known)
            elif line not in (b"[]\n", b"\n"):
                self._read_row(line, row_of(line))
        self._end_held()

    def _read_row(self, line: bytes, row: Row) -> None:
        text, to, by = row
        connections = self._table.connections(text)
        source, destination = self._places.get(by), self._places.get(to)
        if source is not None and destination is not None:
            self._learn(line, source, destination, connections)
            self._read_pair(line, destination, connections)
        elif source is not None and to.endswith(_MARKS):
            self._read_family(row, source)
        elif source is not None:
            self._read_addresses(source, SENT, to, connections)
        elif destination is None:
            _refuse_name(row)
        elif by != _CONTROLLER:
            self._read_addresses(destination, RECEIVED, by, connections)
        elif self._table.is_inside[destination]:
            self._table.through[destination] = connections
            if self._table.controller:
                self._table.asked.add(self._table.controller, to, is_from_addresses=True)

    # Rows between workloads.

    def _learn(self, line: bytes, source: int, destination: int, connections: int) -> None:
        if source != self._source:
            self._source = source
            self._trail = b'","source":"%s"},\n' % self._names[source]
            self._connections = -1
        if len(self._known) > _MOST_KNOWN:
            self._known.clear()
        self._known[line[:-len(self._trail)]] = (destination, connections)

    def _read_pair(self, line: bytes, destination: int, connections: int) -> None:
        table, source = self._table, self._source
        is_kept = table.is_inside[source] or table.is_inside[destination]
        if is_kept:
            if self._held:
                self._end_held()
            sent = table.matrix.sent_of(source)
            sent.see(destination, connections)
            if not table.asked.has_too_many:
                table.asked.add(self._names[source], self._names[destination])
        is_alike = connections == self._connections and destination == self._destination + 1
        if is_alike and (table.asked.has_too_many or not is_kept):
            destination = self._pass_alike(line, destination)
            if is_kept:
                sent.last = destination
        self._connections = connections
        self._destination = destination

    def _pass_alike(self, line: bytes, destination: int) -> int:
        """Passes the rows that say of the next workloads what this line says, and returns the last one's destination.

        Most rows of a large table are such. Twice as many are tried each time, until they are too many, and then half
        as many.
        """
        trail = self._trail
        lead = line[:-len(self._names[destination] + trail)]
        end = self._end_of_alike(destination)
        count, is_growing = 1, True
        while count and destination + 1 < end:
            names = self._names[destination + 1:min(destination + 1 + count, end)]
            if self._lines.pass_over(lead + (trail + lead).join(names) + trail):
                destination += len(names)
            else:
                is_growing = False
            count = min(2 * count, _MOST_AT_ONCE) if is_growing else count // 2
        return destination

    def _end_of_alike(self, destination: int) -> int:
        """The place before which rows may be alike: that of the source itself, or where the namespace begins or ends
        that is kept."""
        is_inside = self._table.is_inside
        end = self._source if destination < self._source else len(is_inside)
        if is_inside[self._source]:
            return end
        return next((place for place in range(destination, end) if is_inside[place] != is_inside[destination]), end)

    # Rows between workloads that speak of one family alone. Both of a pair become one value; IPv4 stands first.

    def _read_family(self, row: Row, source: int) -> None:
        text, marked, by = row
        name, family = marked[:-7], marked[-5:-1]
        destination = self._places.get(name)
        if destination is None:
            _refuse_name(row)
        if not (self._table.is_inside[source] or self._table.is_inside[destination]):
            return
        pair = (source, destination)
        if pair not in self._held:
            self._end_held()
            self._table.asked.add(by, name)
        self._held.setdefault(pair, []).append(b'"%s":"%s"' % (family, text))
        if family == b"IPv6":
            self._end_held()

    def _end_held(self) -> None:
        for (source, destination), texts in self._held.items():
            self._table.matrix.sent_of(source).see(destination, self._table.connections_of(b"{%s}" % b",".join(texts)))
        self._held.clear()

    # Rows between a workload and addresses. A range of them is explained by the first address of its first block.

    def _read_addresses(self, workload: int, side: int, addresses: bytes, connections: int) -> None:
        if self._table.is_inside[workload]:
            self._table.ranges.add(workload, side, addresses, connections)
            self._table.asked.add_address(self._names[workload], side, addresses.partition(b"/")[0], bool(connections))


def _refuse_name(row: Row) -> NoReturn:
    stop(3, "a row of a workload that was not named: %s" % ", ".join(map(decoded, row)))
