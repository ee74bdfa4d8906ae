"""The rows of np, read one after the other as it prints them, since there may be millions."""
from __future__ import annotations

import re
from itertools import chain
from typing import IO, Dict, List, NamedTuple, NoReturn, Optional, Tuple

from plugin.said import decoded, stop

NOTHING = b"No Connections"
CONTROLLER = b"{ingress-controller}"
IPV4, IPV6 = b" (IPv4)", b" (IPv6)"

# What passes, where to, and from where.
Row = Tuple[bytes, bytes, bytes]

# A row as np prints it in JSON. What a name or a range may have needs no escape there.
_ROW = re.compile(rb'\{"connections":"([^"\\\n]*)","destination":"([^"\\\n]*)","source":"([^"\\\n]*)"\}[,\]]\n')
_BESIDE_TEXTS = len(b'{"connections":"","destination":"","source":""},\n')
# The rows of addresses begin with one of the first address of all, behind those between workloads.
_FIRST_SOURCE = b'"source":"0.0.0.0'
_FIRST_ADDRESS = re.compile(rb'"source":"0\.0\.0\.0(-[0-9.]+)?"\}')

_AT_ONCE = 1 << 18
_LONGEST_ROW = 1 << 24
# How many bytes are compared at first, since tables may differ at the next row, and how few are still worth it.
_AT_FIRST, _FEWEST = 256, 32


class Range(NamedTuple):
    """Addresses by their ends, and what passes."""

    first: bytes
    last: bytes
    connections: bytes


# The kinds of rows that a workload has about addresses: whether they come from these, and whether of IPv6. In np's order.
Kind = Tuple[bool, bool]
KINDS: List[Kind] = [(True, False), (True, True), (False, False), (False, True)]


class Addresses(NamedTuple):
    """What passes between a workload and addresses: the ranges of each kind, in ascending order."""

    workload: bytes
    ranges: Dict[Kind, List[Range]]


class Rows:
    """The rows of a table: first those between workloads, then those of addresses, and then those of Ingresses."""

    def __init__(self, stream: IO[bytes]) -> None:
        """Ends with status 3 where the table does not begin as one, as where np refuses the objects."""
        self._stream = stream
        self._data = b""
        self._place = 0
        self._behind_pairs = 0
        if stream.read(1) != b"[":
            self._refuse()

    # Rows between workloads.

    def pass_alike(self, other: Rows) -> None:
        """Passes over most of the rows that come next in both tables, as long as they are between workloads and the same."""
        is_more = True
        while is_more:
            self._read_ahead(_AT_ONCE)
            other._read_ahead(_AT_ONCE)
            count = _alike(self._data, self._place, other._data, other._place)
            end = self._data.rfind(b"\n", self._place, self._place + count) + 1
            first = self._first_of_addresses(end)
            is_more = count >= _AT_ONCE and first is None
            passed = (end if first is None else first) - self._place
            if passed <= 0:
                return
            self._place += passed
            other._place += passed

    def pairs(self, size: int) -> List[Row]:
        """The rows that come next, if they are between workloads: about so many bytes of them, and both where a row of IPv4 has
        one of IPv6 behind it. They are taken by `take_pairs`."""
        while True:
            self._read_ahead(size)
            end = self._data.rfind(b"\n", self._place, self._place + size) + 1
            first = self._first_of_addresses(end)
            rows = self._rows_before(end if first is None else first)
            if first is None and rows and rows[-1][1].endswith(IPV4):
                self._behind_pairs -= _length(rows.pop())
            if rows or first is not None or self._is_at_end():
                return rows
            if size > _LONGEST_ROW:
                self._refuse()
            size *= 2

    def take_pairs(self, left: List[Row]) -> None:
        """Takes the rows that `pairs` gave, but for those at their end that are left."""
        self._place = self._behind_pairs - sum(map(_length, left))

    def _rows_before(self, end: int) -> List[Row]:
        """The rows up to this place; ends with status 3 where there is something else."""
        rows: List[Row] = _ROW.findall(self._data, self._place, end)
        if sum(map(len, chain.from_iterable(rows))) + len(rows) * _BESIDE_TEXTS != max(end - self._place, 0) and not self._is_at_end():
            self._refuse()
        self._behind_pairs = max(end, self._place)
        return rows

    def _first_of_addresses(self, end: int) -> Optional[int]:
        """Where the first row of addresses begins, if it ends before this place."""
        if self._data.find(_FIRST_SOURCE, self._place, end) < 0:
            return None
        found = _FIRST_ADDRESS.search(self._data, self._place, end)
        return None if found is None else max(self._data.rfind(b"\n", self._place, found.start()) + 1, self._place)

    # Rows of addresses, and of Ingresses.

    def addresses(self) -> Optional[Addresses]:
        """Takes the rows that come next, if they are about a workload and addresses: all of the workload."""
        found: Optional[Addresses] = None
        while True:
            row = self._row()
            if row is None or row[3] == CONTROLLER:
                return found
            is_source = b"[" not in row[3]
            text, workload = (row[3], row[2]) if is_source else (row[2], row[3])
            if found is None:
                found = Addresses(workload, {kind: [] for kind in KINDS})
            if found.workload != workload:
                return found
            first, _, last = text.partition(b"-")
            found.ranges[is_source, b":" in text].append(Range(first, last or first, row[1]))
            self._place = row.end()

    def ingresses(self) -> Dict[bytes, bytes]:
        """Takes the rows that are left, of Ingresses: what reaches each workload."""
        found = {}
        row = self._row()
        while row is not None:
            if row[3] != CONTROLLER:
                self._refuse()
            found[row[2]] = row[1]
            self._place = row.end()
            row = self._row()
        return found

    def _row(self) -> Optional[re.Match[bytes]]:
        """The row that comes next; none where the table ends."""
        row = _ROW.match(self._data, self._place)
        while row is None and len(self._data) - self._place < _LONGEST_ROW and self._read():
            row = _ROW.match(self._data, self._place)
        if row is None and not self._is_at_end():
            self._refuse()
        return row

    # Bytes.

    def _is_at_end(self) -> bool:
        return self._data[self._place:] in (b"", b"]\n")

    def _read_ahead(self, size: int) -> None:
        while len(self._data) - self._place < size and self._read():
            pass

    def _read(self) -> bool:
        more = self._stream.read(_AT_ONCE)
        self._data = self._data[self._place:] + more
        self._place = 0
        return bool(more)

    def _refuse(self) -> NoReturn:
        line = self._data[self._place:self._place + 200].partition(b"\n")[0]
        stop(3, "np does not print a table as it does: %s" % decoded(line))


def _length(row: Row) -> int:
    return len(row[0]) + len(row[1]) + len(row[2]) + _BESIDE_TEXTS


def _alike(one: bytes, place: int, other: bytes, there: int) -> int:
    """How many bytes from the places on are the same, or a few less: twice as many are compared each time, until they differ,
    and then half as many."""
    count, more = 0, _AT_FIRST
    end = min(len(one) - place, len(other) - there, _AT_ONCE)
    is_growing = True
    while more >= _FEWEST and count < end:
        more = min(more, end - count)
        if one[place + count:place + count + more] == other[there + count:there + count + more]:
            count += more
        else:
            is_growing = False
        more = 2 * more if is_growing else more // 2
    return count
