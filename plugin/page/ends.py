"""The rows of a workload with ends that are no workloads, and the ends that np explain is asked about."""
from __future__ import annotations

from typing import Dict, List, Tuple

from plugin.page.texts import Numbered, listed

RECEIVED, SENT = 0, 1

# Who sends, and who receives.
Pair = Tuple[bytes, bytes]


class Ends:
    """Ranges of addresses, or pods that do not exist yet, and each workload's rows with them: what it is sent, and
    what it sends."""

    def __init__(self) -> None:
        self.texts = Numbered()
        self._rows: Dict[int, Tuple[List[bytes], List[bytes]]] = {}

    def add(self, workload: int, side: int, end: bytes, connections: int) -> None:
        """Adds a row of the workload, in which these connections pass."""
        self._rows.setdefault(workload, ([], []))[side].append(b"%d,%d" % (self.texts.of(end), connections))

    def lists(self, count: int) -> Tuple[List[bytes], List[int]]:
        """The distinct lists of rows, and of each of so many workloads the number of its list, or -1 where it has no
        row."""
        numbers: Dict[bytes, int] = {}
        of = [-1] * count
        for workload, sides in sorted(self._rows.items()):
            of[workload] = numbers.setdefault(b"[[%s],[%s]]" % (b",".join(sides[RECEIVED]), b",".join(sides[SENT])), len(numbers))
        return list(numbers), of

    def json(self, count: int) -> bytes:
        """The lists, and of each workload which of them is its own."""
        lists, of = self.lists(count)
        return b'{"lists":%s,"of":%s}' % (listed(lists), listed(b"%d" % number for number in of))


class Asked:
    """The ends that np explain is asked about.

    Where all pairs of ends are few, these are all of them. Else they are those between which something passes, or of
    these the rows from addresses, if they are few; and of each workload one row with addresses at either side, if
    these are few: its answer names the policies that isolate the workload, whoever is at the other end.
    """

    MOST = 100
    MOST_IN_ALL = 250

    def __init__(self) -> None:
        self.has_too_many = False  # then more rows between workloads make no difference
        self._passing: List[Pair] = []
        self._from_addresses: List[Pair] = []
        self._with_addresses: List[Pair] = []
        self._sides: Dict[Tuple[bytes, int], Pair] = {}

    def add(self, source: bytes, destination: bytes, is_from_addresses: bool = False) -> None:
        """Adds ends between which something passes."""
        for rows in [self._passing, self._from_addresses] if is_from_addresses else [self._passing]:
            if len(rows) <= self.MOST_IN_ALL:
                rows.append((source, destination))
        self.has_too_many = len(self._passing) > self.MOST_IN_ALL

    def add_address(self, workload: bytes, side: int, address: bytes, passes: bool) -> None:
        """Adds a workload and an address, between which something passes or nothing."""
        ends = (address, workload) if side == RECEIVED else (workload, address)
        if passes:
            self.add(*ends, is_from_addresses=side == RECEIVED)
        if len(self._with_addresses) <= self.MOST_IN_ALL:
            self._with_addresses.append(ends)
        self._sides.setdefault((workload, side), ends)

    def ends(self, workloads: List[bytes], is_inside: List[bool], most: int) -> List[Pair]:
        """The ends to ask about, among these workloads; at least one of two is inside. Of those between which nothing
        passes there are so many at the most."""
        if len(workloads) ** 2 + len(self._with_addresses) <= min(most, self.MOST_IN_ALL):
            every = [(source, destination) for source, sends in zip(workloads, is_inside)
                     for destination, receives in zip(workloads, is_inside) if sends or receives]
            return list(dict.fromkeys(self._passing + every + self._with_addresses))
        few = [rows for rows in (self._passing, self._from_addresses) if len(rows) <= self.MOST]
        sides = list(self._sides.values())
        return list(dict.fromkeys((few[0] if few else []) + (sides if len(sides) <= min(most, 2 * self.MOST) else [])))
