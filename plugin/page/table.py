"""The table of a page: the rows of np as one JSON object, in which workloads with equal rows share what they send."""
from __future__ import annotations

from typing import Dict, Iterable, List

from plugin.page.ends import RECEIVED, SENT, Asked, Ends
from plugin.page.matrix import Matrix
from plugin.page.rows import rows
from plugin.page.texts import Numbered, harmless, listed, quoted
from plugin.said import encoded, stop


class Table:
    """The rows of a snapshot, by the numbers of the workloads and of what passes (0: nothing).

    `only` is the one namespace whose rows are kept: those with an end in it (empty: all). `controller` is the workload
    that sends what comes through Ingresses (empty: it is not known). The workloads are named first, by `read_exposure`
    or `read_names`; `reading` then adds the rows of np list.
    """

    def __init__(self, only: str, controller: str = "") -> None:
        self._only = only
        self.controller = encoded(controller)
        self.workloads = Numbered()
        self.is_inside: List[bool] = []  # whether a workload is in the namespace whose rows are kept
        self.matrix = Matrix(0)
        self.ranges = Ends()
        self.through: Dict[int, int] = {}  # what comes to a workload through Ingresses
        self.asked = Asked()
        self._connections = Numbered()
        self._numbers = {b"No Connections": 0}
        self._exposure = Ends()

    def connections(self, text: bytes) -> int:
        """The number of what passes."""
        number = self._numbers.get(text)
        if number is None:
            number = self._numbers[text] = self.connections_of(b'"%s"' % text)
        return number

    def connections_of(self, json: bytes) -> int:
        """The number of what passes, of a text or of an object that has a text for each family."""
        return 1 + self._connections.of(json)

    def read_exposure(self, lines: Iterable[bytes]) -> None:
        """Names the workloads, all of which np exposure has, and reads its rows."""
        for text, destination, source in rows(lines):
            side, name, end = (RECEIVED, destination, source) if source.startswith(b"{") else (SENT, source, destination)
            workload = self._name(name)
            if self.is_inside[workload]:
                self._exposure.add(workload, side, end, self.connections(text))

    def read_names(self, lines: Iterable[bytes]) -> None:
        """Names the workloads from the rows of np list, for where np refuses the exposure.

        Every workload is the destination of exactly one row whose source is the range that begins with the least
        address.
        """
        for _, destination, source in rows(line for line in lines if b'"source":"0.0.0.0/' in line):
            if b"[" not in source:
                self._name(destination)

    def _name(self, name: bytes) -> int:
        number = self.workloads.of(name)
        if number == len(self.is_inside):
            self.is_inside.append(not self._only or name.startswith(encoded(self._only) + b"/"))
        return number

    def check_namespace(self) -> None:
        """Ends with status 1 where no workload is in the namespace whose rows are kept."""
        if self._only and True not in self.is_inside:
            stop(1, "no workload is in the namespace %s" % self._only)

    def json(self) -> bytes:
        """The table as model.js of the page reads it."""
        count = len(self.is_inside)
        return b"".join([
            b'{"only":', quoted(self._only),
            b'\n,"names":', self.workloads.json(),
            b'\n,"connections":[null', *(b"\n," + harmless(text) for text in self._connections.texts),
            b"\n]\n", self._groups_json(count),
            b'\n,"ranges":', self.ranges.texts.json(),
            b'\n,"outside":', self.ranges.json(count),
            b'\n,"ends":', self._exposure.texts.json(),
            b'\n,"exposure":', self._exposure.json(count),
            b"\n}\n"])

    def _groups_json(self, count: int) -> bytes:
        """Of each workload its group; of each group the value within it, the row with itself, what comes through
        Ingresses, and what it sends."""
        _, lists = self.ranges.lists(count)
        through = [self.through.get(place, 0) for place in range(count)]
        leaders, inner = self.matrix.groups(list(zip(through, lists)))
        sent = self.matrix.sent
        numbers: Dict[int, int] = {}
        of = [b"%d" % numbers.setdefault(leader, len(numbers)) for leader in leaders]
        groups = [b'[%d,%d,%d,"%s"]' % (inner[place], sent[place].own, through[place], sent[place].text(inner[place], count))
                  for place in numbers]
        return b',"groupOf":%s,"groups":%s' % (listed(of), listed(groups))
