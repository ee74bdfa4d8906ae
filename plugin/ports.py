"""Connections, in the text that np prints, and sets of ports."""
from __future__ import annotations

from typing import Dict, Iterable, List, Optional, Tuple

_PROTOCOLS = ("TCP", "UDP", "SCTP")
_LAST_PORT = 65535


class Ports:
    """A set of ports, as ranges in ascending order that do not overlap. Each is its first and its last port."""

    def __init__(self, ranges: Iterable[Tuple[int, int]] = ()) -> None:
        self._ranges = list(ranges)

    @classmethod
    def read(cls, text: str) -> Ports:
        """The ports of a text as 80,443-445; fails with ValueError where it is no such text."""
        return cls(_range(piece) for piece in text.split(","))

    def least(self) -> Optional[int]:
        """The least port, or None where there is none."""
        return self._ranges[0][0] if self._ranges else None

    def is_whole(self) -> bool:
        """Whether it has every port."""
        return self._ranges == ALL_PORTS._ranges

    def text(self) -> str:
        """The ports as `read` takes them; empty where there is none."""
        return ",".join(str(first) if first == last else "%d-%d" % (first, last) for first, last in self._ranges)

    def __and__(self, other: Ports) -> Ports:
        common: List[Tuple[int, int]] = []
        here, there = 0, 0
        while here < len(self._ranges) and there < len(other._ranges):
            mine, theirs = self._ranges[here], other._ranges[there]
            first, last = max(mine[0], theirs[0]), min(mine[1], theirs[1])
            if first <= last:
                common.append((first, last))
            if mine[1] < theirs[1]:
                here += 1
            else:
                there += 1
        return Ports(common)

    def __sub__(self, other: Ports) -> Ports:
        return self & other._all_others()

    def _all_others(self) -> Ports:
        others: List[Tuple[int, int]] = []
        free = 1
        for first, last in self._ranges:
            if free < first:
                others.append((free, first - 1))
            free = last + 1
        if free <= _LAST_PORT:
            others.append((free, _LAST_PORT))
        return Ports(others)


def _range(text: str) -> Tuple[int, int]:
    first, _, last = text.partition("-")
    return int(first), int(last or first)


ALL_PORTS = Ports([(1, _LAST_PORT)])


def read_connections(text: str) -> List[Tuple[str, Ports]]:
    """The protocols and their ports, in np's order; fails with ValueError where they are not written as np prints them."""
    if text == "All Connections":
        return [(protocol, ALL_PORTS) for protocol in _PROTOCOLS]
    if text == "No Connections":
        return []
    parts = (part.partition(" ") for part in text.split("; "))
    return [(protocol, Ports.read(ports)) for protocol, _, ports in parts]


def write_connections(ports: Dict[str, Ports]) -> str:
    """The text of the protocols and their ports, as np prints it; empty where there are none."""
    if all(protocol in ports and ports[protocol].is_whole() for protocol in _PROTOCOLS):
        return "All Connections"
    texts = ((protocol, ports[protocol].text()) for protocol in _PROTOCOLS if protocol in ports)
    return "; ".join("%s %s" % each for each in texts if each[1])


def more(new: str, old: str) -> str:
    """What the connections `new` have and `old` have not, both as np prints them; empty where there is nothing."""
    known = dict(read_connections(old))
    return write_connections({protocol: ports - known.get(protocol, Ports()) for protocol, ports in read_connections(new)})
