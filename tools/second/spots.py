"""Protocols and ports, in cells in which no rule, pod or question tells two ports apart; a set of spots is a number of bits, one a cell.

The text asks about one spot at a time. A rule, a named port and a statement speak of ranges of ports: between two neighbouring ends of
these, all ports are treated alike, so that a cell stands for each of its ports. The same goes for addresses and blocks."""
from bisect import bisect_left
from functools import lru_cache
from typing import Iterable, List, Tuple

from .addresses import WIDTHS, Address, Cidr
from .model import LAST_PORT, PROTOCOL_NAMES, PROTOCOLS, TCP, Estate, Span, peers_of, rules_of

# The ranges of the ports of a protocol, with gaps between them, and those of each protocol.
Runs = Tuple[Tuple[int, int], ...]
Conns = Tuple[Runs, ...]
WHOLE: Runs = ((1, LAST_PORT),)


# ---- texts of connections

def part_text(proto: int, runs: Runs) -> str:
    """The name of a protocol, a space, and its runs joined by commas."""
    return PROTOCOL_NAMES[proto] + " " + ",".join(str(lo) if lo == hi else "%d-%d" % (lo, hi) for lo, hi in runs)


@lru_cache(maxsize=4096)
def conns_text(conns: Conns) -> str:
    """The text of the runs of each protocol: that of the whole space, or the parts of the protocols that have a port."""
    if all(runs == WHOLE for runs in conns):
        return "All Connections"
    return "; ".join(part_text(proto, runs) for proto, runs in enumerate(conns) if runs) or "No Connections"


# ---- cells

class Space:
    """The cells of all protocols, in the order of TCP, UDP and SCTP and then of their ports, by where they start.

    Behind the last port of each protocol stands one more that no set has."""

    def __init__(self, spans: Iterable[Span]) -> None:
        starts = {(proto, port) for proto in PROTOCOLS.values() for port in (1, LAST_PORT + 1)}
        self.starts = sorted(starts.union(*(((proto, lo), (proto, hi + 1)) for proto, lo, hi in spans)))
        self.all = sum(self.span(proto, 1, LAST_PORT) for proto in PROTOCOLS.values())
        self.runs = lru_cache(maxsize=None)(self.runs_in)

    def span(self, proto: int, lo: int, hi: int) -> int:
        """The ports of a protocol from `lo` to `hi`, which cells begin and end at."""
        return (1 << bisect_left(self.starts, (proto, hi + 1))) - (1 << bisect_left(self.starts, (proto, lo)))

    def runs_in(self, spots: int) -> Conns:
        """The maximal runs of the ports of each protocol in a set."""
        made: List[List[Tuple[int, int]]] = [[] for _ in PROTOCOLS]
        for place, (proto, lo) in enumerate(self.starts):
            if spots >> place & 1:
                own, hi = made[proto], self.starts[place + 1][1] - 1
                first = own.pop()[0] if own and own[-1][1] + 1 == lo else lo
                own.append((first, hi))
        return tuple(tuple(own) for own in made)

    def text(self, spots: int) -> str:
        """The text of a set."""
        return conns_text(self.runs(spots))

    def least(self, spots: int) -> Tuple[int, int]:
        """The protocol and the port of the first spot of a set that has one."""
        return self.starts[(spots & -spots).bit_length() - 1]


def spans_of(estate: Estate) -> List[Span]:
    """All ports that something of an estate speaks of."""
    found = [entry for rule in rules_of(estate.policies()) for entry in rule.ports if isinstance(entry, Span)]
    found += [Span(port.proto, port.number, port.number) for pod in estate.pods for port in pod.end.ports]
    ports = [port for service in estate.services.values() for port in service.ports]
    numbers = [number for port in ports for number in (port.port, port.target) if isinstance(number, int)]
    return found + [Span(TCP, number, number) for number in numbers]


# ---- addresses

def stretches_of(blocks: Iterable[Cidr]) -> List[Tuple[Address, int]]:
    """The first address of each stretch between two ends of blocks, and the number of its last one, in ascending order."""
    found = []
    for family, width in WIDTHS.items():
        ends = sorted({0, 1 << width}.union(*((block.base, block.end()) for block in blocks if block.family == family)))
        found += [(Address(family, lo), hi - 1) for lo, hi in zip(ends, ends[1:])]
    return found


def blocks_of(estate: Estate) -> List[Cidr]:
    """All blocks that some peer speaks of, the excepted ones too."""
    return [block for peer in peers_of(estate.policies()) for block in peer.cidrs + peer.excepts]
