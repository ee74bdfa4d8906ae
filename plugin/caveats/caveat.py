"""A caveat, and the connections that it touches."""
from __future__ import annotations

from typing import FrozenSet, Iterable, List, NamedTuple, Tuple

# Who is at an end of connections: names of workloads, and names of namespaces with a stroke behind them for their
# workloads without pods. An end of a question has beside these the names of the sorts that it belongs to.
Ends = FrozenSet[str]

# The ports of a protocol from the first to the last.
Span = Tuple[str, int, int]

ANYONE: Ends = frozenset(["{anyone}"])
ANY_POD: Ends = frozenset(["{any pod}"])
CONTROLLER: Ends = frozenset(["{ingress-controller}"])


def place_of(namespace: str) -> str:
    """What stands for the workloads of a namespace that have no pod now."""
    return namespace + "/"


class Pair(NamedTuple):
    """Connections from one end to the other."""

    senders: Ends
    receivers: Ends

    def touches(self, other: Pair) -> bool:
        """Whether some connection may be of both."""
        return not (self.senders.isdisjoint(other.senders) or self.receivers.isdisjoint(other.receivers))


class Caveat(NamedTuple):
    """A caveat: its kind by the key, the object that it is about, what there is about it, and the connections that it
    touches.

    It touches these ports alone, or without any all of them. `is_noted` says that np's list has a note that says the
    same, and `opens` that nothing can come of it but that more passes than np says.
    """

    key: str
    object: str
    detail: str
    touched: Tuple[Pair, ...]
    ports: Tuple[Span, ...] = ()
    is_noted: bool = False
    opens: bool = False

    def line(self) -> str:
        """The caveat on one line."""
        return "%s: %s: %s" % (self.object, self.key, self.detail)


def at_either_end(ends: Iterable[str]) -> Tuple[Pair, ...]:
    """All connections from the ends, and to them."""
    found = frozenset(ends)
    return Pair(found, ANYONE), Pair(ANYONE, found)


def of_direction(is_ingress: bool, ends: Ends, others: Ends) -> Pair:
    """The connections of the ends with others: those that they receive, or those that they send."""
    return Pair(others, ends) if is_ingress else Pair(ends, others)


def some(names: List[str]) -> str:
    """The first names, and how many there are beside them."""
    return ", ".join(names[:3]) + (" and %d more" % (len(names) - 3) if len(names) > 3 else "")
