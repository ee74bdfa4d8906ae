"""Workloads: the pods that no rule can tell apart, by name; and a cluster, of which commands ask (np_fold, np_kinds)."""
from typing import Dict, Iterable, List, NamedTuple, Optional, Sequence, Tuple, TypeVar, Union

from .addresses import Address, Cidr
from .model import INGRESS, Estate, ObjectName, PodEnd, Span, peers_of
from .reading import Refused
from .sides import End, Rules
from .spots import Space, blocks_of, spans_of, stretches_of

MOST_WORKLOADS = 2000
A = TypeVar("A")
# A workload by its number, or an address.
Place = Union[int, Address]


class Workload(NamedTuple):
    """A workload: its name, and the places of its pods in ascending order."""
    name: str
    members: List[int]


# ---- workloads

def relevant_keys(estate: Estate) -> List[str]:
    """The keys of labels that the selectors of policies and services name, in ascending order."""
    peers = [policy.subject for policy in estate.policies()] + peers_of(estate.policies())
    selectors = [one for peer in peers for one in (peer.namespaces, peer.pods)] + [one.selector for one in estate.services.values()]
    return sorted({requirement.key for selector in selectors for requirement in selector or ()})


def fold(estate: Estate) -> Dict[ObjectName, List[List[int]]]:
    """The classes of alike pods, by their places: of one kind, and with top owners of one kind and one name."""
    keys = relevant_keys(estate)
    blocks = {block for peer in peers_of(estate.admin + estate.base) for block in peer.cidrs}
    classes: Dict[ObjectName, Dict[object, List[int]]] = {}
    for place, (_, owner, end) in enumerate(estate.pods):
        values = tuple([end.labels.get(key) for key in keys])
        inside = tuple([any(block.has(address) for address in end.addresses) for block in blocks])
        classes.setdefault(owner, {}).setdefault((values, inside, end.ports), []).append(place)
    return {owner: list(own.values()) for owner, own in classes.items()}


def workloads_of(estate: Estate) -> List[Workload]:
    """The workloads in the order of their names, unless there are too many; where several have one owner, `#` and a number follow."""
    found = [Workload(owner.full() + ("#%d" % number if len(own) > 1 else ""), members)
             for owner, own in fold(estate).items() for number, members in enumerate(own, 1)]
    if len(found) > MOST_WORKLOADS:
        raise Refused("TooManyWorkloads %d" % len(found))
    return sorted(found)


class Cluster:
    """An estate with its workloads, and its rules over cells that fit what is asked besides."""

    def __init__(self, estate: Estate, workloads: List[Workload], spans: Iterable[Span] = (), blocks: Iterable[Cidr] = ()) -> None:
        self.estate = estate
        self.workloads = workloads
        self.numbers = range(len(workloads))
        self.space = Space(spans_of(estate) + list(spans))
        self.stretches = stretches_of(blocks_of(estate) + list(blocks))
        self.rules = Rules(estate, self.space)
        self.families = tuple(sorted({address.family for pod in estate.pods for address in pod.end.addresses})) or (4,)

    def number_named(self, name: str) -> int:
        """The number of the workload of a name, or the fault that nothing has it."""
        for number, one in enumerate(self.workloads):
            if one.name == name:
                return number
        raise Refused("UnknownEnd " + name)

    def pod(self, number: int) -> PodEnd:
        """The pod that stands for a workload: its first one."""
        return self.estate.pods[self.workloads[number].members[0]].end

    def ends(self, source: Place, destination: Place) -> Optional[Tuple[End, End]]:
        """What stands for two places; for a workload that meets itself its first two pods, if it has two."""
        if isinstance(source, int) and source == destination:
            own = [self.estate.pods[member].end for member in self.workloads[source].members[:2]]
            return (own[0], own[1]) if len(own) == 2 else None
        found: List[End] = [place if isinstance(place, Address) else self.pod(place) for place in (source, destination)]
        return found[0], found[1]

    def allows(self, source: Place, destination: Place, family: int) -> int:
        """The spots at which packets of a family are allowed; a workload of one pod sends itself none."""
        ends = self.ends(source, destination)
        return 0 if ends is None else self.rules.allows(*ends, family)

    def families_of(self, *ends: object) -> Sequence[int]:
        """The families in which packets are asked about: that of an address, the source's first, or those of the list."""
        return [end.family for end in ends if isinstance(end, Address)][:1] or self.families

    def address_rows(self, workload: int, direction: str) -> List[Tuple[Address, int, int]]:
        """The fewest ranges such that the same passes at each address of one: its first address, its last number, and the spots."""
        rows: List[Tuple[Address, int, int]] = []
        for address, last in self.stretches:
            ends: Tuple[Place, Place] = (address, workload) if direction == INGRESS else (workload, address)
            spots = self.allows(*ends, address.family)
            if rows and rows[-1][0].family == address.family and rows[-1][2] == spots:
                address = rows.pop()[0]
            rows.append((address, last, spots))
        return rows


def mark(family: int) -> str:
    """The mark of what is of one family of two."""
    return " (IPv%d)" % family


def told_apart(families: Sequence[int], answers: Sequence[A]) -> List[Tuple[str, A]]:
    """The answers of families with their marks, or the one that all of them give without one."""
    if all(one == answers[0] for one in answers):
        return [("", answers[0])]
    return [(mark(family), one) for family, one in zip(families, answers)]
