"""`exposure`: what a pod that nobody has written yet could reach, and be reached by (np_exposure)."""
from itertools import product
from math import prod
from typing import Dict, List, NamedTuple, Optional, Tuple

from .cluster import Cluster
from .model import DIRECTIONS, INGRESS, NAME_KEY, Peer, PodEnd, Requirement, allows, label_requirement
from .reading import Refused
from .sides import Side
from .table import Texts, report_text

MOST_PATTERNS = 65536
OPPOSITE = {"In": "NotIn", "NotIn": "In", "Exists": "DoesNotExist", "DoesNotExist": "Exists"}


class Asked(NamedTuple):
    """A requirement on the labels of a pod or of its namespace, which the side names."""
    side: str
    one: Requirement

    def text(self) -> str:
        """The side, the key, and what is asked."""
        values = " (%s)" % ",".join(self.one.values) if self.one.op in ("In", "NotIn") else ""
        return "%s %s %s%s" % (self.side, self.one.key, self.one.op, values)


Row = Tuple[Tuple[Asked, ...], int]
# At each mentioned key of a side what may be found there: one of these values, or none.
Choices = Dict[Tuple[str, str], Tuple[Optional[str], ...]]


# ---- what is mentioned

def of_peer(namespace: str, peer: Peer) -> List[Asked]:
    """What a peer mentions: a pod selector alone stands for pods of the policy's namespace, and blocks mention nothing."""
    if peer.cidrs:
        return []
    of_namespaces = (label_requirement(NAME_KEY, namespace),) if peer.namespaces is None else peer.namespaces
    return [Asked("namespace", one) for one in of_namespaces] + [Asked("pod", one) for one in peer.pods]


def mentions(side: Side) -> List[Asked]:
    """What the rules mention that speak of a pod: admin policies by priority, NetworkPolicies by name, the baseline; each once."""
    rules = side.admin + side.net + side.base
    return list(dict.fromkeys(asked for one in rules for peer in one.rule.peers for asked in of_peer(one.namespace, peer)))


def values_at(asked: List[Asked]) -> Dict[Tuple[str, str], List[str]]:
    """The values that are mentioned with each side and key, in order: first the keys of namespaces, and those of a side in order."""
    found: Dict[Tuple[str, str], set] = {}
    for side, one in asked:
        found.setdefault((side, one.key), set()).update(one.values)
    return {place: sorted(found[place]) for place in sorted(found)}


# ---- what is possible

def choices_of(asked: List[Asked]) -> Choices:
    """At each mentioned key its values, another one, and that there is none, but that a namespace always has a name."""
    made: Choices = {}
    for place, values in values_at(asked).items():
        found: List[Optional[str]] = [*values, "".join(values) + "a"]
        made[place] = tuple(found if place == ("namespace", NAME_KEY) else found + [None])
    return made


def assumed(choices: Choices, asked: Asked, op: str) -> Optional[Choices]:
    """The choices that are left where a requirement is met, with its operator or the opposite one, if there is one at each key."""
    place = asked.side, asked.one.key
    left = tuple(found for found in choices[place] if allows(op, asked.one.values, found))
    return {**choices, place: left} if left else None


def first_stranger(choices: Choices) -> PodEnd:
    """The pod that has the first choice at each key. Where no choice is its namespace's name, that is `a`."""
    labels: Dict[str, Dict[str, str]] = {"namespace": {NAME_KEY: "a"}, "pod": {}}
    for (side, key), found in choices.items():
        if found[0] is not None:
            labels[side][key] = found[0]
    return PodEnd(labels["namespace"][NAME_KEY], labels["namespace"], labels["pod"], (), ())


class Exposer:
    """The rows of one side of a workload."""

    def __init__(self, cluster: Cluster, workload: int, direction: str) -> None:
        self.cluster = cluster
        self.name = cluster.workloads[workload].name
        self.direction = direction
        self.near = cluster.pod(workload)
        self.asked = mentions(cluster.rules.side(direction, self.near))

    def must_be_few(self) -> None:
        """There are not too many patterns of labels that the requirements may tell apart."""
        found = prod(len(values) + 2 for values in values_at(self.asked).values())
        if found > MOST_PATTERNS:
            raise Refused("TooManyPatterns %s %s: %d" % (self.name, self.direction, min(found, 2 ** 64 - 1)))

    def rows_left(self, place: int, choices: Choices) -> List[Row]:
        """The rows of the requirements from a place on, where some choices are left. Where only one answer is possible, it is not asked."""
        if place == len(self.asked):
            return [((), self.cluster.rules.allowed_at(self.direction, self.near, first_stranger(choices), 4))]
        asked = self.asked[place]
        met, unmet = assumed(choices, asked, asked.one.op), assumed(choices, asked, OPPOSITE[asked.one.op])
        rows = [self.rows_left(place + 1, left) for left in (met, unmet) if left is not None]
        if len(rows) == 1 or rows[0] == rows[1]:
            return rows[0]
        return [((asked,) + requirements, spots) for requirements, spots in rows[0]] + rows[1]

    def texts(self) -> List[Texts]:
        """The texts of the rows."""
        made: List[Texts] = []
        for requirements, spots in self.rows_left(0, choices_of(self.asked)):
            peer = "{%s}" % (" and ".join(asked.text() for asked in requirements) or "any pod")
            ends = (peer, self.name) if self.direction == INGRESS else (self.name, peer)
            made.append((*ends, self.cluster.space.text(spots)))
        return made


def exposure_reply(cluster: Cluster, options: Dict[str, str]) -> str:
    """The exposure of the workloads that are asked for, or why it is not told."""
    numbers = [cluster.number_named(options["workload"])] if "workload" in options else cluster.numbers
    sides = [Exposer(cluster, *side) for side in product(numbers, DIRECTIONS)]
    for side in sides:
        side.must_be_few()
    return report_text(options["format"], [row for side in sides for row in side.texts()])
