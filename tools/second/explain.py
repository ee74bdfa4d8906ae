"""`explain`, `evaluate` and `unused`: what decides packets, and which rules decide none (np_explain, np_unused)."""
from collections import Counter
from itertools import product
from typing import Dict, List, Set, Tuple, Union

from .addresses import Address, address_text
from .cluster import Cluster, Place, Workload, told_apart
from .model import DIRECTIONS, EGRESS, INGRESS, PROTOCOL_NAMES, Estate, Pod, Span
from .reading import Refused
from .sides import Decider, End, Part, placed
from .words import EndWord

NO_SIDE = Decider("Allow since no pod is at this side", True)
# What decides at the egress and at the ingress side, and the spots at which packets are allowed.
Explanation = Tuple[List[Part], List[Part], int]


def word_text(word: EndWord) -> str:
    """An end as it is printed: an address in its canonical text, a pod or a workload as its word."""
    return address_text(word) if isinstance(word, Address) else word


# ---- `explain`

def right_parts(cluster: Cluster, direction: str, near: End, far: End, family: int) -> List[Part]:
    """What decides at a side, each decider once, in the order of the first spot that each decides."""
    if isinstance(near, Address):
        return [(NO_SIDE, cluster.space.all)]
    spots: Dict[Decider, int] = {}
    for decider, own in cluster.rules.parts(direction, near, far, family):
        spots[decider] = spots.get(decider, 0) | own
    return sorted(spots.items(), key=lambda part: part[1] & -part[1])


def explanation_of(cluster: Cluster, source: End, destination: End, family: int) -> Explanation:
    """The right parts of both sides, and the spots at which packets are allowed."""
    egress = right_parts(cluster, EGRESS, source, destination, family)
    ingress = right_parts(cluster, INGRESS, destination, source, family)
    return egress, ingress, cluster.rules.allows(source, destination, family)


def shown_text(cluster: Cluster, names: List[str], mark: str, made: Explanation) -> str:
    """Both sides, and the row of what passes: `from => to : connections`."""
    text = cluster.space.text
    lines = []
    for direction, name, parts in zip((EGRESS, INGRESS), names, made[:2]):
        lines.append("%s of %s%s" % (direction, name, mark))
        lines += ["%s : %s" % (text(spots), decider.text) for decider, spots in parts]
    lines.append("%s => %s%s : %s" % (names[0], names[1], mark, text(made[2])))
    return "".join(line + "\n" for line in lines)


def explain_reply(cluster: Cluster, words: List[EndWord]) -> str:
    """The explanation of two ends, or the fault of theirs that stands first."""
    names = [word_text(word) for word in words]
    places: List[Place] = [word if isinstance(word, Address) else cluster.number_named(word) for word in words]
    ends = cluster.ends(places[0], places[1])
    if ends is None:
        raise Refused("SameEnd " + names[0])
    families = cluster.families_of(*places)
    made = [explanation_of(cluster, *ends, family) for family in families]
    return "".join(shown_text(cluster, names, mark, one) for mark, one in told_apart(families, made))


# ---- `evaluate`

def listed_pod(estate: Estate, word: str) -> Pod:
    """The listed pod that a word names, or the fault that there is none."""
    for pod in estate.pods:
        if pod.name.kind == "Pod" and pod.name.path() == word:
            return pod
    raise Refused("UnknownEnd " + word)


def evaluate_reply(estate: Estate, workloads: List[Workload], words: List[EndWord], packet: Span) -> str:
    """The verdict of the packet, or the fault of its ends that stands first."""
    cluster = Cluster(estate, workloads, [packet])
    names = [word_text(word) for word in words]
    found: List[Union[Pod, Address]] = [word if isinstance(word, Address) else listed_pod(estate, word) for word in words]
    if found[0] == found[1] and isinstance(found[0], Pod):
        raise Refused("SameEnd " + names[0])
    ends: List[End] = [one if isinstance(one, Address) else one.end for one in found]
    families = cluster.families_of(*found)
    spot = cluster.space.span(*packet)
    verdicts = ["Allow" if cluster.rules.allows(ends[0], ends[1], family) & spot else "Deny" for family in families]
    return "".join("%s => %s%s : %s %d : %s\n" % (*names, mark, PROTOCOL_NAMES[packet.proto], packet.lo, verdict)
                   for mark, verdict in told_apart(families, verdicts))


# ---- `unused`

def used_rules(cluster: Cluster) -> Set[str]:
    """The rules that stand in what decides some packet between two pods, or between a pod and an address, by their names."""
    counts = Counter(pod.end for pod in cluster.estate.pods)
    used: Set[str] = set()
    for near in counts:
        fars: List[Tuple[End, int]] = [(address, address.family) for address, _ in cluster.stretches]
        fars += [(end, family) for end in counts if end is not near or counts[near] > 1 for family in cluster.families]
        for (far, family), direction in product(fars, DIRECTIONS):
            used.update(name for decider, _ in cluster.rules.parts(direction, near, far, family) for name in decider.rules)
    return used


def unused_reply(cluster: Cluster) -> str:
    """A line for each rule that decides nothing: of the policies in their order, ingress before egress."""
    used = used_rules(cluster)
    rules = [one for policy in cluster.estate.policies() for direction in DIRECTIONS for one in placed(policy, direction)]
    return "".join(one.name + "\n" for one in rules if one.name not in used)
