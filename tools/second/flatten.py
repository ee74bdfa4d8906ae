"""`flatten`: NetworkPolicies alone that give the verdicts of a whole estate (np_flatten, np_manifests)."""
from functools import lru_cache
from itertools import combinations, product
from typing import Dict, List, Optional, Tuple

from .addresses import cidr_text, range_prefixes
from .cluster import Cluster, relevant_keys
from .model import DIRECTIONS, EGRESS, INGRESS, NAME_KEY, PROTOCOL_NAMES
from .reading import Refused
from .table import compact

Json = Dict[str, object]
# What selectors see of a workload: its namespace, and the values of the keys that they name.
Look = Tuple[str, Tuple[Optional[str], ...]]


class Flattener:
    """The groups of a cluster's workloads that selectors cannot tell apart, and the policies of them."""

    def __init__(self, cluster: Cluster) -> None:
        self.cluster = cluster
        self.address_rows = lru_cache(maxsize=None)(cluster.address_rows)
        self.keys = relevant_keys(cluster.estate)
        self.groups: Dict[Look, List[int]] = {}
        for number in cluster.numbers:
            end = cluster.pod(number)
            look = end.namespace, tuple([end.labels.get(key) for key in self.keys])
            self.groups.setdefault(look, []).append(number)

    def set_of(self, source: int, destination: int) -> int:
        """What passes between two workloads in the first family of the list."""
        return self.cluster.allows(source, destination, self.cluster.families[0])

    # ---- why there are no flat policies

    def is_split(self, source: int, destination: int) -> bool:
        """Whether what passes between two workloads differs between the families of the list."""
        return len({self.cluster.allows(source, destination, family) for family in self.cluster.families}) > 1

    def differ_at(self, a: int, b: int, third: int) -> bool:
        """Whether two workloads differ in what they send to a third, or in what they receive of it."""
        return self.set_of(a, third) != self.set_of(b, third) or self.set_of(third, a) != self.set_of(third, b)

    def differ(self, a: int, b: int) -> bool:
        """Whether two workloads differ in what passes: with a third, within and between them, or at some address."""
        if any(self.differ_at(a, b, third) for third in self.cluster.numbers if third not in (a, b)):
            return True
        own = [pair for pair in product((a, b), repeat=2) if self.cluster.ends(*pair) is not None]
        if len({self.set_of(*pair) for pair in own}) > 1:
            return True
        return any(self.address_rows(a, direction) != self.address_rows(b, direction) for direction in DIRECTIONS)

    def must_be_flat(self) -> None:
        """No pair is split, and no two workloads that look alike differ."""
        names = [one.name for one in self.cluster.workloads]
        for a, b in product(self.cluster.numbers, repeat=2):
            if self.is_split(a, b):
                raise Refused("Split %s, %s" % (names[a], names[b]))
        pairs = sorted(pair for group in self.groups.values() for pair in combinations(group, 2))
        for a, b in pairs:
            if self.differ(a, b):
                raise Refused("Alike %s, %s" % (names[a], names[b]))

    # ---- the policies

    def selector(self, look: Look) -> Json:
        """The selector of a group: the same values of all keys that selectors name."""
        requirements: List[Json] = []
        for key, value in zip(self.keys, look[1]):
            found: Json = {"operator": "DoesNotExist"} if value is None else {"operator": "In", "values": [value]}
            requirements.append({"key": key, **found})
        return {"matchExpressions": requirements} if requirements else {}

    def peer(self, look: Look) -> Json:
        """The pods of a group, as a peer."""
        named = {"key": NAME_KEY, "operator": "In", "values": [look[0]]}
        return {"namespaceSelector": {"matchExpressions": [named]}, "podSelector": self.selector(look)}

    def rule(self, member: str, peers: List[Json], spots: int) -> List[Json]:
        """The rule of some peers and a set: none where nothing passes, and without ports where everything does."""
        if spots in (0, self.cluster.space.all):
            return [{member: peers}] if spots else []
        ports: List[Json] = []
        for proto, (lo, hi) in [(proto, run) for proto, runs in enumerate(self.cluster.space.runs(spots)) for run in runs]:
            ports.append({"port": lo, "protocol": PROTOCOL_NAMES[proto], **({} if lo == hi else {"endPort": hi})})
        return [{member: peers, "ports": ports}]

    def sent(self, senders: List[int], receivers: List[int]) -> int:
        """What passes from one group to another: from its first workload to the first to which that is defined."""
        defined = [number for number in receivers if self.cluster.ends(senders[0], number) is not None]
        return self.set_of(senders[0], defined[0]) if defined else 0

    def address_rules(self, member: str, group: List[int], direction: str) -> List[Json]:
        """The rules of the ranges of addresses of a group's first workload in a direction."""
        rules: List[Json] = []
        for first, last, spots in self.address_rows(group[0], direction):
            blocks = range_prefixes(first.family, first.number, last) if spots else ()
            rules += self.rule(member, [{"ipBlock": {"cidr": cidr_text(block)}} for block in blocks], spots)
        return rules

    def policy(self, number: int, look: Look) -> Json:
        """The policy of a group."""
        group = self.groups[look]
        ingress: List[Json] = []
        for sender, senders in self.groups.items():
            ingress += self.rule("from", [self.peer(sender)], self.sent(senders, group))
        everyone: Json = {"to": [{"namespaceSelector": {}}]}
        spec = {
            "egress": [everyone] + self.address_rules("to", group, EGRESS),
            "ingress": ingress + self.address_rules("from", group, INGRESS),
            "podSelector": self.selector(look),
            "policyTypes": ["Ingress", "Egress"],
        }
        metadata = {"name": "flat-%d" % number, "namespace": look[0]}
        return {"apiVersion": "networking.k8s.io/v1", "kind": "NetworkPolicy", "metadata": metadata, "spec": spec}


def flatten_reply(cluster: Cluster) -> str:
    """The policies, or the two workloads for which there are none."""
    flattener = Flattener(cluster)
    flattener.must_be_flat()
    policies = [flattener.policy(number, look) for number, look in enumerate(flattener.groups)]
    return compact({"apiVersion": "v1", "items": policies, "kind": "List"}) + "\n"
