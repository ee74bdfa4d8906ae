"""The policies of a list: whom they select, and their rules with peers and ports."""
from __future__ import annotations

from typing import Any, Dict, FrozenSet, Iterator, List, NamedTuple, Optional, Tuple

from plugin import values
from plugin.caveats.beside import Port
from plugin.caveats.caveat import Ends, Span
from plugin.caveats.objects import Listed, Pods, Selection
from plugin.caveats.owners import Item
from plugin.selectors import EVERYTHING, Selector, selector

_NETWORK = ("networking.k8s.io/v1", "NetworkPolicy")
_ADMIN = "policy.networking.k8s.io/v1alpha1"
_LAST_PORT = 65535


class Block(NamedTuple):
    """An ipBlock as it is written."""

    cidr: str
    without: Tuple[str, ...]


class Peer(NamedTuple):
    """A peer of a rule, with its place: it has a block, or a selection, or (as `networks` of admin policies)
    neither."""

    place: str
    block: Optional[Block]
    selection: Optional[Selection]


class Entry(NamedTuple):
    """An entry of the ports of a rule: a port name, or ports from the first to the last. Without a protocol it is for
    all."""

    place: str
    protocol: str
    name: str
    first: int = 1
    last: int = _LAST_PORT

    def has(self, port: Port) -> bool:
        """Whether its name and protocol are those of the port."""
        return self.name == port.name and self.protocol in ("", port.protocol)


class Rule(NamedTuple):
    """A rule. Without peers it is for every end, without entries for every port."""

    place: str
    is_ingress: bool
    allows: bool
    peers: List[Peer]
    entries: List[Entry]

    @property
    def spans(self) -> Tuple[Span, ...]:
        """The ports that it is about; none where these are all, or go by a name."""
        if any(entry.name for entry in self.entries):
            return ()
        return tuple((entry.protocol, entry.first, entry.last) for entry in self.entries)


class Policy(NamedTuple):
    """A policy. The namespace of an admin policy is empty."""

    text: str
    namespace: str
    subject: Selection
    pods: List[Pods]
    directions: FrozenSet[str]
    rules: List[Rule]

    @property
    def ends(self) -> Ends:
        """The workloads of the pods that it selects."""
        return frozenset(pods.workload for pods in self.pods)

    @property
    def is_of_namespace(self) -> bool:
        """Whether it is a NetworkPolicy."""
        return bool(self.namespace)


def policies(listed: Listed) -> List[Policy]:
    """The policies of the list."""
    found = [_network_policy(item, listed) for item in listed.of_type(*_NETWORK)]
    for kind in ("AdminNetworkPolicy", "BaselineAdminNetworkPolicy"):
        found += [_admin_policy(item, kind, listed) for item in listed.of_type(_ADMIN, kind)]
    return found


def _network_policy(item: Item, listed: Listed) -> Policy:
    namespace, spec = values.namespace_of(item), values.members(item.get("spec"))
    subject = Selection(namespace, None, selector(spec.get("podSelector")))
    named = values.texts(spec.get("policyTypes"))
    directions = frozenset(named or (["Ingress", "Egress"] if values.objects(spec.get("egress")) else ["Ingress"]))
    rules = [rule for rule in _rules(spec, namespace) if ("Ingress" if rule.is_ingress else "Egress") in directions]
    text = "NetworkPolicy %s/%s" % (namespace, values.name_of(item))
    return Policy(text, namespace, subject, listed.met_by(subject), directions, rules)


def _admin_policy(item: Item, kind: str, listed: Listed) -> Policy:
    spec = values.members(item.get("spec"))
    subject = _selection_of_admin(values.members(spec.get("subject"))) or Selection("", EVERYTHING, EVERYTHING)
    text = "%s %s" % (kind, values.name_of(item))
    return Policy(text, "", subject, listed.met_by(subject), frozenset(["Ingress", "Egress"]), list(_rules(spec, "")))


def _rules(spec: Dict[str, Any], namespace: str) -> Iterator[Rule]:
    """The rules of a NetworkPolicy of the namespace, or of an admin policy where that is empty."""
    for direction, ends in (("ingress", "from"), ("egress", "to")):
        for number, rule in enumerate(values.objects(spec.get(direction))):
            place = "%s[%d]" % (direction, number)
            peers = [_peer("%s.%s[%d]" % (place, ends, at), peer, namespace) for at, peer in enumerate(values.objects(rule.get(ends)))]
            entries = [_entry("%s.ports[%d]" % (place, at), entry) for at, entry in enumerate(values.objects(rule.get("ports")))]
            yield Rule(place, direction == "ingress", rule.get("action", "Allow") == "Allow", peers, entries)


def _peer(place: str, peer: Dict[str, Any], namespace: str) -> Peer:
    if not namespace:
        return Peer(place, None, _selection_of_admin(peer))
    block = values.members(peer.get("ipBlock"))
    if block:
        return Peer(place, Block(values.text(block.get("cidr")), tuple(values.texts(block.get("except")))), None)
    return Peer(place, None, Selection(namespace, _optional(peer.get("namespaceSelector")), selector(peer.get("podSelector"))))


def _optional(value: Any) -> Optional[Selector]:
    return selector(value) if isinstance(value, dict) else None


def _selection_of_admin(value: Dict[str, Any]) -> Optional[Selection]:
    if isinstance(value.get("namespaces"), dict):
        return Selection("", selector(value["namespaces"]), EVERYTHING)
    pods = values.members(value.get("pods"))
    return Selection("", selector(pods.get("namespaceSelector")), selector(pods.get("podSelector"))) if pods else None


def _entry(place: str, entry: Dict[str, Any]) -> Entry:
    """An entry of either sort of policies."""
    if isinstance(entry.get("namedPort"), str):
        return Entry(place, "", entry["namedPort"])
    exact, span = values.members(entry.get("portNumber")), values.members(entry.get("portRange"))
    if exact or span:
        protocol = values.text((exact or span).get("protocol")) or "TCP"
        first = values.number(exact.get("port") if exact else span.get("start"))
        return Entry(place, protocol, "", first, first if exact else values.number(span.get("end")))
    protocol, port = values.text(entry.get("protocol")) or "TCP", entry.get("port")
    if isinstance(port, int):
        return Entry(place, protocol, "", port, values.number(entry.get("endPort")) or port)
    return Entry(place, protocol, values.text(port))
