"""How the policies of a cluster are read (np_policies)."""
from functools import partial
from typing import Dict, Tuple, Union

from . import values
from .addresses import cidr_of, is_strict_part
from .model import (ADMIN, BASELINE, DIRECTIONS, EGRESS, EVERYTHING, INGRESS, LAST_PORT, NET, ObjectName, Peer, Policy, PortName,
                    Requirement, Rule, Selector, Span, is_word, label_requirement)
from .values import Data, Shape, items_of, listed, member, one_of, optional, optional_or, passing, refuse_if, required

ADMIN_VERSION = "policy.networking.k8s.io/v1alpha1"
ACTIONS = {ADMIN: ("Allow", "Deny", "Pass"), BASELINE: ("Allow", "Deny")}
PEERS = {INGRESS: "from", EGRESS: "to"}
Rules = Dict[str, Tuple[Rule, ...]]


# ---- selectors

# The key of an expression: a word that is not empty, else BadField.
key = passing(bool, "BadField", values.word)


def expression(value: Data) -> Requirement:
    """An entry of `matchExpressions`."""
    label = required("key", key, value)
    op = required("operator", values.text, value)
    listed_values = listed("values", values.word, value)
    refuse_if(op not in ("In", "NotIn", "Exists", "DoesNotExist"), "BadSelector")
    refuse_if((op in ("In", "NotIn")) != (len(listed_values) > 0), "BadSelector")
    return Requirement(label, op, tuple(sorted(set(listed_values))))


def selector(value: Data) -> Selector:
    """A selector. A member that a selector does not have is refused, unless it is null."""
    refuse_if(not isinstance(value, dict), "BadField")
    others = [name for name in value if name not in ("matchLabels", "matchExpressions") and value[name] is not None]
    refuse_if(len(others) > 0, "BadSelector")
    pairs = optional_or({}, "matchLabels", values.labels, value)
    return tuple(label_requirement(*pair) for pair in pairs.items()) + listed("matchExpressions", expression, value)


# ---- ports

# The name of a container port: the empty text is BadPort, another that is no word BadField.
port_name = passing(is_word, "BadField", passing(bool, "BadPort", values.text))


def port_value(value: Data) -> Union[int, str]:
    """`port` of a NetworkPolicy: a port's number or name."""
    return values.port(value) if type(value) is int else port_name(value)


def net_port(value: Data) -> Union[Span, PortName]:
    """An entry of `ports` of a NetworkPolicy: one port, the ports up to another, a named port, or all ports."""
    proto = values.protocol(value)
    first = optional("port", port_value, value)
    last = optional("endPort", passing(lambda end: isinstance(first, int) and first <= end, "BadPort", values.port), value)
    if first is None:
        return Span(proto, 1, LAST_PORT)
    if isinstance(first, str):
        return PortName(proto, first)
    return Span(proto, first, first if last is None else last)


def port_range(first_member: str, last_member: str, value: Data) -> Span:
    """`portRange` of an admin policy, and `portNumber`, which is a range of one port."""
    proto = values.protocol(value)
    first = required(first_member, values.port, value)
    last = required(last_member, values.port, value)
    refuse_if(last < first, "BadPort", last_member)
    return Span(proto, first, last)


# An entry of `ports` of an admin policy. A name stands for ports of any protocol at the destination.
ADMIN_PORTS: Dict[str, Shape[Union[Span, PortName]]] = {
    "portNumber": partial(port_range, "port", "port"), "portRange": partial(port_range, "start", "end"),
    "namedPort": lambda value: PortName(None, port_name(value)),
}
admin_port: Shape[Union[Span, PortName]] = partial(one_of, "BadPort", ADMIN_PORTS)


# ---- NetworkPolicies

# A text that writes a block of addresses, else BadCidr.
cidr = values.written(cidr_of, "BadCidr")


def ip_block(value: Data) -> Peer:
    """`ipBlock` of a peer: each except is a strict part of `cidr`."""
    block = required("cidr", cidr, value)
    excepts = listed("except", cidr, value)
    for place, part in enumerate(excepts):
        refuse_if(not is_strict_part(block, part), "BadExcept", "except", place)
    return Peer(None, EVERYTHING, (block,), excepts)


def net_peer(value: Data) -> Peer:
    """An entry of `from` or `to`: selectors, or a block alone."""
    has_selector = member("podSelector", value) is not None or member("namespaceSelector", value) is not None
    refuse_if((member("ipBlock", value) is not None) == has_selector, "PeerShape")
    pods = optional_or(EVERYTHING, "podSelector", selector, value)
    namespaces = optional("namespaceSelector", selector, value)
    return optional_or(Peer(namespaces, pods), "ipBlock", ip_block, value)


def net_rule(direction: str, value: Data) -> Rule:
    """An entry of `ingress` or `egress`."""
    peers = listed(PEERS[direction], net_peer, value)
    return Rule("Allow", peers, listed("ports", net_port, value))


# An entry of `policyTypes`, else BadField.
policy_type = values.written({"Ingress": INGRESS, "Egress": EGRESS}.get, "BadField")


def net_spec(value: Data) -> Tuple[Peer, Rules]:
    """`spec` of a NetworkPolicy: its subject, and its rules in the directions among its types."""
    subject = optional_or(EVERYTHING, "podSelector", selector, value)
    types = listed("policyTypes", policy_type, value)
    rules = {direction: listed(direction, partial(net_rule, direction), value) for direction in DIRECTIONS}
    has = types or ((INGRESS, EGRESS) if rules[EGRESS] else (INGRESS,))
    return Peer(None, subject), {direction: rules[direction] for direction in has}


def net_policy(value: Data) -> Policy:
    """A NetworkPolicy."""
    own = required("metadata", partial(values.namespaced_name, NET), value)
    no_spec: Tuple[Peer, Rules] = (Peer(None, EVERYTHING), {INGRESS: ()})
    subject, rules = optional_or(no_spec, "spec", net_spec, value)
    return Policy(own, 0, subject, rules)


# ---- admin policies

def some_pods(value: Data) -> Peer:
    """`pods` of a subject or peer."""
    return Peer(required("namespaceSelector", selector, value), required("podSelector", selector, value))


def networks(value: Data) -> Peer:
    """`networks` of a peer: at least one block."""
    return Peer(None, EVERYTHING, passing(bool, "EmptyPeers", partial(items_of, cidr))(value))


# `subject`, and an entry of `from` of an admin rule; `namespaces` stands for all pods of the namespaces that it selects.
SUBJECTS: Dict[str, Shape[Peer]] = {"namespaces": lambda value: Peer(selector(value), EVERYTHING), "pods": some_pods}
subject_of: Shape[Peer] = partial(one_of, "PeerShape", SUBJECTS)


def egress_peer(value: Data) -> Peer:
    """An entry of `to` of an admin rule."""
    refuse_if(member("nodes", value) is not None, "NodePeer", "nodes")
    refuse_if(member("domainNames", value) is not None, "DomainPeer", "domainNames")
    return one_of("PeerShape", {**SUBJECTS, "networks": networks}, value)


def admin_rule(kind: str, direction: str, value: Data) -> Rule:
    """An entry of `ingress` or `egress` of an admin policy: it has at least one peer."""
    action = required("action", passing(ACTIONS[kind].__contains__, "BadAction", values.text), value)
    peers = listed(PEERS[direction], subject_of if direction == INGRESS else egress_peer, value)
    refuse_if(len(peers) == 0, "EmptyPeers", PEERS[direction])
    return Rule(action, peers, listed("ports", admin_port, value))


# A priority from 0 to 1000, else BadPriority.
priority = passing(lambda number: 0 <= number <= 1000, "BadPriority", values.whole)
# The name of an AdminNetworkPolicy, and that of a BaselineAdminNetworkPolicy.
NAMES = {ADMIN: values.name, BASELINE: passing("default".__eq__, "BaselineName", values.name)}


def admin_spec(kind: str, value: Data) -> Tuple[int, Peer, Rules]:
    """`spec` of an admin policy or a baseline, which has no priority."""
    rank = required("priority", priority, value) if kind == ADMIN else 0
    selected = required("subject", subject_of, value)
    return rank, selected, {way: listed(way, partial(admin_rule, kind, way), value) for way in DIRECTIONS}


def admin_policy(kind: str, value: Data) -> Policy:
    """An AdminNetworkPolicy, or a BaselineAdminNetworkPolicy."""
    name = required("metadata", partial(required, "name", NAMES[kind]), value)
    return Policy(ObjectName(kind, "", name), *required("spec", partial(admin_spec, kind), value))


# How the policies of an API version and a kind are read.
POLICIES: Dict[Tuple[str, str], Shape[Policy]] = {
    ("networking.k8s.io/v1", NET): net_policy,
    (ADMIN_VERSION, ADMIN): partial(admin_policy, ADMIN),
    (ADMIN_VERSION, BASELINE): partial(admin_policy, BASELINE),
}
