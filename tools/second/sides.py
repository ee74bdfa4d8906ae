"""What a pod's own side says of the packets that it looks at, and what decides them (np_rules)."""
from functools import lru_cache, partial
from typing import List, NamedTuple, Tuple, Union

from .addresses import Address
from .model import ADMIN, BASELINE, EGRESS, INGRESS, NET, Estate, Peer, PodEnd, Policy, PortName, Rule, Span, meets
from .spots import Space

End = Union[PodEnd, Address]


class Decider(NamedTuple):
    """What decides a packet at one of its ends, as it is printed, its verdict, and the names of the rules that stand in it."""
    text: str
    allow: bool
    rules: Tuple[str, ...] = ()

    def after(self, passing: "Decider") -> "Decider":
        """What decides where a rule passed on."""
        return Decider(self.text + " after " + passing.text, self.allow, self.rules + passing.rules)


Part = Tuple[Decider, int]
FREE = Decider("Allow by default", True)


class Placed(NamedTuple):
    """A rule of a policy, its name, `Kind policy direction[place]`, and its decision. Only a NetworkPolicy has a namespace."""
    rule: Rule
    namespace: str
    name: str
    decider: Decider


class Packets(NamedTuple):
    """The packets of a family that a side looks at: where their far end is, and which end they go to."""
    far: End
    destination: End
    family: int


# ---- selection and peers

def pods_match(namespace: str, peer: Peer, p: PodEnd) -> bool:
    """Whether a pod is one of those that a subject or a peer in a policy of this namespace stands for."""
    is_near = namespace == p.namespace if peer.namespaces is None else meets(peer.namespaces, p.namespace_labels)
    return is_near and meets(peer.pods, p.labels)


def speaks_of(policy: Policy, direction: str, p: PodEnd) -> bool:
    """Whether a policy selects a pod, and has the direction among its types."""
    return direction in policy.rules and pods_match(policy.name.namespace, policy.subject, p)


def peer_matches(namespace: str, peer: Peer, far: End, family: int) -> bool:
    """Whether a peer in a policy of this namespace stands for the far end of packets of a family."""
    if not peer.cidrs:
        return isinstance(far, PodEnd) and pods_match(namespace, peer, far)
    if isinstance(far, Address):
        return any(block.has(far) for block in peer.cidrs) and not any(part.has(far) for part in peer.excepts)
    # A block of a NetworkPolicy stands for addresses alone, networks of other policies also for the pods that have one of that family.
    return not namespace and any(block.has(one) for block in peer.cidrs for one in far.addresses if one.family == family)


# ---- sides

def placed(policy: Policy, direction: str) -> List[Placed]:
    """The rules of a policy in a direction."""
    made = []
    for place, rule in enumerate(policy.rules.get(direction, ())):
        name = "%s %s %s[%d]" % (policy.name.kind, policy.name.path(), direction, place)
        decider = Decider("%s by %s" % (rule.action, name), rule.action == "Allow", (name,))
        made.append(Placed(rule, policy.name.namespace, name, decider))
    return made


class Side:
    """What speaks of a pod in a direction: rules of three kinds, which of them are looked at below admin rules, and what comes last."""

    def __init__(self, estate: Estate, direction: str, p: PodEnd) -> None:
        own = [policy for policy in estate.policies() if speaks_of(policy, direction, p)]
        self.admin, self.net, self.base = [[one for policy in own if policy.name.kind == kind for one in placed(policy, direction)]
                                           for kind in (ADMIN, NET, BASELINE)]
        self.lower, self.last = self.base, FREE
        isolating = [policy.name.path() for policy in own if policy.name.kind == NET]
        if isolating:
            self.lower, self.last = self.net, Decider("Deny since isolated by NetworkPolicy " + ", ".join(isolating), False)


class Rules:
    """The rules of an estate, asked about whole sets of spots."""

    def __init__(self, estate: Estate, space: Space) -> None:
        self.space = space
        self.side = lru_cache(maxsize=None)(partial(Side, estate))
        self.side_allows = lru_cache(maxsize=None)(self.allowed_at)

    def entry_spots(self, entry: Union[Span, PortName], destination: End) -> int:
        """The spots of an entry of ports, for packets to this destination; an address has no named ports."""
        if isinstance(entry, Span):
            return self.space.span(*entry)
        spots = 0
        for port in destination.ports if isinstance(destination, PodEnd) else ():
            if port.name == entry.name and entry.proto in (None, port.proto):
                spots |= self.space.span(port.proto, port.number, port.number)
        return spots

    def rule_spots(self, one: Placed, packets: Packets) -> int:
        """The spots at which a rule matches; without peers, as a NetworkPolicy may have one, it matches every far end."""
        peers, ports = one.rule.peers, one.rule.ports
        if peers and not any(peer_matches(one.namespace, peer, packets.far, packets.family) for peer in peers):
            return 0
        spots = 0 if ports else self.space.all
        for entry in ports:
            spots |= self.entry_spots(entry, packets.destination)
        return spots

    # ---- what decides

    def decided(self, rules: List[Placed], below: List[Part], packets: Packets) -> List[Part]:
        """What decides each spot: the first rule that matches, or what is below where that passes on or none does."""
        made: List[Part] = []
        rest = self.space.all
        for one in rules:
            spots = rest & self.rule_spots(one, packets)
            rest &= ~spots
            if one.rule.action == "Pass":
                made += [(last.after(one.decider), own & spots) for last, own in below]
            else:
                made.append((one.decider, spots))
        return made + [(last, own & rest) for last, own in below]

    def parts(self, direction: str, near: PodEnd, far: End, family: int) -> List[Part]:
        """What decides each spot at the side of the near end, of which no set is empty; they stand in no order."""
        side = self.side(direction, near)
        packets = Packets(far, near if direction == INGRESS else far, family)
        lower = self.decided(side.lower, [(side.last, self.space.all)], packets)
        return [part for part in self.decided(side.admin, lower, packets) if part[1]]

    # ---- what is allowed

    def allowed_at(self, direction: str, near: PodEnd, far: End, family: int) -> int:
        """The spots that the side of a pod allows."""
        return sum(spots for decider, spots in self.parts(direction, near, far, family) if decider.allow)

    def allows(self, source: End, destination: End, family: int) -> int:
        """The spots at which packets are allowed: by the egress side of the source and the ingress side of the destination."""
        spots = self.space.all
        if isinstance(source, PodEnd):
            spots &= self.side_allows(EGRESS, source, destination, family)
        if isinstance(destination, PodEnd):
            spots &= self.side_allows(INGRESS, destination, source, family)
        return spots
