"""What a cluster is to the program: typed values, as np_model and np_objects have them in the text."""
import re
from dataclasses import dataclass
from typing import Dict, Iterable, List, NamedTuple, Optional, Tuple, Union

from .addresses import Address, Cidr

NAME_KEY = "kubernetes.io/metadata.name"
PROTOCOL_NAMES = ("TCP", "UDP", "SCTP")
PROTOCOLS = {name: proto for proto, name in enumerate(PROTOCOL_NAMES)}
TCP = PROTOCOLS["TCP"]
LAST_PORT = 65535
INGRESS, EGRESS = "ingress", "egress"
DIRECTIONS = (INGRESS, EGRESS)

# The kinds of policies.
ADMIN, NET, BASELINE = "AdminNetworkPolicy", "NetworkPolicy", "BaselineAdminNetworkPolicy"

WORD = re.compile(r"[A-Za-z0-9\-_./:]*")

Labels = Dict[str, str]


def is_word(text: str) -> bool:
    """Letters, digits and the marks `-_./:` alone."""
    return WORD.fullmatch(text) is not None


def is_name(text: str) -> bool:
    """A word that is not empty and has no `/`."""
    return text != "" and is_word(text) and "/" not in text


class ObjectName(NamedTuple):
    """What tells an object from all others: its kind, its namespace, which is empty for objects of the whole cluster, and its name."""
    kind: str
    namespace: str
    name: str

    def path(self) -> str:
        """`namespace/name`, or the name alone."""
        return self.namespace + "/" + self.name if self.namespace else self.name

    def full(self) -> str:
        """`namespace/name[Kind]`."""
        return "%s[%s]" % (self.path(), self.kind)


# ---- selectors

class Requirement(NamedTuple):
    """What a selector asks of one key: `In`, `NotIn`, `Exists` or `DoesNotExist`, with values that ascend."""
    key: str
    op: str
    values: Tuple[str, ...]


Selector = Tuple[Requirement, ...]
EVERYTHING: Selector = ()


def allows(op: str, values: Tuple[str, ...], found: Optional[str]) -> bool:
    """Whether the value that a key has, or that it has none, is as asked."""
    if op == "In":
        return found is not None and found in values
    if op == "NotIn":
        return found is None or found not in values
    return (found is not None) == (op == "Exists")


def meets(selector: Selector, labels: Labels) -> bool:
    """Whether labels meet all the requirements of a selector."""
    return all([allows(one.op, one.values, labels.get(one.key)) for one in selector])


def label_requirement(key: str, value: str) -> Requirement:
    """The requirement of one label: its key has its value."""
    return Requirement(key, "In", (value,))


# ---- policies

class Peer(NamedTuple):
    """An entry of `from` or `to`: pods by selectors, or the addresses of blocks, of which `excepts` are left out.

    It has no blocks exactly where it stands for pods. Without `namespaces` these are pods of the policy's own namespace."""
    namespaces: Optional[Selector]
    pods: Selector
    cidrs: Tuple[Cidr, ...] = ()
    excepts: Tuple[Cidr, ...] = ()


class Span(NamedTuple):
    """The ports of a protocol from `lo` to `hi`, both included."""
    proto: int
    lo: int
    hi: int


class PortName(NamedTuple):
    """The ports of a name at the destination, of any protocol where none is said."""
    proto: Optional[int]
    name: str


class Rule(NamedTuple):
    """A rule of a policy; of a NetworkPolicy its action is `Allow`."""
    action: str
    peers: Tuple[Peer, ...]
    ports: Tuple[Union[Span, PortName], ...]


class Policy(NamedTuple):
    """A policy of one of three kinds. A direction is missing where it is not among the types of a NetworkPolicy.

    The subject is one of pods. A priority is that of an AdminNetworkPolicy alone."""
    name: ObjectName
    priority: int
    subject: Peer
    rules: Dict[str, Tuple[Rule, ...]]


def rules_of(policies: Iterable[Policy]) -> List[Rule]:
    """All rules of policies."""
    return [rule for policy in policies for rules in policy.rules.values() for rule in rules]


def peers_of(policies: Iterable[Policy]) -> List[Peer]:
    """All peers of the rules of policies."""
    return [peer for rule in rules_of(policies) for peer in rule.peers]


# ---- other objects, as they are listed

class NamedPort(NamedTuple):
    """A container port that has a name."""
    name: str
    proto: int
    number: int


class PodSource(NamedTuple):
    """A pod, or a controller with what its template says of pods; `wanted` is false where a controller has none or wants none."""
    name: ObjectName
    owner: Optional[ObjectName]
    labels: Labels
    ports: Tuple[NamedPort, ...]
    host_network: bool
    wanted: bool
    finished: bool
    addresses: Tuple[Address, ...]


class Namespace(NamedTuple):
    """A namespace."""
    name: ObjectName
    labels: Labels


class ServicePort(NamedTuple):
    """A port of a service, and the container port behind it by its number or name."""
    name: Optional[str]
    proto: int
    port: int
    target: Union[int, str]


class Service(NamedTuple):
    """A service. A selector that is missing counts as empty."""
    name: ObjectName
    selector: Selector
    headless: bool
    external: bool
    ports: Tuple[ServicePort, ...]


class Backend(NamedTuple):
    """What an ingress sends requests to: a port of a service, by its number or name."""
    service: str
    port: Union[int, str]


class Ingress(NamedTuple):
    """An ingress. In place of another resource as backend None stands."""
    name: ObjectName
    backends: Tuple[Optional[Backend], ...]


# ---- all that the inputs list, once it is read

@dataclass(eq=False)
class PodEnd:
    """A pod, as rules see it. Two pods of which rules see the same are one of these."""
    namespace: str
    namespace_labels: Labels
    labels: Labels
    ports: Tuple[NamedPort, ...]
    addresses: Tuple[Address, ...]


class Pod(NamedTuple):
    """A pod by the name of its object, which is a controller for the pod of a template, and its top owner."""
    name: ObjectName
    owner: ObjectName
    end: PodEnd


class Estate(NamedTuple):
    """All that is asked about: policies of each kind in the order of reports, and how many objects were left out, and why."""
    pods: List[Pod]
    admin: List[Policy]
    net: List[Policy]
    base: List[Policy]
    services: Dict[ObjectName, Service]
    ingresses: List[Tuple[int, Ingress]]
    notes: Dict[str, int]

    def policies(self) -> List[Policy]:
        """All policies."""
        return self.admin + self.net + self.base
