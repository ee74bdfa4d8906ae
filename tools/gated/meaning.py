"""What a statement of the gate means for a list, by single packets."""
from __future__ import annotations

import ipaddress
import re
from typing import Any, Dict, List, NamedTuple, Optional, Tuple

import answers
from listed_pods import Pod
from passing import CONTROLLER, NOTHING, Address, Table


class Fault(Exception):
    """The line is an error."""


class Ends(NamedTuple):
    """Who is at an end: pods, blocks of addresses, and whether what comes through Ingresses is."""

    pods: List[Pod]
    blocks: List[Any]
    has_controller: bool = False


ALL_BLOCKS = [ipaddress.ip_network("0.0.0.0/0"), ipaddress.ip_network("::/0")]


def meets(labels: Dict[str, str], requirement: str) -> bool:
    if requirement.startswith("!"):
        return requirement[1:] not in labels
    key, _, rest = requirement.partition(" ")
    if rest:
        operator, _, inner = rest.partition(" ")
        is_in = labels.get(key) in inner.strip("()").split(",")
        return is_in if operator.lower() == "in" else not is_in
    if "!=" in key:
        key, _, value = key.partition("!=")
        return labels.get(key) != value
    key, equals, value = key.partition("=")
    return labels.get(key) == value.lstrip("=") if equals else key in labels


def ends_of(text: str, table: Table) -> Ends:
    word, _, name = text.partition(" ")
    if text == "any pod":
        found = table.pods
    elif text == "any address":
        return Ends([], ALL_BLOCKS)
    elif text == "ingress-controller":
        return Ends([pod for pod in table.pods if pod.workload == table.controller], [], True)
    elif word == "namespace":
        found = [pod for pod in table.pods if pod.namespace == name]
    elif word == "outside-namespace":
        if name not in {pod.namespace for pod in table.pods}:
            raise Fault("nobody is in it")
        return Ends([pod for pod in table.pods if pod.namespace != name], ALL_BLOCKS)
    elif word == "pods":
        space, _, asked = name.partition(" ")
        requirements = re.findall(r"[^,(]+(?:\([^)]*\))?", asked)
        found = [pod for pod in table.pods if pod.namespace == space and all(meets(pod.labels, each) for each in requirements)]
    elif word == "workload":
        found = [pod for pod in table.pods if name in names_of(pod.workload)]
        if name not in {pod.workload for pod in found} and len({pod.workload.partition("#")[0] for pod in found}) > 1:
            raise Fault("several are meant")
    else:
        return Ends([], [ipaddress.ip_network(text, strict=False)])
    if not found:
        raise Fault("nobody is there")
    return Ends(found, [])


def names_of(workload: str) -> List[str]:
    owner = workload.partition("#")[0]
    return [workload, owner, owner.partition("[")[0]]


class Statement:
    """A line, and what it means for the list."""

    def __init__(self, line: str, table: Table) -> None:
        ends, self.connections = line.rsplit(" : ", 1)
        self.verdict, _, ends = ends.partition(" ")
        left, right = ends.split(" => ")
        self.table = table
        self.texts = re.split(", (?=any|names|work|pods|out|ingr|[0-9f])", left) if self.verdict == "only" else [left]
        is_sent_outside = right.startswith("outside") and self.verdict != "only" and left == "ingress-controller"
        if right == "ingress-controller" or is_sent_outside:
            raise Fault("that sends alone, to pods alone")
        self.left, self.right = [ends_of(text, table) for text in self.texts], ends_of(right, table)
        self.asked = answers.connections(self.connections)
        self.is_asking = False
        are_pods = [bool(end.pods) and not end.has_controller or self.verdict == "only" and text.startswith("outside")
                    for text, end in zip(self.texts, self.left)]
        if not self.right.pods and not right.startswith("outside") and not all(are_pods):
            raise Fault("no end is pods")

    def sources(self) -> Ends:
        if self.verdict != "only":
            return self.left[0]
        pods = [pod for pod in self.table.pods if all(pod not in end.pods for end in self.left)]
        is_asked = not self.table.controller and not any(end.has_controller for end in self.left)
        return Ends(pods, [] if not self.right.pods else ALL_BLOCKS, is_asked)

    def is_left_out(self, address: Address) -> bool:
        """Whether `only` lets the address send."""
        return self.verdict == "only" and any(address in block for end in self.left for block in end.blocks)

    def first_packet(self) -> Optional[str]:
        """The first packet that breaks the statement."""
        sources = self.sources()
        cuts = self.table.cuts() | {address for end in self.left for block in end.blocks for address in edges(block)}
        cuts |= {address for block in self.right.blocks for address in edges(block)}
        inner = [each for each in in_order(cuts) if any(each in block for block in sources.blocks) and not self.is_left_out(each)]
        outer = [each for each in in_order(cuts) if any(each in block for block in self.right.blocks)]
        for source in [*in_order(sources.pods), *inner]:
            for destination in [*in_order(self.right.pods), *outer]:
                for family in self._families(source, destination):
                    packet = self._breaking(source, destination, family)
                    if packet:
                        return packet
        return None

    def _families(self, source: Any, destination: Any) -> List[int]:
        both = isinstance(source, Pod), isinstance(destination, Pod)
        if source is destination or both == (False, False):
            return []
        self.is_asking = self.is_asking or self.asked != NOTHING
        return self.table.families if all(both) else [(destination if both[0] else source).version]

    def _breaking(self, source: Any, destination: Any, family: int) -> Optional[str]:
        passes = self.table.passes(source, destination, family)
        for protocol, asked, passing in zip(answers.PROTOCOLS, self.asked, passes):
            broken = asked & ~passing if self.verdict == "allow" else asked & passing
            if broken:
                are_pods = isinstance(source, Pod) and isinstance(destination, Pod)
                mark = " (IPv%d)" % family if are_pods and len(self.table.families) > 1 else ""
                return "%s => %s%s : %s %d : %s" % (text_of(source), text_of(destination), mark, protocol, least(broken),
                                                    "Deny" if self.verdict == "allow" else "Allow")
        return None

    def of_ingresses(self) -> Tuple[str, str]:
        """What there is to say of what comes through Ingresses."""
        self.is_asking = self.is_asking or self.asked != NOTHING
        names = list(dict.fromkeys(pod.workload for pod in in_order(self.right.pods)))
        doubtful = False
        for name in names:
            there, leads = self.table.open.get(name, 0), self.table.leads.get(name, 0)
            for protocol, asked in zip(answers.PROTOCOLS, self.asked):
                opened, led = (there, leads) if protocol == "TCP" else (0, 0)
                broken = asked & ~opened & ~led if self.verdict == "allow" else asked & opened
                doubtful = doubtful or bool(asked & led & ~opened)
                if broken:
                    end = "Deny" if self.verdict == "allow" else "Allow"
                    return "VIOLATED", "%s => %s : %s %d : %s" % (CONTROLLER, name, protocol, least(broken), end)
        return ("unsure" if doubtful else "ok"), ""

    def answer(self) -> Tuple[str, str]:
        """The state of the statement, and the packet that breaks it."""
        packet = None if self.left[0].has_controller and self.verdict != "only" else self.first_packet()
        state = "VIOLATED" if packet else "ok"
        if not packet and self.sources().has_controller and self.right.pods:
            state, packet = self.of_ingresses()
        return (state, packet or "") if self.is_asking else ("error", "")


def edges(block: Any) -> List[Address]:
    """The first address of a block, and the first behind it."""
    behind = int(block[-1]) + 1
    return [block[0], *([type(block[0])(behind)] if behind < 2 ** block.max_prefixlen else [])]


def least(ports: int) -> int:
    return (ports & -ports).bit_length() - 1


def text_of(end: Any) -> str:
    return end.workload if isinstance(end, Pod) else str(end)


def in_order(ends: Any) -> List[Any]:
    """Pods by the names of their workloads, or addresses."""
    return sorted(ends, key=lambda end: end.workload.encode() if isinstance(end, Pod) else (end.version, int(end)))
