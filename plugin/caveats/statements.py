"""What bears on statements of `check` and of the gate."""
from __future__ import annotations

import re
from functools import cached_property
from typing import FrozenSet, Iterable, List, Optional, Tuple

from plugin.caveats.addresses import network
from plugin.caveats.caveat import ANY_POD, ANYONE, CONTROLLER, Caveat, Ends, Span
from plugin.caveats.objects import Address
from plugin.caveats.policies import Block
from plugin.caveats.told import OF_STATEMENTS
from plugin.caveats.whole import Caveats
from plugin.gate.grammar import End, EndKind, Parts
from plugin.ports import Ports, read_connections

# What np puts behind the name of a workload where an owner has several.
_NUMBER = re.compile(r"#[0-9]+\Z")

Asked = List[Tuple[str, Ports]]


class StatementCaveats:
    """The caveats of a list, asked for by statement."""

    def __init__(self, caveats: Caveats) -> None:
        self._caveats = caveats

    @cached_property
    def _pairs(self) -> List[Tuple[Ends, Ends, int]]:
        """The pairs of all caveats, each with the number of the caveat. They are gone through for each statement."""
        return [(*pair, number) for number, caveat in enumerate(self._caveats.all) for pair in caveat.touched]

    @property
    def families(self) -> FrozenSet[str]:
        """The families of the list: those of the addresses of its pods, or IPv4 alone."""
        return frozenset("IPv6" if ":" in address.text else "IPv4" for address in self._caveats.listed.addresses) or frozenset(["IPv4"])

    def of(self, number: int, parts: Parts) -> List[Caveat]:
        """The caveats that touch the statement in the line of this number."""
        sources, destinations = self._ends(parts.source), self._ends(parts.destination)
        touching = {place for senders, receivers, place in self._pairs
                    if not (senders.isdisjoint(sources) or receivers.isdisjoint(destinations))}
        found = [self._caveats.all[place] for place in sorted(touching)]
        found = at_ports(found, ports_of(parts.connections))
        blocks = [end.text for end in parts.ends() if self._holds_pods(end)]
        if blocks:
            found.append(Caveat(OF_STATEMENTS, "line %d" % number, ", ".join(blocks), ()))
        return found

    def pod_at(self, parts: Parts) -> "Optional[Tuple[str, Address]]":
        """The address among the ends that is that of a listed pod, and the pod, where there is one."""
        for end in parts.ends():
            found = self._caveats.addresses.pod_at(end.text) if end.kind == EndKind.ADDRESSES else None
            if found is not None:
                return end.text, found
        return None

    def _holds_pods(self, end: End) -> bool:
        """Whether the end is a block that holds addresses of pods. One that holds all addresses is `any address`."""
        block = network(end.text) if end.kind == EndKind.ADDRESSES else None
        return block is not None and block.prefixlen > 0 and self._caveats.addresses.held_by(Block(end.text, ())).pods > 0

    def _ends_of_owner(self, name: str) -> Ends:
        """The names of a workload, or of those of an owner that is named without its kind."""
        if "[" in name:
            return ends_of_workload(name)
        space = name.partition("/")[0]
        found = {pods.workload for pods in self._caveats.listed.by_namespace.get(space, []) if _without_kind(pods.workload) == name}
        return frozenset(found) | ANY_POD | ANYONE

    def _listed_with(self, end: End) -> Ends:
        """The workloads of the namespace that have pods whose labels meet the selector."""
        listed = self._caveats.listed.by_namespace.get(end.name, [])
        return frozenset(pods.workload for pods in listed if end.selector.is_met(pods.labels))

    @cached_property
    def _all(self) -> Ends:
        return self._caveats.listed.all_ends() | ANY_POD | ANYONE

    def _ends(self, end: End) -> Ends:
        """The names of the end. Those of pods are also any pod, and any end."""
        if end.kind == EndKind.WORKLOAD:
            return self._ends_of_owner(end.name)
        if end.kind == EndKind.PODS:
            return self._listed_with(end) | ANY_POD | ANYONE
        if end.kind == EndKind.OTHERS:
            named = frozenset(name for each in end.ends for name in self._ends(each)) - ANY_POD - ANYONE
            return (self._all | CONTROLLER) - named
        if end.kind == EndKind.NAMESPACE:
            return self._caveats.listed.ends_of(end.name) | ANY_POD | ANYONE
        if end.kind == EndKind.OUTSIDE_NAMESPACE:
            return self._all - self._caveats.listed.ends_of(end.name)
        if end.kind == EndKind.INGRESS_CONTROLLER:
            return CONTROLLER | ANYONE
        return self._all if end.kind == EndKind.ANY_POD else ANYONE


def _without_kind(owner: str) -> str:
    return owner.partition("[")[0]


def ends_of_workload(name: str) -> Ends:
    """The names of an end that is a workload, by np's name for it."""
    return frozenset([owner_of(name)]) | ANY_POD | ANYONE


def owner_of(name: str) -> str:
    """The name of a workload without the number that np puts behind it where its owner has several."""
    return _NUMBER.sub("", name)


def names_of_workload(owner: str, names: Iterable[str]) -> List[str]:
    """np's names for the workloads of an owner: of one that has several they are numbered."""
    return [name for name in names if owner_of(name) == owner]


def ports_of(connections: str) -> Asked:
    """The protocols and their ports, as np prints them; none where the text is no such text, as in a faulty
    statement."""
    try:
        return read_connections(connections)
    except ValueError:
        return []


def at_ports(caveats: List[Caveat], asked: Asked) -> List[Caveat]:
    """The caveats that touch one of the ports. Most have few spans of ports, and the same ones."""
    touched = {spans: not spans or _have_common(spans, asked) for spans in {caveat.ports for caveat in caveats}}
    return [caveat for caveat in caveats if touched[caveat.ports]]


def _have_common(spans: Iterable[Span], asked: Asked) -> bool:
    return any((ports & Ports([(first, last)])).least() for protocol, ports in asked
               for wanted, first, last in spans if wanted in ("", protocol))
