"""Caveats of port names in policies: those that stand at no pod that the rule is about, and those that stand at a
sidecar alone."""
from __future__ import annotations

from typing import Dict, FrozenSet, Iterator, List, NamedTuple, Tuple

from plugin.caveats.beside import Port
from plugin.caveats.caveat import ANYONE, Caveat, of_direction, some
from plugin.caveats.objects import Listed, Pods, Selection
from plugin.caveats.policies import Entry, Policy, Rule
from plugin.selectors import EVERYTHING

_ALL_PODS = Selection("", EVERYTHING, EVERYTHING)


class _Found(NamedTuple):
    """What is at the pods of a selection: the named ports, and the pods that have some at a sidecar."""

    ports: FrozenSet[Port]
    with_sidecars: Tuple[Pods, ...]


class PortNames:
    """The port names of policies. What was found of a selection is kept, since many rules have the same one."""

    def __init__(self, listed: Listed) -> None:
        self._listed = listed
        self._found: Dict[Selection, _Found] = {}

    def find(self, policies: List[Policy]) -> Iterator[Caveat]:
        """The caveats of all port names. Those of policies that select no pod mean nothing."""
        for policy in policies:
            for rule in policy.rules if policy.pods else []:
                for entry in rule.entries:
                    if entry.name:
                        yield from self._of_entry(policy, rule, entry)

    def _of_entry(self, policy: Policy, rule: Rule, entry: Entry) -> Iterator[Caveat]:
        receivers = _receivers(policy, rule)
        if receivers and not any(map(self._listed.met_by, receivers)):
            return  # that is said of its peers
        sidecars = [(pods, port) for selection in receivers for pods in self._at(selection).with_sidecars
                    for port in pods.sidecars if entry.has(port) and not any(map(entry.has, pods.ports))]
        yield from _of_sidecars(policy, rule, entry, sidecars)
        if not sidecars and not any(entry.has(port) for selection in receivers for port in self._at(selection).ports):
            yield Caveat("port-meets-nothing", policy.text, "%s: no listed pod that the rule is about has a port %s" %
                         (entry.place, _text_of(entry)), (of_direction(rule.is_ingress, policy.ends, ANYONE),), opens=rule.allows)

    def _at(self, selection: Selection) -> _Found:
        found = self._found.get(selection)
        if found is None:
            pods = self._listed.met_by(selection)
            ports = frozenset(port for each in pods for port in each.ports)
            found = self._found[selection] = _Found(ports, tuple(each for each in pods if each.sidecars))
        return found


def _receivers(policy: Policy, rule: Rule) -> List[Selection]:
    """Whose ports a rule is about: a port name is looked up at the pod that receives."""
    if rule.is_ingress:
        return [policy.subject]
    return [peer.selection for peer in rule.peers if peer.selection is not None] if rule.peers else [_ALL_PODS]


def _of_sidecars(policy: Policy, rule: Rule, entry: Entry, sidecars: List[Tuple[Pods, Port]]) -> Iterator[Caveat]:
    if not sidecars:
        return
    workloads = sorted({pods.workload for pods, _ in sidecars})
    ports = tuple(sorted({(port.protocol, port.number, port.number) for _, port in sidecars}))
    senders = ANYONE if rule.is_ingress else policy.ends
    yield Caveat("sidecar-port", policy.text, "%s: port %s is that of a sidecar of %s" % (entry.place, _text_of(entry), some(workloads)),
                 (of_direction(True, frozenset(workloads), senders),), ports, opens=rule.allows)


def _text_of(entry: Entry) -> str:
    return "%s (%s)" % (entry.name, entry.protocol) if entry.protocol else entry.name
