"""Caveats of selectors in policies: those that select nothing, and peers that nothing listed meets."""
from __future__ import annotations

from typing import Iterator, List

from plugin.caveats.caveat import ANY_POD, ANYONE, Caveat, Ends, Pair, of_direction
from plugin.caveats.objects import Listed, Selection
from plugin.caveats.policies import Policy, Rule


def find(listed: Listed, policies: List[Policy]) -> Iterator[Caveat]:
    """The caveats of the policies. Of one that selects nothing no more is said: its rules decide nothing."""
    for policy in policies:
        if not listed.is_met(policy.subject):
            yield Caveat("policy-selects-nothing", policy.text, _selected(policy), tuple(_touched_by_idle(listed, policy)))
        if not policy.pods:
            continue
        for rule in policy.rules:
            yield from _of_peers(listed, policy, rule, policy.ends)


def described(selection: Selection) -> str:
    """The selection in words."""
    spaces = "in namespace %s" % selection.home
    if selection.namespaces is not None:
        spaces = "in namespaces with %s" % str(selection.namespaces) if selection.namespaces.requirements else "in any namespace"
    return ("a pod with %s " % str(selection.pods) if selection.pods.requirements else "a pod ") + spaces


def _selected(policy: Policy) -> str:
    return "it is for %s, and none is listed" % described(policy.subject)


def _touched_by_idle(listed: Listed, policy: Policy) -> Iterator[Pair]:
    """The connections of the pods that the policy may have been meant for: those of its namespace, or all."""
    ends: Ends = ANY_POD
    if policy.is_of_namespace:
        ends = listed.ends_of(policy.namespace)
    for direction in sorted(policy.directions):
        yield of_direction(direction == "Ingress", ends, ANYONE)


def _of_peers(listed: Listed, policy: Policy, rule: Rule, ends: Ends) -> Iterator[Caveat]:
    for peer in rule.peers:
        if peer.selection is not None and not listed.is_met(peer.selection):
            yield Caveat("peer-meets-nothing", policy.text, "%s is %s, and none is listed" % (peer.place, described(peer.selection)),
                         (of_direction(rule.is_ingress, ends, _meant(listed, peer.selection)),), rule.spans, opens=rule.allows)


def _meant(listed: Listed, selection: Selection) -> Ends:
    """The pods that the selection may have been meant for: those of its namespace, or any."""
    return listed.ends_of(selection.home) if selection.namespaces is None else ANY_POD
