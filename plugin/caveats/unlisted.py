"""Caveats of what the list does not say: labels that only the cluster knows, workloads without pods, and labels of
namespaces."""
from __future__ import annotations

from typing import Dict, Iterator, List

from plugin import values
from plugin.caveats.beside import UnknownLabel
from plugin.caveats.caveat import Caveat, at_either_end, place_of, some
from plugin.caveats.objects import NAME_LABEL, Listed, Selection
from plugin.caveats.owners import has_owner
from plugin.caveats.policies import Policy


def find(listed: Listed, policies: List[Policy], unknown_labels: List[UnknownLabel]) -> Iterator[Caveat]:
    """The caveats of what is not in the list."""
    for unknown in unknown_labels:
        yield Caveat("label-unknown", unknown.object, "asks for the label %s, which the cluster gives to the pods of %s" %
                     (unknown.key, some(unknown.controllers)), at_either_end(unknown.controllers))
    yield from _scaled_to_zero(listed)
    yield from _without_objects(listed, policies)


def _scaled_to_zero(listed: Listed) -> Iterator[Caveat]:
    """The workloads that have no replicas. A controller that another one made is none: so are ReplicaSets of former
    rollouts."""
    for item in listed.empty_controllers:
        replicas = values.members(item.get("spec")).get("replicas")
        if type(replicas) is int and replicas == 0 and not has_owner(item):
            namespace = values.namespace_of(item)
            text = "%s %s/%s" % (values.text(item.get("kind")), namespace, values.name_of(item))
            yield Caveat("scaled-to-zero", text, "replicas is 0, so it has no pod", at_either_end([place_of(namespace)]))


def _without_objects(listed: Listed, policies: List[Policy]) -> Iterator[Caveat]:
    """The namespaces with pods and no object, where some selector of namespaces asks for a label that is not their
    name."""
    asking = _asking(policies)
    for namespace in sorted(listed.by_namespace if asking else []):
        if namespace not in listed.known_namespaces:
            key, text = next(iter(asking.items()))
            detail = "it has pods and no Namespace object, and %s asks for the label %s of namespaces" % (text, key)
            yield Caveat("namespace-without-object", "Namespace " + namespace, detail, at_either_end(listed.ends_of(namespace)))


def _asking(policies: List[Policy]) -> Dict[str, str]:
    """The keys that selectors of namespaces ask for, but for the name, each with the first policy that has such a
    selector."""
    found: Dict[str, str] = {}
    for policy in policies:
        selections: List[Selection] = [policy.subject]
        selections += [peer.selection for rule in policy.rules for peer in rule.peers if peer.selection is not None]
        for selection in selections:
            for requirement in selection.namespaces.requirements if selection.namespaces is not None else ():
                if requirement.key != NAME_LABEL:
                    found.setdefault(requirement.key, policy.text)
    return found
