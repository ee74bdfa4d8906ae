"""The pods of a list by their labels, and which workload of np each belongs to.

What passes is no matter here. Where an owner has one workload, np's name for it is that of all its pods. Where it has
several, they are told apart as docs/use/MODEL.md says ("Alike pods"), and numbered by their first pods; where that
gives not as many as np has, nothing is said of the owner.
"""
from __future__ import annotations

import json
from functools import cached_property
from pathlib import Path
from typing import Any, Dict, FrozenSet, Iterator, List, NamedTuple, Set, Tuple

from plugin import kinds, values
from plugin.caveats.beside import pod_spec
from plugin.caveats.owners import Item, Owners, workload
from plugin.gate import blocks
from plugin.gate.workloads import NoWorkload, Workloads
from plugin.left_out import addresses_of
from plugin.objects import type_of
from plugin.selectors import Selector, selector, selector_of_labels


class Pod(NamedTuple):
    """A pod that np has: its place among the objects, its namespace, the name of its owner's workload, its labels, its
    addresses, and its named ports."""

    place: int
    namespace: str
    owner: str
    labels: Dict[str, str]
    addresses: Tuple[str, ...]
    ports: Tuple[Tuple[str, str, int], ...]


class ListedPods:
    """The pods of the list in a file, which np has taken."""

    def __init__(self, path: Path, workloads: Workloads) -> None:
        self._path = path
        self._workloads = workloads

    @cached_property
    def items(self) -> List[Item]:
        """The objects of the list."""
        whole = json.loads(self._path.read_bytes())
        return values.objects(whole.get("items") if whole.get("kind") == "List" else [whole])

    def meeting(self, namespace: str, asked: Selector) -> Dict[str, FrozenSet[int]]:
        """The workloads that have pods of the namespace whose labels meet the selector, in np's order, and the places
        of these pods. Fails where it cannot be said which workload a pod belongs to."""
        found: Dict[str, Set[int]] = {}
        for pod in self._by_namespace.get(namespace, []):
            if asked.is_met(pod.labels):
                found.setdefault(self._workload_of(pod), set()).add(pod.place)
        return {name: frozenset(found[name]) for name in sorted(found, key=self._workloads.places.__getitem__)}

    def all_of(self, name: str) -> FrozenSet[int]:
        """The places of all pods of a workload of which some pod was met."""
        return frozenset(self._members[name])

    @cached_property
    def _pods(self) -> List[Pod]:
        owners = Owners(self.items)
        listed = [(place, item, owners.workload_of(item)) for place, item in enumerate(self.items) if type_of(item) == ("v1", "Pod")]
        made = {id(item) for item in owners.without_pods()}
        found = [_pod(place, item, owner) for place, item, owner in listed if not _is_finished(item)]
        found += [_made_pod(place, item) for place, item in enumerate(self.items) if id(item) in made and _is_wanted(item)]
        return sorted(pod for pod in found if pod_spec(self.items[pod.place]).get("hostNetwork") is not True)

    @cached_property
    def _by_namespace(self) -> Dict[str, List[Pod]]:
        found: Dict[str, List[Pod]] = {}
        for pod in self._pods:
            found.setdefault(pod.namespace, []).append(pod)
        return found

    @cached_property
    def _by_owner(self) -> Dict[str, List[Pod]]:
        found: Dict[str, List[Pod]] = {}
        for pod in self._pods:
            found.setdefault(pod.owner, []).append(pod)
        return found

    @cached_property
    def _members(self) -> Dict[str, Set[int]]:
        return {}

    @cached_property
    def _told_apart(self) -> Dict[str, Dict[int, str]]:
        return {}

    def _workload_of(self, pod: Pod) -> str:
        """np's name for the workload of the pod."""
        if pod.owner not in self._told_apart:
            self._told_apart[pod.owner] = self._tell_apart(pod.owner)
        return self._told_apart[pod.owner][pod.place]

    def _tell_apart(self, owner: str) -> Dict[int, str]:
        """The workloads of the pods of an owner."""
        names, pods = self._workloads.owners.get(owner, []), self._by_owner[owner]
        kinds_of_pods = [() if len(names) == 1 else self._kind(pod) for pod in pods]
        numbers = {kind: number for number, kind in enumerate(dict.fromkeys(kinds_of_pods))}
        if len(numbers) != len(names):
            raise NoWorkload("it cannot be said which pods are those of workload %s; name workloads" % " and ".join(names or [owner]))
        found = {pod.place: names[numbers[kind]] for pod, kind in zip(pods, kinds_of_pods)}
        for place, name in found.items():
            self._members.setdefault(name, set()).add(place)
        return found

    def _kind(self, pod: Pod) -> Tuple[Any, ...]:
        """What tells pods of one owner apart."""
        addresses = [blocks.read(address)[0] for address in pod.addresses]
        labels = tuple(pod.labels.get(key) for key in self._keys)
        return labels, pod.ports, tuple(any(address in block for address in addresses) for block in self._blocks)

    @cached_property
    def _keys(self) -> List[str]:
        """The keys of labels that selectors of policies and Services name."""
        return sorted({requirement.key for item in self.items for each in _selectors(item) for requirement in each.requirements})

    @cached_property
    def _blocks(self) -> List[Any]:
        """The blocks of the `networks` peers of admin policies."""
        texts = {text for item in self.items if type_of(item) in kinds.POLICY_TYPES for text in blocks.of_networks(item.get("spec"))}
        return [blocks.read(text) for text in sorted(texts)]


def _is_finished(pod: Item) -> bool:
    return values.members(pod.get("status")).get("phase") in ("Succeeded", "Failed")


def _pod(place: int, item: Item, owner: str) -> Pod:
    labels = values.labels(values.members(item.get("metadata")).get("labels"))
    return Pod(place, values.namespace_of(item), owner, labels, tuple(addresses_of(item)), _ports(item))


def _made_pod(place: int, item: Item) -> Pod:
    """The pod that a controller without pods stands for."""
    owner = workload(values.namespace_of(item), values.text(item.get("kind")), values.name_of(item))
    labels = values.labels(values.members(_template(item).get("metadata")).get("labels"))
    return Pod(place, values.namespace_of(item), owner, labels, (), _ports(item))


def _template(item: Item) -> Dict[str, Any]:
    spec = values.members(item.get("spec"))
    if item.get("kind") == "CronJob":
        spec = values.members(values.members(spec.get("jobTemplate")).get("spec"))
    return values.members(spec.get("template"))


def _is_wanted(item: Item) -> bool:
    return bool(_template(item)) and values.members(item.get("spec")).get("replicas") != 0


def _ports(item: Item) -> Tuple[Tuple[str, str, int], ...]:
    return tuple((values.text(port.get("name")), values.text(port.get("protocol")) or "TCP", values.number(port.get("containerPort")))
                 for container in values.objects(pod_spec(item).get("containers"))
                 for port in values.objects(container.get("ports")) if port.get("name"))


def _selectors(item: Item) -> Iterator[Selector]:
    """The selectors of a policy or Service that are in force."""
    spec = values.members(item.get("spec"))
    if type_of(item) == ("v1", "Service"):
        yield selector_of_labels(spec.get("selector"))
    elif type_of(item) == ("networking.k8s.io/v1", "NetworkPolicy"):
        yield selector(spec.get("podSelector"))
        for direction in ("ingress", "egress"):
            if direction.capitalize() in types_of(spec):
                yield from _inner_selectors(spec.get(direction))
    elif type_of(item) in kinds.POLICY_TYPES:
        yield from _inner_selectors([spec.get("subject"), spec.get("ingress"), spec.get("egress")])


def types_of(spec: Dict[str, Any]) -> List[str]:
    """The directions of a NetworkPolicy: those that it names, or ingress, and egress where it has such a rule."""
    return values.texts(spec.get("policyTypes")) or ["Ingress"] + ["Egress"] * bool(spec.get("egress"))


def _inner_selectors(value: Any) -> Iterator[Selector]:
    if isinstance(value, list):
        for inner in value:
            yield from _inner_selectors(inner)
    elif isinstance(value, dict):
        for name, inner in value.items():
            if name in ("podSelector", "namespaceSelector", "namespaces"):
                yield selector(inner)
            else:
                yield from _inner_selectors(inner)
