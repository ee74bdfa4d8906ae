"""The objects of a list, as the caveats need them: pods, namespaces, policies, Services and Ingresses.

The pods are those that np has (docs/use/INPUT.md): without finished ones and those on the network of their node, and
with one for each controller that has none.
"""
from __future__ import annotations

import json
from functools import cached_property
from pathlib import Path
from typing import Any, Dict, FrozenSet, Iterator, List, NamedTuple, Optional, Tuple

from plugin import values
from plugin.caveats.beside import Beside, Port, pod_spec, ports_of
from plugin.caveats.caveat import Ends, place_of
from plugin.caveats.owners import Item, Owners, type_of, workload
from plugin.left_out import LeftOutPod, addresses_of, name_of
from plugin.selectors import Selector

NAME_LABEL = "kubernetes.io/metadata.name"


class Pods(NamedTuple):
    """Pods that nothing here tells apart. `sidecars` are named ports of containers that restart among the
    initContainers."""

    namespace: str
    workload: str
    labels: Dict[str, str]
    ports: FrozenSet[Port]
    sidecars: FrozenSet[Port]


class Address(NamedTuple):
    """An address of a pod, with the pod's name."""

    text: str
    pod: str
    pods: Pods


class Selection(NamedTuple):
    """What pods have to meet: in the namespaces that meet a selector, or in the one of this name."""

    home: str
    namespaces: Optional[Selector]
    pods: Selector


class Listed:
    """The objects of a list."""

    def __init__(self, items: List[Item], beside: Beside) -> None:
        self._beside = beside
        self.by_type: Dict[Tuple[str, str], List[Item]] = {}
        for item in items:
            self.by_type.setdefault(type_of(item), []).append(item)
            beside.see(item)
        self._addresses: List[List[Address]] = []  # of each pod that is listed
        self._named: Dict[str, Pods] = {}  # by the namespace and name of each pod
        self.empty_controllers: List[Item] = []  # those that no pod belongs to
        self.known_namespaces = {values.name_of(item): values.labels(values.members(item.get("metadata")).get("labels"))
                                 for item in self.by_type.get(("v1", "Namespace"), [])}
        self._groups: Dict[Any, Pods] = {}
        self._left_out: Dict[Any, Pods] = {}  # pods that np knows and does not have: finished ones, those of nodes, those of no replicas
        self._read_pods(Owners(items))
        self.by_namespace: Dict[str, List[Pods]] = {}
        self._by_label: Dict[Tuple[str, str], Dict[str, List[Pods]]] = {}  # by label, and then by namespace
        for pods in self._groups.values():
            self.by_namespace.setdefault(pods.namespace, []).append(pods)
            for label in pods.labels.items():
                self._by_label.setdefault(label, {}).setdefault(pods.namespace, []).append(pods)
        self._met: Dict[Selection, List[Pods]] = {}
        self._namespaces_met: Dict[Selector, FrozenSet[str]] = {}

    @cached_property
    def addresses(self) -> List[Address]:
        """The addresses of the pods, also of those that np is not given since there are so many."""
        return [address for found in self._beside.left_out.merged(self._addresses, self._addresses_left_out) for address in found]

    def _addresses_left_out(self, pod: LeftOutPod) -> List[Address]:
        like = self._named.get(pod.like)
        return [Address(text, pod.name, like) for text in pod.addresses] if like is not None else []

    def workload_of(self, pod: str) -> str:
        """The workload of the pod of this namespace and name; empty where there is none."""
        return self._named[pod].workload if pod in self._named else ""

    def of_type(self, version: str, kind: str) -> List[Item]:
        """The objects of a type."""
        return self.by_type.get((version, kind), [])

    def met_by(self, selection: Selection) -> List[Pods]:
        """The pods that the selection is about."""
        met = self._met.get(selection)
        if met is None:
            met = self._met[selection] = [pods for pods in self._candidates(selection) if selection.pods.is_met(pods.labels)]
        return met

    def is_met(self, selection: Selection) -> bool:
        """Whether the selection is about some pod, be it one that np leaves out or one of a workload that is scaled
        to 0."""
        return bool(self.met_by(selection)) or any(self._meets(pods, selection) for pods in self._left_out.values())

    def _meets(self, pods: Pods, selection: Selection) -> bool:
        is_home = pods.namespace == selection.home if selection.namespaces is None else (
            selection.namespaces.is_met(self.namespace_labels(pods.namespace)))
        return is_home and selection.pods.is_met(pods.labels)

    def ends_of(self, namespace: str) -> Ends:
        """The workloads of a namespace, and what stands for those that have no pod now."""
        return frozenset([place_of(namespace), *(pods.workload for pods in self.by_namespace.get(namespace, []))])

    def all_ends(self) -> Ends:
        """The workloads of all namespaces, and what stands for those that have no pod now."""
        named = {values.namespace_of(item) for items in self.by_type.values() for item in items}
        return frozenset(end for namespace in named for end in self.ends_of(namespace))

    def namespace_labels(self, namespace: str) -> Dict[str, str]:
        """The labels of a namespace. Its name is always one."""
        return {**self.known_namespaces.get(namespace, {}), NAME_LABEL: namespace}

    def _candidates(self, selection: Selection) -> Iterator[Pods]:
        """The pods of its namespaces, or those of them that have one of the labels that it asks for: most selectors
        ask for one."""
        label = selection.pods.one_value()
        by_namespace = self.by_namespace if label is None else self._by_label.get(label, {})
        if selection.namespaces is None:
            yield from by_namespace.get(selection.home, [])
        else:
            namespaces = self._met_namespaces(selection.namespaces)
            for namespace, pods in by_namespace.items():
                if namespace in namespaces:
                    yield from pods

    def _met_namespaces(self, selector: Selector) -> FrozenSet[str]:
        met = self._namespaces_met.get(selector)
        if met is None:
            met = frozenset(name for name in self.by_namespace if selector.is_met(self.namespace_labels(name)))
            self._namespaces_met[selector] = met
        return met

    def _read_pods(self, owners: Owners) -> None:
        for item in self.of_type("v1", "Pod"):
            workload = owners.workload_of(item)
            is_finished = values.members(item.get("status")).get("phase") in ("Succeeded", "Failed")
            pods = self._group(item, workload, values.members(item.get("metadata")), is_finished)
            self._addresses.append([] if pods is None else _addresses(item, pods))
        for item in owners.without_pods():
            self._read_template(item)

    def _read_template(self, item: Item) -> None:
        self.empty_controllers.append(item)
        spec = values.members(item.get("spec"))
        if item.get("kind") == "CronJob":
            spec = values.members(values.members(spec.get("jobTemplate")).get("spec"))
        template = spec.get("template")
        if isinstance(template, dict):
            name = workload(values.namespace_of(item), values.text(item.get("kind")), values.name_of(item))
            self._group(item, name, values.members(template.get("metadata")), spec.get("replicas") == 0)

    def _group(self, item: Item, workload: str, metadata: Item, is_left_out: bool) -> Optional[Pods]:
        """The pods among which a pod is, or None where np leaves it out."""
        labels, spec, sidecars = values.labels(metadata.get("labels")), pod_spec(item), self._beside.sidecars(item)
        ports = ports_of(values.objects(spec.get("containers")))
        key = (workload, tuple(sorted(labels.items())), ports, sidecars)
        pods = Pods(values.namespace_of(item), workload, labels, ports, sidecars)
        if is_left_out or spec.get("hostNetwork") is True:
            self._left_out.setdefault(key, pods)
            return None
        found = self._groups.setdefault(key, pods)
        self._named.setdefault(name_of(item), found)
        return found


def _addresses(item: Item, pods: Pods) -> List[Address]:
    return [Address(text, name_of(item), pods) for text in addresses_of(item)]


def read(path: Path, beside: Beside) -> Listed:
    """The objects of the list in the file; none where it is no list, which is np's to say."""
    try:
        whole = json.loads(path.read_bytes())
    except (OSError, ValueError, RecursionError):
        return Listed([], beside)
    is_list = isinstance(whole, dict) and whole.get("kind") == "List"
    return Listed(values.objects(whole.get("items") if is_list else [whole]), beside)
