"""Who owns whom: the top owner of each pod, by which np names its workload, and the controllers that stand for a pod
of their template.

docs/use/INPUT.md says which owner counts.
"""
from __future__ import annotations

from typing import Any, Dict, Iterable, List, Optional, Set, Tuple

from plugin import values

CONTROLLERS = frozenset([
    ("apps/v1", "Deployment"), ("apps/v1", "ReplicaSet"), ("apps/v1", "StatefulSet"), ("apps/v1", "DaemonSet"),
    ("v1", "ReplicationController"), ("batch/v1", "Job"), ("batch/v1", "CronJob")])
_KINDS = frozenset(kind for _, kind in CONTROLLERS)
Item = Dict[str, Any]
_Reference = Tuple[str, str]  # the kind and the name
_Place = Tuple[str, str, str]  # the namespace, the kind and the name


def type_of(item: Item) -> Tuple[str, str]:
    """The version and the kind of an object."""
    return values.text(item.get("apiVersion")), values.text(item.get("kind"))


class Owners:
    """The owners of the pods of a list. The pods are asked about first, and then which controllers have none."""

    def __init__(self, items: Iterable[Item]) -> None:
        found = [item for item in items if type_of(item) in CONTROLLERS]
        self._controllers = {(values.namespace_of(item), values.text(item.get("kind")), values.name_of(item)): item for item in found}
        self._with_pods: Set[_Place] = set()
        self._workloads: Dict[_Place, str] = {}  # by the owner of a pod, which many pods have in common

    def workload_of(self, pod: Item) -> str:
        """The name of the pod's workload."""
        namespace = values.namespace_of(pod)
        owner = _controlling(pod)
        if owner is None:
            return workload(namespace, "Pod", values.name_of(pod))
        place = (namespace, *owner)
        if place not in self._workloads:
            self._workloads[place] = self._workload_below(namespace, owner)
        return self._workloads[place]

    def _workload_below(self, namespace: str, owner: _Reference) -> str:
        """The name of the workload of the pods that have this owner, which has pods with all that own it."""
        above: Optional[_Reference] = owner
        passed: Set[_Place] = set()
        while above is not None:
            owner = above
            place = (namespace, *above)
            if place in passed or place not in self._controllers:
                break
            passed.add(place)
            above = _above(self._controllers[place])
        self._with_pods |= passed
        return workload(namespace, *owner)

    def without_pods(self) -> List[Item]:
        """The controllers that no listed pod belongs to, and that have no owner in the list."""
        return [item for place, item in self._controllers.items()
                if place not in self._with_pods and not self._has_listed_owner(item)]

    def _has_listed_owner(self, item: Item) -> bool:
        above = _above(item)
        return above is not None and (values.namespace_of(item), *above) in self._controllers


def workload(namespace: str, kind: str, name: str) -> str:
    """The name that np has for the workload of this top owner."""
    return "%s/%s[%s]" % (namespace, name, kind)


def has_owner(item: Item) -> bool:
    """Whether something controls the object."""
    return _controlling(item) is not None


def _controlling(item: Item) -> Optional[_Reference]:
    for reference in values.objects(values.members(item.get("metadata")).get("ownerReferences")):
        kind = values.text(reference.get("kind"))
        if reference.get("controller") is True and kind != "Node":
            return kind, values.text(reference.get("name"))
    return None


def _above(controller: Item) -> Optional[_Reference]:
    """The owner of a controller: the first that is a controller too."""
    for reference in values.objects(values.members(controller.get("metadata")).get("ownerReferences")):
        kind = values.text(reference.get("kind"))
        if reference.get("controller") is True and kind in _KINDS:
            return kind, values.text(reference.get("name"))
    return None
