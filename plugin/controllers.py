"""The pods that controllers would make, where manifests have the controllers alone.

np takes a controller without pods for one pod of its template. On a cluster there may be several, which may reach
each other, and they have labels that the template does not have. So they are made here, as far as the API's reference
says what they are.
"""
from __future__ import annotations

from itertools import chain, count
from typing import Any, Dict, Iterable, Iterator, List, NamedTuple, Optional, Set, Tuple

from plugin.objects import Place, member, namespace_of, place_of, type_of
from plugin.replicas import JOB_INDEX, JOBS, POD_INDEX, POD_NAME, Replicas
from plugin.pod_selectors import PodSelector, selectors_of

_TYPES = {("apps/v1", "Deployment"), ("apps/v1", "ReplicaSet"), ("apps/v1", "StatefulSet"), ("apps/v1", "DaemonSet"),
          ("v1", "ReplicationController"), ("batch/v1", "Job"), ("batch/v1", "CronJob")}
_KINDS = {kind for _, kind in _TYPES}

_JOB_NAMES = ("job-name", "batch.kubernetes.io/job-name")
_JOB_IDENTITIES = ("controller-uid", "batch.kubernetes.io/controller-uid")

# The labels that controllers add with values that cannot be known before.
_UNKNOWN: Dict[str, Tuple[str, ...]] = {
    "Deployment": ("pod-template-hash",),
    "StatefulSet": ("controller-revision-hash",),
    "DaemonSet": ("controller-revision-hash", "pod-template-generation"),
    "Job": _JOB_IDENTITIES,
    "CronJob": _JOB_NAMES + _JOB_IDENTITIES,
}


class Group(NamedTuple):
    """A controller, the pods that were made of it (at least one), and the keys of the labels that they have on a
    cluster and not here."""

    controller: Any
    pods: List[Any]
    unknown: Tuple[str, ...]


class Made(NamedTuple):
    """The pods that were made, by controller, and the controllers that are scaled to 0."""

    groups: List[Group]
    scaled_to_zero: List[Any]

    @property
    def pods(self) -> List[Any]:
        """All pods that were made."""
        return [pod for group in self.groups for pod in group.pods]


class UnknownLabel(NamedTuple):
    """A policy or Service, the key of a label for which it asks and whose value cannot be known, and the controllers
    of the pods concerned."""

    item: Any
    key: str
    controllers: List[Any]


def pods_of(items: List[Any], namespace: str = "default") -> Made:
    """The pods of those controllers among the objects of which no pod is there, and whose own controller is not there.

    `namespace` is that of the autoscalers that name none. A controller that np would refuse may have no pod: np says
    what is wrong.
    """
    controllers = _controllers(items)
    supplied = _supplied(items, controllers)
    replicas = Replicas(items, namespace)
    names = _Names(items)
    made = Made([], [])
    # The names of a StatefulSet's pods are given, so its pods come first, and the others have the names that are left.
    for place in sorted(controllers, key=lambda place: place.kind != "StatefulSet"):
        item = controllers[place]
        if place in supplied or _owner(item) in controllers:
            continue
        if replicas.are_none(place, _spec(item)):
            made.scaled_to_zero.append(item)
        elif isinstance(_template(item), dict):
            made.groups.append(Group(item, _pods(place, item, replicas, names), _unknown(item)))
    return made


def unknown_labels(items: List[Any], made: Made) -> List[UnknownLabel]:
    """The policies and Services that ask for a label that the pods concerned have on a cluster and not here, each
    once for each key.

    A pod that does not meet what else the selector asks is not concerned.
    """
    groups: Dict[Tuple[str, ...], List[Group]] = {}
    for group in made.groups:
        groups.setdefault(group.unknown, []).append(group)
    found: Dict[Tuple[int, str], Tuple[Any, Dict[int, Any]]] = {}
    for selector in selectors_of(items):
        asked = {each.key for each in selector.asks.requirements}
        for unknown, alike in groups.items():
            keys = [key for key in unknown if key in asked]
            concerned = _concerned(selector, unknown, alike) if keys else {}
            for key in keys if concerned else ():
                found.setdefault((id(selector.item), key), (selector.item, {}))[1].update(concerned)
    return [UnknownLabel(item, key, list(controllers.values())) for (_, key), (item, controllers) in found.items()]


def _concerned(selector: PodSelector, unknown: Tuple[str, ...], groups: List[Group]) -> Dict[int, Any]:
    """The controllers of which the selector selects a pod, if the labels that are not here are such as it asks; each
    by its identity."""
    known = [each for each in selector.asks.requirements if each.key not in unknown]
    return {id(group.controller): group.controller for group in groups
            if selector.namespace in (None, namespace_of(group.controller))
            and any(all(each.is_met(pod["metadata"]["labels"]) for each in known) for pod in group.pods)}


def _controllers(items: List[Any]) -> Dict[Place, Any]:
    found: Dict[Place, Any] = {}
    for item in items:
        place = place_of(item)
        if place and type_of(item) in _TYPES:
            found.setdefault(place, item)
    return found


def _owner(item: Any) -> Optional[Place]:
    """The controller that the object names as its own."""
    references = member(item, "metadata", "ownerReferences")
    for reference in references if isinstance(references, list) else ():
        kind, name = member(reference, "kind"), member(reference, "name")
        if member(reference, "controller") is True and isinstance(kind, str) and isinstance(name, str) and kind in _KINDS:
            return Place(kind, namespace_of(item), name)
    return None


def _supplied(items: List[Any], controllers: Dict[Place, Any]) -> Set[Place]:
    """The controllers that have pods among the objects, themselves or through controllers of theirs."""
    found: Set[Place] = set()
    for item in items:
        place = _owner(item) if type_of(item) == ("v1", "Pod") else None
        while place in controllers and place not in found:
            found.add(place)
            place = _owner(controllers[place])
    return found


def _spec(item: Any) -> Any:
    """What the controller, or for a CronJob its Job, is to be."""
    return member(item, "spec", "jobTemplate", "spec") if item["kind"] == "CronJob" else member(item, "spec")


def _template(item: Any) -> Any:
    return member(_spec(item), "template")


def _unknown(item: Any) -> Tuple[str, ...]:
    return () if _labels_itself(item) else _UNKNOWN.get(item["kind"], ())


def _labels_itself(item: Any) -> bool:
    """Whether it is a Job whose pods have the labels of its template alone, as its author wishes."""
    return item["kind"] in JOBS and member(_spec(item), "manualSelector") is True


class _Names:
    """Names that no pod has yet."""

    def __init__(self, items: List[Any]) -> None:
        self._taken = {place_of(item) for item in items if type_of(item) == ("v1", "Pod")}

    def first_free(self, namespace: str, names: Iterable[str]) -> str:
        """The first of the names that is not taken, which is then."""
        place = next(place for place in (Place("Pod", namespace, name) for name in names) if place not in self._taken)
        self._taken.add(place)
        return place.name


def _pods(place: Place, item: Any, replicas: Replicas, names: _Names) -> List[Any]:
    indexes = replicas.indexes(place, _spec(item))
    if indexes is None:
        free = [names.first_free(place.namespace, _numbered(place.name)) for _ in range(replicas.number(place, _spec(item)))]
        return [_pod(place, item, name, None) for name in free]
    return [_pod(place, item, names.first_free(place.namespace, _with_index(place.name, index)), index) for index in indexes]


def _numbered(name: str) -> Iterator[str]:
    return ("%s-%d" % (name, number) for number in count(1))


def _with_index(name: str, index: int) -> Iterator[str]:
    """The name of the pod with the index, and further ones for the case that another pod has it."""
    whole = "%s-%d" % (name, index)
    return chain([whole], _numbered(whole))


def _pod(place: Place, item: Any, name: str, index: Optional[int]) -> Any:
    labels = member(_template(item), "metadata", "labels")
    labels = dict(labels if isinstance(labels, dict) else {}, **_added_labels(place, item, index))
    owner = {"apiVersion": item["apiVersion"], "kind": place.kind, "name": place.name, "controller": True}
    metadata = {"name": name, "namespace": place.namespace, "labels": labels, "ownerReferences": [owner]}
    return {"apiVersion": "v1", "kind": "Pod", "metadata": metadata, "spec": member(_template(item), "spec")}


def _added_labels(place: Place, item: Any, index: Optional[int]) -> Dict[str, str]:
    """The labels that the controller adds to those of the template, as far as they are known."""
    if place.kind == "StatefulSet":
        return {POD_NAME: "%s-%d" % (place.name, index or 0), POD_INDEX: str(index)}
    added = dict.fromkeys(_JOB_NAMES, place.name) if place.kind == "Job" and not _labels_itself(item) else {}
    if index is not None:
        added[JOB_INDEX] = str(index)
    return added
