"""What np is not given of objects, and caveats need: it is looked at before the filter drops it."""
from __future__ import annotations

from typing import Any, Dict, FrozenSet, Iterable, List, NamedTuple, Optional, Tuple

from plugin import values
from plugin.left_out import LeftOut

# The type of an object, its namespace and its name.
Place = Tuple[str, str, str]


class Port(NamedTuple):
    """A port of a container that has a name."""

    name: str
    protocol: str
    number: int


_NO_PORTS: FrozenSet[Port] = frozenset()


class UnknownLabel(NamedTuple):
    """A selector that asks for a label which the cluster sets, with a value that nobody knows before: the object that
    has the selector, the key, and the controllers whose pods get the label, by the names of their workloads."""

    object: str
    key: str
    controllers: List[str]


class Beside:
    """What is known of objects beside their list. Objects are seen from several threads, each of another kind."""

    def __init__(self, left: Optional[LeftOut] = None) -> None:
        self.left_out = left or LeftOut()
        self.unknown_labels: List[UnknownLabel] = []
        self._sidecars: Dict[Place, FrozenSet[Port]] = {}
        self._equal: Dict[FrozenSet[Port], FrozenSet[Port]] = {}  # one for all that are equal, since there may be very many

    def see(self, item: Any) -> None:
        """Takes an object as it was before the filter."""
        if type(item) is dict:
            containers = pod_spec(item).get("initContainers")
            if containers:
                self._see_containers(item, values.objects(containers))

    def sidecars(self, item: Dict[str, Any]) -> FrozenSet[Port]:
        """The named ports of the containers of the object's pods that restart among the initContainers."""
        return self._sidecars.get(_place(item), _NO_PORTS) if self._sidecars else _NO_PORTS

    def _see_containers(self, item: Dict[str, Any], containers: List[Dict[str, Any]]) -> None:
        ports = ports_of([each for each in containers if each.get("restartPolicy") == "Always"])
        if ports:
            self._sidecars[_place(item)] = self._equal.setdefault(ports, ports)


def _place(item: Dict[str, Any]) -> Place:
    return values.text(item.get("kind")), values.namespace_of(item), values.name_of(item)


def pod_spec(item: Dict[str, Any]) -> Dict[str, Any]:
    """What an object says of its pod, or of the pods that are made from its template; nothing where it has neither."""
    spec = values.members(item.get("spec"))
    if item.get("kind") == "Pod":
        return spec
    if item.get("kind") == "CronJob":
        spec = values.members(values.members(spec.get("jobTemplate")).get("spec"))
    return values.members(values.members(spec.get("template")).get("spec"))


def ports_of(containers: Iterable[Dict[str, Any]]) -> FrozenSet[Port]:
    """The ports of the containers that have a name."""
    return frozenset(Port(name, values.text(port.get("protocol")) or "TCP", values.number(port.get("containerPort")))
                     for container in containers for port in values.objects(container.get("ports"))
                     for name in (values.text(port.get("name")),) if name)
