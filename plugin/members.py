"""Keeps of the objects of a list what np reads: what np says of what is left is what it says of the whole list, be it
a report, a note or a refusal, but for counts: there are fewer bytes (TooLarge) and fewer items (TooManyItems, and the
numbers of those behind one that goes).

docs/use/TABLES.md says which members these are.

- Items keep their order and their types, also where np does not read their kind, since it counts those, and refuses
  some.
- A value that has not the type that its shape says stays as it is, and so does null: what it is is np's to say.
- The specs of policies stay whole. They are small, and a selector is refused for a member that it does not have.
- ReplicaSets of former rollouts go (`rollouts`), and of a list that is too large pods that are like two others (`thinning`).
- What np refuses as no JSON stays as it is.
"""
from __future__ import annotations

import shutil
from typing import IO, Any, Dict, Iterable, Iterator, List, Tuple

from plugin import jsontext
from plugin.caveats.beside import Beside
from plugin.rollouts import Rollouts
from plugin.room import Room
from plugin.snapshot import MOST, MOST_ITEMS

# What is kept of a value: True keeps all of it; an object keeps of an object the members that it names, each by the
# shape that it has there; a list keeps all items of a list, each by the one shape in it.
Shape = Any


def _members(names: str, **more: Shape) -> Dict[str, Shape]:
    """The shape that keeps the members of these names whole, and more members by their shapes."""
    return dict(dict.fromkeys(names.split(), True), **more)


_NAMED = _members("name namespace")
_OWNED = dict(_NAMED, ownerReferences=[_members("kind name controller")])
_POD = {"containers": [{"ports": [_members("name protocol containerPort")]}], "hostNetwork": True}
_TEMPLATED = {"template": {"metadata": _members("labels"), "spec": _POD}}
_REPLICATED = {"metadata": _OWNED, "spec": dict({"replicas": True}, **_TEMPLATED)}
_BACKEND = {"service": {"name": True, "port": _members("number name")}, "resource": True}
_ADMIN = {"metadata": _members("name"), "spec": True}

_SHAPES: Dict[Tuple[str, str], Dict[str, Shape]] = {
    ("v1", "Pod"): {
        "metadata": dict(_OWNED, labels=True),
        "spec": _POD,
        "status": _members("phase podIP", podIPs=[_members("ip")]),
    },
    ("v1", "Namespace"): {"metadata": _members("name labels")},
    ("apps/v1", "Deployment"): _REPLICATED,
    ("apps/v1", "ReplicaSet"): _REPLICATED,
    ("apps/v1", "StatefulSet"): _REPLICATED,
    ("apps/v1", "DaemonSet"): {"metadata": _OWNED, "spec": _TEMPLATED},
    ("v1", "ReplicationController"): _REPLICATED,
    ("batch/v1", "Job"): {"metadata": _OWNED, "spec": _TEMPLATED},
    ("batch/v1", "CronJob"): {"metadata": _OWNED, "spec": {"jobTemplate": {"spec": _TEMPLATED}}},
    ("v1", "Service"): {
        "metadata": _NAMED,
        "spec": _members("type clusterIP selector", ports=[_members("name protocol port targetPort")]),
    },
    ("networking.k8s.io/v1", "Ingress"): {
        "metadata": _NAMED,
        "spec": {"defaultBackend": _BACKEND, "rules": [{"http": {"paths": [{"backend": _BACKEND}]}}]},
    },
    ("networking.k8s.io/v1", "NetworkPolicy"): {"metadata": _NAMED, "spec": True},
    ("policy.networking.k8s.io/v1alpha1", "AdminNetworkPolicy"): _ADMIN,
    ("policy.networking.k8s.io/v1alpha1", "BaselineAdminNetworkPolicy"): _ADMIN,
}

_TYPE = _members("apiVersion kind")


def _kept(value: Any, shape: Shape) -> Any:
    if type(shape) is dict and type(value) is dict:
        return {name: part if inner is True else _kept(part, inner)
                for name, inner in shape.items() for part in (value.get(name, _kept),) if part is not _kept}
    if type(shape) is list and type(value) is list:
        return [_kept(item, shape[0]) for item in value]
    return value


def kept(item: Any) -> Any:
    """What is kept of an object, by its type."""
    if type(item) is not dict:
        return item
    version, kind = item.get("apiVersion"), item.get("kind")
    shape = _SHAPES.get((version, kind), {}) if isinstance(version, str) and isinstance(kind, str) else {}
    return _kept(item, dict(_TYPE, **shape))


class Spool:
    """Takes items one by one, and holds what is kept of them in a file, a line each."""

    def __init__(self, room: Room, name: str, rollouts: Rollouts, beside: Beside) -> None:
        self._path = room.path(name)
        self._rollouts = rollouts
        self._beside = beside
        self._file = room.create(name)
        self._leftovers: Dict[int, str] = {}  # where ReplicaSets of former rollouts stand
        self._count = 0

    def add(self, item: Any) -> None:
        """Takes the next item."""
        place = self._rollouts.see(item)
        self._beside.see(item)
        if place is not None:
            self._leftovers[self._count] = place
        self._file.write(jsontext.write(kept(item)) + b"\n")
        self._count += 1

    def close(self) -> None:
        """Ends the file. To be called before `lines`."""
        self._file.close()

    def lines(self) -> Iterator[bytes]:
        """What is kept of the items, without the former rollouts that nothing refers to; to be asked when all items
        were seen."""
        with open(self._path, "rb") as file:
            for number, line in enumerate(file):
                if self._is_kept(number):
                    yield line[:-1]

    def places(self) -> List[int]:
        """Where the items that are kept stood among all, from 0; to be asked when all items were seen."""
        return [number for number in range(self._count) if self._is_kept(number)]

    def _is_kept(self, number: int) -> bool:
        place = self._leftovers.get(number)
        return place is None or self._rollouts.is_needed(place)


def write_list(file: IO[bytes], lines: Iterable[bytes]) -> int:
    """Writes the items as one list; returns how many they are."""
    count = 0
    file.write(b'{"apiVersion":"v1","items":[')
    for line in lines:
        file.write(b"," + line if count else line)
        count += 1
    file.write(b'],"kind":"List"}\n')
    return count


def write_within_limits(file: IO[bytes], spools: List[Spool], room: Room, beside: Beside) -> None:
    """Writes the items of the spools as one list, thinned where np would refuse it for its size."""
    count = write_list(file, (line for spool in spools for line in spool.lines()))
    if count > MOST_ITEMS or file.tell() > MOST:
        from plugin import thinning
        thinning.thin(file, spools, room, beside)


def keep_of_text(text: IO[bytes], file: IO[bytes], room: Room, beside: Beside) -> None:
    """Writes to the file what is kept of a text: of a list that of its items, of anything else that of the one object
    that it is. Where np would refuse the text as no JSON all of it is written, and np says so."""
    try:
        _keep_of_text(text, file, room, beside)
    except jsontext.NotTaken:
        text.seek(0)
        file.seek(0)
        file.truncate()
        shutil.copyfileobj(text, file)


def _keep_of_text(text: IO[bytes], file: IO[bytes], room: Room, beside: Beside) -> None:
    whole: Dict[str, Any] = {}
    spool = Spool(room, "items", Rollouts(), beside)
    for name, value in jsontext.members(text):
        if name is None:
            spool.add(value)
        elif name == "":
            file.write(jsontext.write(value) + b"\n")
            return
        else:
            whole[name] = value
            if name == "items":
                spool = Spool(room, "items", Rollouts(), beside)  # of a member that stands twice the last counts
    spool.close()
    if (whole.get("apiVersion"), whole.get("kind")) != ("v1", "List"):
        text.seek(0)
        file.write(jsontext.write(kept(jsontext.read(text.read()))) + b"\n")
    elif isinstance(whole.get("items"), list):
        write_within_limits(file, [spool], room, beside)
    else:
        file.write(jsontext.write(_kept(whole, _members("apiVersion kind items"))) + b"\n")
