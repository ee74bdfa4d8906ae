"""ReplicaSets of former rollouts, which each rollout leaves behind.

A ReplicaSet of no replicas to which no item refers as an owner stands for no pod, and no chain of owners leads
through it: it may go. One that np would refuse stays, and so does one that stands twice.
"""
from __future__ import annotations

import re
from typing import Any, Iterator, List, Optional, Set

from plugin import jsontext

_NAME = re.compile(r"[A-Za-z0-9_.:-]+")
_WORD = re.compile(r"[A-Za-z0-9_.:/-]*")


class Rollouts:
    """What is known of the ReplicaSets, and of who refers to them, once all items were seen."""

    def __init__(self) -> None:
        self._owners: Set[str] = set()
        self._seen: Set[str] = set()
        self._repeated: Set[str] = set()

    def see(self, item: Any) -> Optional[str]:
        """Takes the next item. Returns its place where it is a ReplicaSet that may go."""
        if type(item) is not dict or type(item.get("metadata")) is not dict:
            return None
        self._owners.update(_places_of_owners(item["metadata"]))
        if (item.get("apiVersion"), item.get("kind")) != ("apps/v1", "ReplicaSet"):
            return None
        place = _place(item["metadata"], item["metadata"].get("name"))
        (self._repeated if place in self._seen else self._seen).add(place)
        return place if _is_shut_down(item) else None

    def is_needed(self, place: str) -> bool:
        """Whether an item refers to the ReplicaSet at the place, or it stands twice."""
        return place in self._owners or place in self._repeated


def _place(metadata: Any, name: Any) -> str:
    """What an object of this name, in the namespace of the metadata, is known by. A missing namespace and an empty
    one are `default`."""
    namespace = metadata.get("namespace")
    home = "default" if namespace in (None, "") else namespace
    if isinstance(name, str) and isinstance(home, str):
        return "%s/%s" % (home, name)
    return jsontext.write([home, name]).decode("utf-8")


def _places_of_owners(metadata: Any) -> Iterator[str]:
    references = metadata.get("ownerReferences")
    for reference in references if type(references) is list else []:
        if type(reference) is dict and reference.get("kind") == "ReplicaSet":
            yield _place(metadata, reference.get("name"))


def _is_shut_down(item: Any) -> bool:
    """Whether the ReplicaSet has no replicas, and nothing in it that np would refuse."""
    spec = item.get("spec")
    return (type(spec) is dict and type(spec.get("replicas")) is int and spec["replicas"] == 0
            and _is_metadata(item["metadata"]) and _is_missing_or(_is_template, spec.get("template")))


def _is_missing_or(is_right: Any, value: Any) -> bool:
    return value is None or bool(is_right(value))


def _is_list_of(is_right: Any, value: Any) -> bool:
    return type(value) is list and all(map(is_right, value))


def _is_metadata(metadata: Any) -> bool:
    namespace = metadata.get("namespace")
    return (is_name(metadata.get("name")) and (namespace in (None, "") or is_name(namespace))
            and _is_missing_or(lambda owners: _is_list_of(_is_owner, owners), metadata.get("ownerReferences")))


def _is_owner(owner: Any) -> bool:
    return (type(owner) is dict and is_name(owner.get("kind")) and is_name(owner.get("name"))
            and _is_missing_or(_is_truth, owner.get("controller")))


def _is_template(template: Any) -> bool:
    return (type(template) is dict and _is_pod_spec(template.get("spec"))
            and _is_missing_or(_is_template_metadata, template.get("metadata")))


def _is_template_metadata(metadata: Any) -> bool:
    return type(metadata) is dict and _is_missing_or(_is_labels, metadata.get("labels"))


def _is_labels(labels: Any) -> bool:
    return type(labels) is dict and "" not in labels and all(map(is_word, _keys_and_values(labels)))


def _keys_and_values(labels: Any) -> List[Any]:
    return [*labels, *labels.values()]


def _is_pod_spec(spec: Any) -> bool:
    return (type(spec) is dict and _is_missing_or(_is_truth, spec.get("hostNetwork"))
            and _is_missing_or(lambda containers: _is_list_of(_is_container, containers), spec.get("containers")))


def _is_container(container: Any) -> bool:
    return type(container) is dict and _is_missing_or(lambda ports: _is_list_of(_is_port, ports), container.get("ports"))


def _is_port(port: Any) -> bool:
    if type(port) is not dict or type(port.get("containerPort")) is not int:
        return False
    return (1 <= port["containerPort"] <= 65535 and port.get("protocol") in (None, "TCP", "UDP", "SCTP")
            and _is_missing_or(is_word, port.get("name")))


def _is_truth(value: Any) -> bool:
    return type(value) is bool


def is_name(value: Any) -> bool:
    """Whether np takes the value as a name."""
    return isinstance(value, str) and bool(_NAME.fullmatch(value))


def is_word(value: Any) -> bool:
    """Whether np takes the value as that of a label."""
    return isinstance(value, str) and bool(_WORD.fullmatch(value))
