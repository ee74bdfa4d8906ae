"""What is read of any object of a list. An object may be anything that JSON has: what is not as the API says is np's
to refuse."""
from __future__ import annotations

from typing import Any, NamedTuple, Optional, Tuple

from plugin import kinds


class Place(NamedTuple):
    """Where an object stands. The version does not tell controllers apart, as for np."""

    kind: str
    namespace: str
    name: str


def member(value: Any, *names: str) -> Any:
    """The member of a member .. of the value, by their names; None where there is none."""
    for name in names:
        value = value.get(name) if isinstance(value, dict) else None
    return value


def type_of(item: Any) -> Optional[Tuple[str, str]]:
    """The version and the kind that the object names."""
    version, kind = member(item, "apiVersion"), member(item, "kind")
    return (version, kind) if isinstance(version, str) and isinstance(kind, str) else None


def namespace_of(item: Any, default: str = "default") -> str:
    """The namespace of the object, and the default one where it names none."""
    namespace = member(item, "metadata", "namespace")
    return namespace if isinstance(namespace, str) and namespace else default


def place_of(item: Any) -> Optional[Place]:
    """Where the object stands, if it has a kind and a name."""
    kind, name = member(item, "kind"), member(item, "metadata", "name")
    return Place(kind, namespace_of(item), name) if isinstance(kind, str) and isinstance(name, str) else None


def whole_number(value: Any, default: int) -> int:
    """The value where it is a whole number."""
    return value if type(value) is int else default


def is_namespaced(item: Any) -> bool:
    """Whether np reads the object, and it lies in a namespace."""
    return type_of(item) in kinds.NAMESPACED_TYPES


def is_foreign(item: Any) -> bool:
    """Whether the object is a policy of a kind that np does not read."""
    return str(member(item, "kind")).endswith("NetworkPolicy") and type_of(item) not in kinds.POLICY_TYPES


def whole_kind(item: Any) -> str:
    """The kind of an object with its group."""
    kind, group = str(member(item, "kind")), kinds.group_of(str(member(item, "apiVersion")))
    return "%s.%s" % (kind, group) if group else kind


def named(item: Any) -> str:
    """The object as a person names it: `NetworkPolicy shop/web`."""
    kind, name, namespace = member(item, "kind"), member(item, "metadata", "name"), namespace_of(item, "")
    if not isinstance(kind, str):
        return "an object without a kind"
    if not isinstance(name, str):
        return "a %s without a name" % kind
    return "%s %s%s" % (kind, namespace + "/" if namespace else "", name)
