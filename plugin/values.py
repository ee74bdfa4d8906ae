"""Parts of JSON values. np refuses a list in which they are not what they should be; here they count as missing
then."""
from __future__ import annotations

from typing import Any, Dict, List


def members(value: Any) -> Dict[str, Any]:
    """The object, or one without members."""
    return value if isinstance(value, dict) else {}


def objects(value: Any) -> List[Dict[str, Any]]:
    """The objects of the list."""
    return [item for item in value if isinstance(item, dict)] if isinstance(value, list) else []


def text(value: Any) -> str:
    """The text, or an empty one."""
    return value if isinstance(value, str) else ""


def texts(value: Any) -> List[str]:
    """The texts of the list."""
    return [item for item in value if isinstance(item, str)] if isinstance(value, list) else []


def number(value: Any) -> int:
    """The whole number, or 0."""
    return value if type(value) is int else 0


def labels(value: Any) -> Dict[str, str]:
    """The map of labels."""
    return {key: part for key, part in members(value).items() if isinstance(part, str)}


def name_of(item: Dict[str, Any]) -> str:
    """The name of an object."""
    return text(members(item.get("metadata")).get("name"))


def namespace_of(item: Dict[str, Any]) -> str:
    """The namespace of an object that has one."""
    return text(members(item.get("metadata")).get("namespace")) or "default"
