"""Which pods are alike: no command of np tells one from another, nor does a caveat or the gate, but by its name.

docs/use/MODEL.md ("Alike pods") says which pods are one workload for np. What is compared here is finer: what np reads of
a pod, but for its name, for labels that each pod of its owner has for itself and no selector names, and for the very
address. Of pods that are alike np needs the first and the second in their order.
"""
from __future__ import annotations

import hashlib
import json
import socket
from bisect import bisect_right
from typing import Any, Dict, Iterable, List, Optional, Tuple

from plugin import left_out
from plugin.caveats.beside import Beside
from plugin.caveats.owners import has_owner
from plugin.gate import blocks
from plugin.replicas import JOB_INDEX, POD_INDEX, POD_NAME
from plugin.rollouts import is_name, is_word

_OF_EACH_POD = (POD_NAME, POD_INDEX, JOB_INDEX)


class Different(ValueError):
    """The pod is like no other: it is a workload of its own, or np may refuse it."""


class Alike:
    """What tells pods of a list apart. `others` are the objects that are no pods, each as its JSON text."""

    def __init__(self, others: Iterable[bytes], beside: Beside) -> None:
        self._beside = beside
        asked = set(_OF_EACH_POD) if beside.left_out.is_index_asked else set()
        networks: "set[str]" = set()
        for text in others:
            asked.update(key for key in _OF_EACH_POD if key.encode("ascii") in text)
            if b'"networks"' in text:
                networks.update(blocks.of_networks(json.loads(text)))
        self._unasked = frozenset(_OF_EACH_POD) - asked
        self._bounds = _bounds(networks)

    def sort_of(self, pod: Dict[str, Any]) -> bytes:
        """What the pod has in common with those that are like it. Fails where it is like no other."""
        metadata, status = _object(pod.get("metadata")), _object(pod.get("status"))
        if not is_name(metadata.get("name")) or not (has_owner(pod) or left_out.note_of(pod)):
            raise Different
        compared = [metadata.get("namespace"), _owners(metadata), self._labels(metadata), pod.get("spec"), status.get("phase"),
                    self._addresses(status), sorted(self._beside.sidecars(pod))]
        return hashlib.blake2b(repr(compared).encode("utf-8"), digest_size=16).digest()

    def _labels(self, metadata: Dict[str, Any]) -> List[Tuple[str, Any]]:
        labels = _object(metadata.get("labels"))
        if not all(is_word(labels[key]) for key in self._unasked if key in labels):
            raise Different
        return sorted((key, value) for key, value in labels.items() if key not in self._unasked)

    def _addresses(self, status: Dict[str, Any]) -> List[Any]:
        """Between which bounds the addresses lie, of either family. Which peers of `networks` match a pod depends on that
        alone, and so do the families of the list."""
        texts = [status.get("podIP"), *(each.get("ip") for each in _objects(status.get("podIPs")))]
        if not all(text is None or isinstance(text, str) for text in texts):
            raise Different
        found = set(map(_number, filter(None, dict.fromkeys(texts))))
        if self._bounds is None:
            return sorted(found)
        return sorted({(version, bisect_right(self._bounds[version], number)) for version, number in found})


def _owners(metadata: Dict[str, Any]) -> List[Any]:
    """The owners of a pod. A node that runs a pod does not count as one."""
    return [dict(each, name="") if each.get("kind") == "Node" and is_name(each.get("name")) else each
            for each in _objects(metadata.get("ownerReferences"))]


def _bounds(networks: "set[str]") -> Optional[Dict[int, List[int]]]:
    """Where the blocks begin, and where what lies behind them does, as numbers of each family; None where one is no block,
    which np refuses."""
    found: Dict[int, "set[int]"] = {4: set(), 6: set()}
    try:
        for block in map(blocks.read, networks):
            found[block.version].update((int(block.network_address), int(block.broadcast_address) + 1))
    except ValueError:
        return None
    return {version: sorted(numbers) for version, numbers in found.items()}


def _number(text: str) -> Tuple[int, int]:
    """The family of an address and its number."""
    version, family = (6, socket.AF_INET6) if ":" in text else (4, socket.AF_INET)
    try:
        return version, int.from_bytes(socket.inet_pton(family, text), "big")
    except (OSError, ValueError):
        raise Different from None


def _object(value: Any) -> Dict[str, Any]:
    """The object, or an empty one where it is missing."""
    if value is None:
        return {}
    if not isinstance(value, dict):
        raise Different
    return value


def _objects(value: Any) -> List[Dict[str, Any]]:
    """The objects of a list, which may be missing."""
    found = [] if value is None else value
    if not isinstance(found, list) or not all(isinstance(each, dict) for each in found):
        raise Different
    return found
