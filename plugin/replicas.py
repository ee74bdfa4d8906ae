"""How many pods a controller has, as far as it matters to np: two stand for any greater number, but where selectors
tell pods apart by their index, each index for which they ask stands for itself."""
from __future__ import annotations

import re
from itertools import islice
from typing import Any, Dict, Iterator, List, NamedTuple, Optional, Set, Tuple

from plugin.objects import Place, member, namespace_of, type_of, whole_number
from plugin.pod_selectors import selectors_of

POD_NAME, POD_INDEX = "statefulset.kubernetes.io/pod-name", "apps.kubernetes.io/pod-index"
JOB_INDEX = "batch.kubernetes.io/job-completion-index"
JOBS = ("Job", "CronJob")

_SCALERS = (("autoscaling/v1", "HorizontalPodAutoscaler"), ("autoscaling/v2", "HorizontalPodAutoscaler"))
_INDEX = re.compile(r"0|[1-9][0-9]{0,9}")


class _Scaler(NamedTuple):
    """The bounds of an autoscaler."""

    least: int
    most: int


class Replicas:
    """What the objects say of how many pods there are. `namespace` is that of autoscalers that name none."""

    def __init__(self, items: List[Any], namespace: str) -> None:
        self._scalers = dict(_scalers(items, namespace))
        self._asked = _indexes_asked(items)

    def are_none(self, place: Place, spec: Any) -> bool:
        """Whether the controller is scaled to 0. An autoscaler leaves it so, unless it may go down to 0 itself."""
        if place.kind in JOBS or place.kind == "DaemonSet" or whole_number(member(spec, "replicas"), 1) != 0:
            return False
        return place not in self._scalers or self._scalers[place].least > 0

    def number(self, place: Place, spec: Any) -> int:
        """How many pods that are alike stand for those that there are at one time: 1 or 2."""
        return min(2, self._most(place, spec))

    def indexes(self, place: Place, spec: Any) -> Optional[List[int]]:
        """The indexes of the pods that stand for those of the controller, if its pods have an index."""
        if place.kind == "StatefulSet":
            first = whole_number(member(spec, "ordinals", "start"), 0)
            there = range(first, first + self._most(place, spec))
            asked = self._asked.get((POD_INDEX, ""), set()) | self._asked.get((POD_NAME, place.name), set())
        elif member(spec, "completionMode") == "Indexed":
            there = range(max(1, whole_number(member(spec, "completions"), 1)))
            asked = self._asked.get((JOB_INDEX, ""), set())
        else:
            return None
        others = islice((index for index in there if index not in asked), self.number(place, spec))
        return sorted({index for index in asked if index in there}.union(others))

    def _most(self, place: Place, spec: Any) -> int:
        """The most pods that there are at one time, at least 1."""
        if place.kind == "DaemonSet":
            return 2
        if place.kind in JOBS:
            parallelism = whole_number(member(spec, "parallelism"), 1)
            return max(1, min(parallelism, whole_number(member(spec, "completions"), parallelism)))
        scaler = self._scalers.get(place)
        return max(1, whole_number(member(spec, "replicas"), 1), scaler.most if scaler else 1)


def _scalers(items: List[Any], namespace: str) -> Iterator[Tuple[Place, _Scaler]]:
    """The controllers whose number is left to an autoscaler."""
    for item in items:
        target = member(item, "spec", "scaleTargetRef")
        kind, name = member(target, "kind"), member(target, "name")
        if type_of(item) in _SCALERS and isinstance(kind, str) and isinstance(name, str):
            least, most = member(item, "spec", "minReplicas"), member(item, "spec", "maxReplicas")
            yield Place(kind, namespace_of(item, namespace), name), _Scaler(whole_number(least, 1), whole_number(most, 2))


def _indexes_asked(items: List[Any]) -> Dict[Tuple[str, str], Set[int]]:
    """The indexes that selectors name, by the key of the label, and for names of pods by that of the controller."""
    found: Dict[Tuple[str, str], Set[int]] = {}
    for selector in selectors_of(items):
        for key, _, values in selector.asks.requirements:
            for value in values if key in (POD_NAME, POD_INDEX, JOB_INDEX) else ():
                name, _, index = value.rpartition("-") if key == POD_NAME else ("", "", value)
                if _INDEX.fullmatch(index):
                    found.setdefault((key, name), set()).add(int(index))
    return found
