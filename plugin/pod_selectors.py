"""The selectors of pods in policies and Services: what they ask of labels, and of the pods of which namespace."""
from __future__ import annotations

from typing import Any, Iterable, Iterator, NamedTuple, Optional, Tuple

from plugin import kinds
from plugin.objects import member, namespace_of, type_of
from plugin.selectors import Selector, selector, selector_of_labels


class PodSelector(NamedTuple):
    """A selector of pods: the policy or Service that has it, the namespace of the pods (None where it may be any), and what is
    asked of them."""

    item: Any
    namespace: Optional[str]
    asks: Selector


def selectors_of(items: Iterable[Any]) -> Iterator[PodSelector]:
    """The selectors of pods in the Services and in the policies that np reads, in the order of the objects."""
    for item in items:
        if type_of(item) == ("v1", "Service"):
            yield PodSelector(item, namespace_of(item), selector_of_labels(member(item, "spec", "selector")))
        elif type_of(item) in kinds.POLICY_TYPES:
            for value, is_at_home in _values(member(item, "spec")):
                yield PodSelector(item, namespace_of(item) if is_at_home else None, selector(value))


def _values(value: Any) -> Iterator[Tuple[Any, bool]]:
    """The selectors of pods within the value, and whether each is about the namespace of its policy alone."""
    if isinstance(value, dict) and "podSelector" in value:
        yield value["podSelector"], value.get("namespaceSelector") is None
    if isinstance(value, (dict, list)):
        for inner in value.values() if isinstance(value, dict) else value:
            yield from _values(inner)
