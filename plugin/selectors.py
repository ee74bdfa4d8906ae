"""Selectors of labels, as the API has them: `matchLabels`, and `matchExpressions` with In, NotIn, Exists and
DoesNotExist."""
from __future__ import annotations

from typing import Any, FrozenSet, Iterator, Mapping, NamedTuple, Tuple

from plugin import values


class Requirement(NamedTuple):
    """What a selector asks of one key. Exists and DoesNotExist have no values."""

    key: str
    operator: str
    values: FrozenSet[str] = frozenset()

    def is_met(self, labels: Mapping[str, str]) -> bool:
        """Whether the labels meet it. A key that is missing meets NotIn, as the API says."""
        value = labels.get(self.key)
        if self.operator == "In":
            return value in self.values
        if self.operator == "NotIn":
            return value not in self.values
        if self.operator in ("Exists", "DoesNotExist"):
            return (value is not None) == (self.operator == "Exists")
        return False  # the API has no other operator

    def __str__(self) -> str:
        listed = ",".join(sorted(self.values))
        if self.operator in ("In", "NotIn"):
            is_one = self.operator == "In" and len(self.values) == 1
            return "%s=%s" % (self.key, listed) if is_one else "%s %s (%s)" % (self.key, self.operator.lower(), listed)
        return self.key if self.operator == "Exists" else "!" + self.key


class Selector(NamedTuple):
    """What labels have to meet: all requirements. Without any, all labels do."""

    requirements: Tuple[Requirement, ...] = ()

    def is_met(self, labels: Mapping[str, str]) -> bool:
        """Whether the labels meet the selector."""
        for requirement in self.requirements:
            if not requirement.is_met(labels):
                return False
        return True

    def one_value(self) -> "Tuple[str, str] | None":
        """A label that all labels which meet the selector have, where it asks for one."""
        for key, operator, allowed in self.requirements:
            if operator == "In" and len(allowed) == 1:
                return key, next(iter(allowed))
        return None

    def __str__(self) -> str:
        """The selector as kubectl writes it."""
        return ",".join(map(str, self.requirements)) or "everything"


EVERYTHING = Selector()


def selector(value: Any) -> Selector:
    """The selector that the JSON value is."""
    return Selector(tuple(_requirements(values.members(value))))


def selector_of_labels(value: Any) -> Selector:
    """The selector of a Service, which is a map of labels."""
    return Selector(tuple(Requirement(key, "In", frozenset((part,))) for key, part in values.labels(value).items()))


def _requirements(value: Mapping[str, Any]) -> Iterator[Requirement]:
    yield from selector_of_labels(value.get("matchLabels")).requirements
    for expression in values.objects(value.get("matchExpressions")):
        yield Requirement(values.text(expression.get("key")), values.text(expression.get("operator")),
                          frozenset(values.texts(expression.get("values"))))
