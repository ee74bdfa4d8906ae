"""The nearest of the names that there are to one that was not found."""
from __future__ import annotations

import heapq
import re
from typing import Iterable, List, Tuple

# Of a long name only the first letters are compared.
_MOST_LETTERS = 200
_KIND = re.compile(r"\[[^\]]*\]$")
_NAMESPACE = re.compile(r"^[^/]*/")


def nearest(wanted: str, names: Iterable[str]) -> List[str]:
    """Up to three of the names, the nearest first: those that take the fewest letters to add, drop, change or swap
    with the next one.

    Where `wanted` has no kind in brackets, or no namespace, those of the names do not count. Of equally near names
    the earlier come first.
    """
    goal = _compared(wanted)
    found: List[Tuple[int, int, str]] = []
    for place, name in enumerate(names):
        most = found[-1][0] if len(found) == 3 else 1000
        changes = _distance(goal, _like(goal, _compared(name)), most)
        if changes < most:
            found = heapq.nsmallest(3, found + [(changes, place, name)])
    return [name for _, _, name in found]


def is_near(one: str, other: str) -> bool:
    """Whether the names are the same but for the case of letters, or for one letter."""
    return _distance(one.lower(), other.lower(), 2) < 2


def _compared(name: str) -> str:
    return name[:_MOST_LETTERS].lower()


def _like(goal: str, name: str) -> str:
    """The name without the parts that the goal does not have."""
    if "[" not in goal:
        name = _KIND.sub("", name)
    if "/" not in goal:
        name = _NAMESPACE.sub("", name)
    return name


def _distance(one: str, other: str, most: int) -> int:
    """How many changes lead from one to the other, or `most` where they are that many or more."""
    one, other = _without_common_ends(one, other)
    if abs(len(one) - len(other)) >= most:
        return most
    beyond: List[int] = []
    before = list(range(len(other) + 1))
    for i, letter in enumerate(one, 1):
        now = [i]
        for j, there in enumerate(other, 1):
            least = min(before[j - 1] + (letter != there), before[j] + 1, now[j - 1] + 1)
            if i > 1 and j > 1 and letter == other[j - 2] and one[i - 2] == there:
                least = min(least, beyond[j - 2] + 1)
            now.append(least)
        if min(now) >= most:
            return most
        beyond, before = before, now
    return min(before[-1], most)


def _without_common_ends(one: str, other: str) -> Tuple[str, str]:
    """The texts without what both begin or end with, which does not count."""
    while one and other and one[-1] == other[-1]:
        one, other = one[:-1], other[:-1]
    first = 0
    while first < min(len(one), len(other)) and one[first] == other[first]:
        first += 1
    return one[first:], other[first:]
