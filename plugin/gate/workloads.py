"""Who is in the list: its workloads, by the names that np has for them, and the namespaces that have pods."""
from __future__ import annotations

import re
from functools import cached_property, lru_cache
from pathlib import Path
from typing import Dict, Iterable, List, NamedTuple, Optional

from plugin import children
from plugin.caveats.statements import owner_of
from plugin.gate.check import give_up
from plugin.gate.grammar import End, EndKind
from plugin.nearest import nearest
from plugin.program import Program
from plugin.said import decoded, stop

_KIND = re.compile(r"\[[^\]]*\]\Z")


# Of np's rows in the report of ranges: of each workload exactly one begins with the least range of addresses that may
# send to it. And the rows of Ingresses, each up to its end.
_ROWS = re.compile(rb"\n(?:0\.0\.0\.0(?:-[0-9.]+)? => (.*?) : |\{ingress-controller\} => ([^\n]*))")


class NoWorkload(Exception):
    """No workload has the name, or several owners may be meant. The text says which there are."""


class Listed(NamedTuple):
    """The names of the workloads of a list, the rows of Ingresses without their source, and np's notes."""

    names: List[str]
    rows: List[str]
    notes: bytes


def listed(program: Program, path: Path, words: List[str]) -> Listed:
    """What np lists of the list in the file; where it refuses that, the gate ends."""
    try:
        stream = children.Stream([*program.command, "list", "--report", "1", *words, path])
    except OSError as error:
        stop(3, "%s cannot be run: %s" % (program.name, error.strerror))
    found = [(decoded(name), decoded(row)) for name, row in stream.found(_ROWS)]
    ended = stream.end()
    if ended.status:
        give_up(program, ended.status, ended.said)
    return Listed([name for name, _ in found if name], [row for _, row in found if row], ended.said)


class Workloads:
    """The workloads of a list. np is asked for them once, when they are needed first; where it refuses the list the
    gate ends."""

    def __init__(self, program: Program, path: Path) -> None:
        self._program = program
        self._path = path

    @property
    def names(self) -> List[str]:
        """The names of all workloads, in np's order."""
        return self._listed.names

    def through_ingresses(self) -> Listed:
        """What np lists where no controller is named."""
        return self._listed

    @cached_property
    def _listed(self) -> Listed:
        return listed(self._program, self._path, [])

    @cached_property
    def places(self) -> Dict[str, int]:
        """Where each workload stands in np's order."""
        return {name: place for place, name in enumerate(self.names)}

    @cached_property
    def namespaces(self) -> Dict[str, List[str]]:
        """The namespaces that have pods, and the names of the workloads of each, in np's order."""
        members: Dict[str, List[str]] = {}
        for name in self.names:
            members.setdefault(name.partition("/")[0], []).append(name)
        return members

    @cached_property
    def owners(self) -> Dict[str, List[str]]:
        """The owners of the pods, and the workloads of each in the order of their numbers."""
        found: Dict[str, List[str]] = {}
        for name in self.names:
            found.setdefault(owner_of(name), []).append(name)
        return {owner: sorted(parts, key=lambda name: (len(name), name)) for owner, parts in found.items()}

    @cached_property
    def _owners_without_kind(self) -> Dict[str, List[str]]:
        found: Dict[str, List[str]] = {}
        for owner in self.owners:
            found.setdefault(_KIND.sub("", owner), []).append(owner)
        return found

    @lru_cache(maxsize=None)
    def named(self, name: str) -> List[str]:
        """The workloads that the name stands for, in np's order: the one that has it, or all of the owner that has
        it, with or without its kind."""
        if name in self.places:
            return [name]
        meant = [name] if name in self.owners else self._owners_without_kind.get(name, [])
        if not meant:
            raise NoWorkload("no workload is named %s%s" % (name, self._near(name)))
        if len(meant) > 1:
            raise NoWorkload("%s may be %s; write the kind" % (name, " or ".join("workload " + owner for owner in meant)))
        return sorted(self.owners[meant[0]], key=self.places.__getitem__)

    def of(self, end: End) -> Optional[List[str]]:
        """The workloads that an end names, or None where it names addresses. The ends are np's own."""
        if end.kind == EndKind.ANY_POD:
            return self.names
        if end.kind == EndKind.NAMESPACE:
            return self.namespaces.get(end.name, [])
        return [end.name] if end.kind == EndKind.WORKLOAD else None

    @lru_cache(maxsize=None)  # the same slip is often in many statements
    def _near(self, name: str) -> str:
        """The nearest names, in brackets: those of owners, unless one of several workloads is meant."""
        return _in_brackets(nearest(name, self.names if "#" in name else self.owners))

    @lru_cache(maxsize=None)
    def no_pod_in(self, namespace: str) -> str:
        """That no pod is in the namespace, and the nearest of those that have some."""
        return "no pod is in namespace %s%s" % (namespace, _in_brackets(nearest(namespace, self.namespaces)))


def _in_brackets(near: Iterable[str]) -> str:
    text = ", ".join(near)
    return " (nearest: %s)" % text if text else ""
