"""The workloads that are in focus, by np's names for them."""
from __future__ import annotations

from pathlib import Path
from typing import FrozenSet, List, NoReturn

from plugin import names, nearest
from plugin.program import Program
from plugin.rowfilter.words import Filters
from plugin.said import stop


class Unknown(Exception):
    """There is no workload of this name."""

    def __init__(self, name: str) -> None:
        super().__init__(name)
        self.name = name


def workloads(filters: Filters, program: Program, path: Path) -> FrozenSet[str]:
    """The names of the workloads in focus; ends with status 1 where a namespace has none."""
    known = names.workloads(program, path)
    for name in filters.focus:
        if name not in known:
            raise Unknown(name)
    found = set(filters.focus)
    for namespace in filters.namespaces:
        within = [name for name in known if namespace_of(name) == namespace]
        if not within:
            _refuse(namespace, known)
        found.update(within)
    return frozenset(found)


def namespace_of(workload: str) -> str:
    """The namespace of a workload, by its name."""
    return workload.partition("/")[0]


def _refuse(namespace: str, known: List[str]) -> NoReturn:
    near = nearest.nearest(namespace, dict.fromkeys(map(namespace_of, known)))
    stop(1, "no workload is in the namespace '%s'%s" % (
        namespace, "; the nearest names: " + ", ".join(near) if near else ", and there is none in the list"))
