"""The names that options take: those of workloads and of pods."""
from __future__ import annotations

import os
import re
from pathlib import Path
from typing import Any, Iterator, List

from plugin import children, left_out
from plugin.left_out import LeftOut
from plugin.objects import type_of
from plugin.program import Program
from plugin.said import Stop, decoded, encoded, stop


# The rows whose source is the least range of addresses, and the name of the workload in each.
_FIRST_ROWS = re.compile(rb"\n0\.0\.0\.0(?:-[0-9.]+)? => (.*?) : ")


class NoNames(Stop):
    """np refuses the list. `said` is what it said."""

    def __init__(self, status: int, said: bytes) -> None:
        super().__init__(status, None, said)


def workloads(program: Program, path: Path) -> List[str]:
    """The names of the workloads of the list in the file, in np's order.

    In the report of ranges exactly one row of each workload begins with the first range of addresses that may send to
    it.
    """
    with path.open("rb") as file:
        try:
            rows = children.Stream([*program.command, "list", "--report", "1"], stdin=file)
        except OSError as error:
            stop(3, "%s cannot be run: %s" % (program.name, error.strerror))
        names = rows.found(_FIRST_ROWS)
    ended = rows.end()
    if ended.status:
        raise NoNames(ended.status, ended.said)
    return [decoded(name) for name in names]


def pods(path: Path, left: LeftOut) -> List[str]:
    """The pods of the list in the file, and of those that were left out of it, that `evaluate` takes: those with a network of
    their own that are not finished."""
    ends = {left_out.name_of(item): left_out.is_end(item) for item in _objects(path) if type_of(item) == ("v1", "Pod")}
    found = left.merged(list(ends.items()), lambda pod: (pod.name, ends[pod.like]))
    return [name for name, is_end in found if is_end]


def _objects(path: Path) -> Iterator[Any]:
    from plugin import jsontext
    try:
        return iter(jsontext.objects(path.read_bytes()))
    except jsontext.NotTaken:
        return iter([])


def keep(kind: str, names: bytes) -> None:
    """Keeps the names of a cluster for the completion of shells, which asks no cluster. Nobody else may read them.
    Where they cannot be kept nothing is said: it is no part of the answer."""
    home = os.environ.get("XDG_CACHE_HOME") or os.path.join(os.environ.get("HOME", ""), ".cache")
    folder = Path(home) / "kubectl-np"
    new = folder / (".%s.%d" % (kind, os.getpid()))
    try:
        folder.mkdir(mode=0o700, parents=True, exist_ok=True)
        with open(new, "wb", opener=lambda path, flags: os.open(path, flags, 0o600)) as file:
            file.write(names)
        new.replace(folder / kind)
    except OSError:
        if new.exists():
            new.unlink()


def text(names: List[str]) -> bytes:
    """The names, one a line."""
    return encoded("".join(name + "\n" for name in names))
