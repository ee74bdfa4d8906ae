"""Makes a list that np would refuse for its size smaller: of pods that are alike (`alike`) the first two stay. np says of
what is left what it would say of the whole list, but for the numbers of objects that stand behind a pod that goes.

There may be very many objects, so they are read from the files of spools, one at a time.
"""
from __future__ import annotations

import json
from array import array
from typing import IO, Any, Dict, FrozenSet, Iterator, List, Optional

from plugin import left_out, members
from plugin.alike import Alike, Different
from plugin.caveats.beside import Beside
from plugin.left_out import LeftOut, LeftOutPod
from plugin.members import Spool
from plugin.room import Room
from plugin.said import note
from plugin.snapshot import MOST, MOST_ITEMS

# How many pods stay of those that are alike: a workload has rows with itself where it has two.
_EACH = 2

_POD = b'{"apiVersion":"v1","kind":"Pod"'  # so an object begins of which what np reads is kept


def thin(file: IO[bytes], spools: List[Spool], room: Room, beside: Beside) -> None:
    """Writes the items of the spools as one list, in the place of what is in the file, and says how many pods were left out.
    np refuses a name that stands twice, so pods that have one stay: the list is written once more then."""
    alike = Alike((line for line in _lines(spools) if not line.startswith(_POD)), beside)
    twice: FrozenSet[int] = frozenset()
    for _ in range(2):
        file.seek(0)
        file.truncate()
        with room.create("left-out") as others:
            beside.left_out.begin(room.path("left-out"))
            thinner = _Thinner(alike, beside.left_out, others, twice)
            members.write_list(file, (line for line in _lines(spools) if not line.startswith(_POD) or thinner.keeps(line)))
        twice = thinner.named_twice()
        if not twice:
            break
    count = beside.left_out.count
    if count:
        note("%d pods are left out, since np takes at most %d objects and %d bytes; each is like two that stay, so no row changes" % (
            count, MOST_ITEMS, MOST))


def _lines(spools: List[Spool]) -> Iterator[bytes]:
    for spool in spools:
        yield from spool.lines()


class _Sort:
    """Pods that are alike: the first of them, and how many stay."""

    def __init__(self, first: str) -> None:
        self.first = first
        self.count = 0


class _Thinner:
    """Says of each pod, in their order, whether it stays, and writes those that do not to a file. `twice` are names that stand
    twice, as numbers."""

    def __init__(self, alike: Alike, left: LeftOut, others: IO[bytes], twice: FrozenSet[int]) -> None:
        self._alike = alike
        self._left = left
        self._others = others
        self._twice = twice
        self._names = array("q")  # a number for each, since there are very many
        self._sorts: Dict[bytes, _Sort] = {}
        self._kept = 0

    def keeps(self, line: bytes) -> bool:
        """Whether the pod stays."""
        pod = json.loads(line)
        name = left_out.name_of(pod)
        self._names.append(hash(name))
        sort = self._sort_of(pod, name)
        if sort is not None and sort.count == _EACH:
            addresses = left_out.addresses_of(pod)
            counted = left_out.note_of(pod) or ("" if addresses else left_out.WITHOUT_ADDRESS)
            self._left.add(self._others, LeftOutPod(self._kept, sort.first, name, addresses), counted)
            return False
        if sort is not None:
            sort.count += 1
        self._kept += 1
        return True

    def _sort_of(self, pod: Dict[str, Any], name: str) -> Optional[_Sort]:
        """Those that the pod is like; none where it has to stay."""
        if name in self._left.stays or hash(name) in self._twice:
            return None
        try:
            return self._sorts.setdefault(self._alike.sort_of(pod), _Sort(name))
        except Different:
            return None

    def named_twice(self) -> FrozenSet[int]:
        """The names that stand twice and were not known to, as numbers."""
        names = sorted(self._names)
        return frozenset(one for one, other in zip(names, names[1:]) if one == other) - self._twice
