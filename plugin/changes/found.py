"""What opened and what closed, kept in files, since it may be as long as the tables are."""
from __future__ import annotations

from functools import lru_cache
from typing import IO, Dict, Iterator, List, NamedTuple, Set

from plugin import ports
from plugin.room import Room
from plugin.said import decoded, encoded

OPENED, CLOSED = "opened", "closed"
DIRECTIONS = (OPENED, CLOSED)


class Change(NamedTuple):
    """What passes now and did not, or did and does not any more. The family is as np marks it, ` (IPv4)`, and empty
    where it is that of the addresses or where both changed alike."""

    source: bytes
    destination: bytes
    family: bytes
    connections: bytes


@lru_cache(maxsize=1 << 16)  # a table of a million rows has few texts of connections
def more(new: bytes, old: bytes) -> bytes:
    """What the connections `new` have and `old` have not, both as np prints them; empty where there is nothing."""
    return b"" if new == old else encoded(ports.more(decoded(new), decoded(old)))


class Found:
    """The changes in the order of np's rows, and the names of the workloads that each table has, in order."""

    def __init__(self, room: Room) -> None:
        self.count = dict.fromkeys(DIRECTIONS, 0)
        self.before: List[bytes] = []
        self.after: List[bytes] = []
        self._room = room
        self._files: Dict[str, IO[bytes]] = {direction: room.create(direction) for direction in DIRECTIONS}

    def total(self) -> int:
        """How many changes there are."""
        return self.count[OPENED] + self.count[CLOSED]

    def add(self, direction: str, source: bytes, destination: bytes, family: bytes, connections: bytes) -> None:
        """Keeps a change, as np would print its row. The family is empty, or as np marks it."""
        self.count[direction] += 1
        self._files[direction].write(b"%s => %s%s : %s\n" % (source, destination, family, connections))

    def close(self) -> None:
        """Ends the files: nothing is added any more."""
        for file in self._files.values():
            file.close()

    def rows(self, direction: str) -> IO[bytes]:
        """What opened, or what closed: the rows, a line each."""
        return self._room.path(direction).open("rb")

    def changes(self, direction: str) -> Iterator[Change]:
        """What opened, or what closed. No name has a blank in it."""
        with self.rows(direction) as file:
            for line in file:
                ends, _, connections = line[:-1].partition(b" : ")
                source, _, marked = ends.partition(b" => ")
                destination, blank, family = marked.partition(b" ")
                yield Change(source, destination, blank + family, connections)

    def new(self) -> List[bytes]:
        """The workloads that the table before does not have."""
        known: Set[bytes] = set(self.before)
        return [name for name in self.after if name not in known]

    def gone(self) -> List[bytes]:
        """The workloads that the table behind does not have."""
        known: Set[bytes] = set(self.after)
        return [name for name in self.before if name not in known]

    def parted(self) -> List[bytes]:
        """The owners whose pods are told apart otherwise in the one table than in the other, so that their workloads have other
        names: some are gone, and others are new."""
        owners = {_owner(name) for name in self.new()}
        return list(dict.fromkeys(owner for owner in map(_owner, self.gone()) if owner in owners))


def _owner(workload: bytes) -> bytes:
    return workload.partition(b"#")[0]
