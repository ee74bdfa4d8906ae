"""What np answers about the objects of a snapshot."""
from __future__ import annotations

import os
import subprocess
import sys
from typing import IO, Callable, List, cast

from plugin import children
from plugin.children import Ended
from plugin.page.explained import Explained
from plugin.page.reading import ListReader
from plugin.page.rows import Lines
from plugin.page.table import Table
from plugin.program import Program
from plugin.room import Room
from plugin.said import Stop, decoded, relay

# np reads 33,554,432 bytes at the most; one more is enough for it to refuse them.
_MOST_READ = 33_554_433
# np reads all objects for each answer of np explain. About ends between which nothing passes it is asked as long as it
# reads no more bytes for that, which takes two or three seconds.
_MOST_READ_AGAIN = 50_000_000


class Answers:
    """What np answers about the objects of lists, which are read once: np is asked about the same bytes each time.

    A list is the path of a file, or - for standard input. Where np gives no answer, what it says is repeated, and its
    status ends the script.
    """

    def __init__(self, program: Program, room: Room, lists: List[str], controller: str) -> None:
        self._program = program
        self._room = room
        self._controller = controller
        self._copies = [str(room.write("page.%d" % place, self._read(path))) for place, path in enumerate(lists)]
        self.notes = b""  # what np said of the list beside its rows
        self.refused = b""  # why it showed no exposure

    def table(self, only: str) -> Table:
        """The table of the snapshot, or of one of its namespaces."""
        table = Table(only, self._controller)
        self._read_exposure(table)
        ended = self._read_rows(lambda stream: ListReader(table, Lines(stream)).read())
        self.notes = ended.said
        relay(ended.said)
        if ended.status:
            raise Stop(ended.status)
        table.check_namespace()
        return table

    def ask(self, *words: str) -> bytes:
        """What np writes where it is asked with these words."""
        return _answered(self._program.run(self._words(*words))).out

    def explained(self, table: Table) -> bytes:
        """What np explain says of the ends that the table has it asked about. A workload of one pod is no two ends."""
        found = Explained(table.workloads.numbers)
        most = _MOST_READ_AGAIN // max(1, sum(os.path.getsize(copy) for copy in self._copies))
        for source, destination in table.asked.ends(table.workloads.texts, table.is_inside, most):
            ended = self._program.run(self._words("explain", "--from", decoded(source), "--to", decoded(destination)))
            if source != destination or b"error: SameEnd " not in ended.said:
                found.add(source, destination, _answered(ended).out)
        return found.json()

    def _read(self, path: str) -> bytes:
        stdin = sys.stdin.buffer if sys.stdin is not None else None
        try:
            if path == "-":
                return stdin.read(_MOST_READ) if stdin is not None else b""
            with open(path, "rb") as file:
                return file.read(_MOST_READ)
        except OSError:
            _answered(self._program.run(["list", "--", path], stdin=stdin))
            raise Stop(3) from None

    def _words(self, *words: str) -> List[str]:
        return [*words, "--", *self._copies]

    def _read_exposure(self, table: Table) -> None:
        """Reads the exposure. Where np refuses it for its size, the names of the workloads come from its list."""
        with self._room.create("exposure") as file:
            ended = self._program.run(self._words("exposure", "--format", "json"), stdout=file)
        if b"\nerror: TooManyPatterns " in b"\n" + ended.said:
            self.refused = ended.said
            _answered(self._read_rows(table.read_names))
        else:
            _answered(ended)
            with self._room.path("exposure").open("rb") as file:
                table.read_exposure(file)

    def _read_rows(self, read: Callable[[IO[bytes]], None]) -> Ended:
        """Has the rows of np list read while np prints them."""
        controller = ["--controller=" + self._controller] if self._controller else []
        with self._room.create("said") as said:
            child = children.start([*self._program.command, *self._words("list", "--format", "json", *controller)],
                                   stdout=subprocess.PIPE, stderr=said)
        try:
            with cast(IO[bytes], child.stdout) as stream:
                read(stream)
        finally:
            status = children.wait(child)
        return Ended(status, b"", self._room.path("said").read_bytes())


def _answered(ended: Ended) -> Ended:
    if ended.status:
        raise Stop(ended.status, said=ended.said)
    return ended
