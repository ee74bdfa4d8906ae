"""`changes` from its words to its status."""
from __future__ import annotations

import subprocess
from typing import IO, List, Optional, Sequence, cast

from plugin import children, kubectl
from plugin.changes import jsonrows, markdown, text
from plugin.changes.compare import compare
from plugin.changes.found import CLOSED, DIRECTIONS, OPENED, Found
from plugin.changes.rows import Rows
from plugin.changes.sides import Objects
from plugin.changes.words import ChangesWords
from plugin.program import Program
from plugin.room import Room
from plugin.said import Stop, decoded, say, step, stop

_MOST_NAMED = 3
_AT_ONCE = 1 << 20


def run(words: ChangesWords, program: Program) -> int:
    """Compares the two states, prints what opens and what closes, and returns the status: 5 where there is a change that --fail-on
    names. Where np refuses the objects of a state, its status ends it."""
    if not all(side.words.list_file for side in words.sides):
        kubectl.find()
    with Room() as room, Room() as of_a, Room() as of_b:
        states = [Objects(side, place) for side, place in zip(words.sides, (of_a, of_b))]
        step("asking np")
        found = Found(room)
        _compare(states, program, words.controller, found, room)
        _tell_parted(found)
        if words.form == "markdown":
            markdown.write(found, words.sides)
        elif words.form == "json":
            jsonrows.write(found)
        else:
            text.write(found)
        faults = {OPENED: [OPENED], CLOSED: [CLOSED], "any": DIRECTIONS}.get(words.fail_on, [])
        return 5 if any(found.count[direction] for direction in faults) else 0


class Table:
    """The table that np prints of a state, while it prints it."""

    def __init__(self, objects: Objects, program: Program, words: List[str], room: Room) -> None:
        self._objects = objects
        self._program = program
        self._said = room.path("said.%s" % objects.side.label)
        with objects.path.open("rb") as file, room.create(self._said.name) as said:
            try:
                self._child = children.start([*program.command, "list", "--report", "1", "--format", "json", *words],
                                             stdin=file, stdout=subprocess.PIPE, stderr=said)
            except OSError as error:
                stop(3, "%s cannot be run: %s" % (program.name, error.strerror))
        self.output = cast(IO[bytes], self._child.stdout)

    def end(self) -> int:
        """Repeats what np said when it had ended, and returns its status. What is left of the table is read before, so that np
        does not say that it could not write it."""
        while self.output.read(_AT_ONCE):
            pass
        self.output.close()
        status = children.wait(self._child)
        self._objects.relay(self._said.read_bytes())
        if status not in (0, 1, 3, 4):
            stop(3, "%s does not answer as np does (status %d)" % (self._program.name, status))
        return status


def _compare(states: Sequence[Objects], program: Program, controller: str, found: Found, room: Room) -> None:
    """Has np print both tables, and finds their differences; ends with the status of np where it refuses one."""
    words = ["--controller=" + controller] if controller else []
    tables = [Table(objects, program, words, room) for objects in states]
    fault: Optional[Stop] = None
    try:
        with room.writing():
            before, after = (Rows(table.output) for table in tables)
            compare(before, after, found)
            found.close()
    except Stop as stopped:
        fault = stopped
    statuses = [table.end() for table in tables]
    for status in statuses:
        if status:
            raise Stop(status)
    if fault is not None:
        raise fault


def _tell_parted(found: Found) -> None:
    """Says of which owners the workloads have other names, since their rows then count as closed and opened."""
    names = [decoded(name) for name in found.parted()]
    if names:
        more = " and %d more" % (len(names) - _MOST_NAMED) if len(names) > _MOST_NAMED else ""
        say("policies tell the pods of these apart otherwise in A than in B, so that their parts count as gone and as new: %s%s" % (
            ", ".join(names[:_MOST_NAMED]), more))
