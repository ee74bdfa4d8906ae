"""Runs of `np check`, which judges statements and names the first that it finds something about."""
from __future__ import annotations

import re
import time
from enum import Enum
from pathlib import Path
from typing import List, NamedTuple, NoReturn

from plugin.gate.grammar import Parts
from plugin.gate.statements import Statement
from plugin.program import Program
from plugin.room import Room
from plugin.said import Stop, decoded, encoded, relay, stop

_VIOLATED = re.compile(rb"line ([1-9][0-9]{0,8}): (.*)", re.DOTALL)
_BAD_STATEMENT = re.compile(rb"error: BadStatement line ([1-9][0-9]{0,8})")


class Question(NamedTuple):
    """What np is asked, in np's own grammar, for a statement of the file. The questions of a statement that have one
    sender are a group, and the groups are in np's order of the senders."""

    statement: Statement
    parts: Parts
    group: int = 0


class Finding(Enum):
    """What np found about the questions."""

    HOLDS = "all hold"
    VIOLATED = "one does not hold, and those before it do"
    BAD_STATEMENT = "one is no statement, and those before it are"
    UNKNOWN_END = "one names a workload that is not there"


class Answer(NamedTuple):
    """An answer of np: what it found, at which of the questions (from 0), the packet that breaks that one, and what
    it said."""

    finding: Finding
    place: int
    packet: str
    said: bytes


def give_up(program: Program, status: int, said: bytes) -> NoReturn:
    """Ends with what np said and its status, since without it there is no answer."""
    relay(said)
    if status in (1, 3, 4):
        raise Stop(status)
    stop(3, "%s does not answer as np does (status %d)" % (program.name, status))


def _share(seconds: float, questions: List[Question]) -> None:
    """Notes the time of a run at the statements that were asked about in it, the same for each."""
    statements = {question.statement for question in questions}
    for statement in statements:
        statement.seconds += seconds / len(statements)


class Check:
    """np check, with a place for the statements that it is asked."""

    def __init__(self, program: Program, room: Room) -> None:
        self.program = program
        self._room = room

    def ask(self, questions: List[Question], path: Path, name: str = "asked") -> Answer:
        """Has np judge the questions on the objects in the file. Where they hold it has to say so of as many as there
        are. The file of questions has that name; those that are asked at one time have different ones."""
        lines = "".join(question.parts.line() + "\n" for question in questions)
        asked = self._room.write(name, encoded(lines))
        begun = time.monotonic()
        ended = self.program.run(["check", "--statement", str(asked), str(path)])
        _share(time.monotonic() - begun, questions)
        out = ended.out.rstrip(b"\n")
        if ended.status == 0 and out == b"holds: %d" % len(questions):
            return Answer(Finding.HOLDS, 0, "", ended.said)
        violated = _VIOLATED.fullmatch(out)
        if ended.status == 5 and violated and int(violated.group(1)) <= len(questions):
            return Answer(Finding.VIOLATED, int(violated.group(1)) - 1, decoded(violated.group(2)), ended.said)
        if ended.status == 1 and not out:
            return self._fault(questions, ended.said)
        give_up(self.program, ended.status, ended.said)

    def ask_nothing_of(self, questions: List[Question]) -> Answer:
        """Has np look at the questions without objects."""
        path = self._room.write("none", b'{"apiVersion":"v1","kind":"List"}\n')
        return self.ask(questions, path)

    def give_up(self, answer: Answer) -> NoReturn:
        """Ends because np answered what it does not answer to such questions."""
        give_up(self.program, 5 if answer.finding == Finding.VIOLATED else 1, answer.said)

    def _fault(self, questions: List[Question], said: bytes) -> Answer:
        fault = said.rstrip(b"\n").split(b"\n")[-1]
        bad = _BAD_STATEMENT.fullmatch(fault)
        if bad and int(bad.group(1)) <= len(questions):
            return Answer(Finding.BAD_STATEMENT, int(bad.group(1)) - 1, "", said)
        if fault.startswith(b"error: UnknownEnd "):
            return Answer(Finding.UNKNOWN_END, 0, "", said)
        give_up(self.program, 1, said)
