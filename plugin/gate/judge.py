"""Has np judge all statements: whether they are in its grammar, and whether they hold.

np check says of one run either that all questions hold or which is the first that does not. So the runs are counted by
what is violated. Where that is more than a few, rows of np list say what is violated (`rows`), and np check whether
the others hold; and where the rows do not say it, runs stand side by side.
"""
from __future__ import annotations

import ipaddress
import os
from concurrent.futures import ThreadPoolExecutor
from itertools import groupby
from pathlib import Path
from typing import Dict, List, Optional, Tuple

from plugin import children
from plugin.gate.check import Answer, Check, Finding, Question
from plugin.gate.grammar import slip, stand_ins
from plugin.gate.rows import Rows
from plugin.gate.statements import State, Statement
from plugin.gate.workloads import Workloads
from plugin.gate.written_out import Writer

# How many violated questions are found one after the other before rows are looked at, and again before runs stand side
# by side.
_FEW = 2


# How many questions are asked in one run: np reads 32 MiB, with the list.
_MOST_AT_ONCE = 20_000


def _slices(questions: List[Question]) -> List[List[Question]]:
    """The questions in their order, so many together, and those of one statement together."""
    found: List[List[Question]] = [[]]
    for _, group in groupby(questions, key=lambda question: question.statement):
        asked = list(group)
        if found[-1] and len(found[-1]) + len(asked) > _MOST_AT_ONCE:
            found.append([])
        found[-1] += asked
    return found


def judge_grammar(check: Check, statements: List[Statement]) -> None:
    """Finds the lines that are no statement. That takes no objects, and np reads all lines before it looks for the
    names in them."""
    rest = [Question(statement, parts) for statement in statements if statement.may_hold for parts in stand_ins(statement.parts)]
    while True:
        answer = check.ask_nothing_of(rest)
        if answer.finding in (Finding.HOLDS, Finding.UNKNOWN_END):
            return
        if answer.finding != Finding.BAD_STATEMENT:
            check.give_up(answer)
        bad = rest[answer.place].statement
        bad.refuse(slip(bad.text))
        rest = [question for question in rest[answer.place + 1:] if question.statement is not bad]


class Judge:
    """Has np judge statements on the list in a file."""

    def __init__(self, check: Check, path: Path, workloads: Workloads, writer: Writer, rows: Rows) -> None:
        self._check = check
        self._path = path
        self._workloads = workloads
        self._writer = writer
        self._rows = rows
        self._groups: Dict[Statement, int] = {}  # of the violated ones: whose packet is told
        self.questions: List[Question] = []
        self.notes = b""  # on the objects; np says them only where all questions of a run hold

    def judge(self, statements: List[Statement]) -> None:
        """Finds out which statements are violated, and by which packet first."""
        self.questions = self._writer.questions(statements, are_known=False)
        answer = self._check.ask(self.questions[:_MOST_AT_ONCE], self._path)
        is_whole = answer.finding != Finding.UNKNOWN_END and len(self.questions) <= _MOST_AT_ONCE
        if not is_whole:
            self._learn_workloads(statements)
        for questions in _slices(self.questions):
            self._judge_slice(questions, answer if is_whole else None)

    def _judge_slice(self, rest: List[Question], answer: Optional[Answer]) -> None:
        """Judges questions of which np gave this answer, where it was asked."""
        violated = 0
        while True:
            answer = answer or self._check.ask(rest, self._path)
            if answer.finding == Finding.HOLDS:
                self.notes = answer.said
                return
            rest = self._without_violated(rest, answer)
            answer = None
            violated += 1
            if violated == _FEW:
                rest = self._without_those_of_rows(rest)
            elif violated == 2 * _FEW:
                self._judge_many(rest)
                return

    def _learn_workloads(self, statements: List[Statement]) -> None:
        """Puts the workloads that np has in the place of the names of owners, and refuses the statements that name a
        workload that is not there. np names only the first of these, but the list of all names tells the others."""
        self._writer.refuse_unknown_workloads(statements)
        self.questions = self._writer.questions(statements, are_known=True)

    def _without_violated(self, questions: List[Question], answer: Answer) -> List[Question]:
        """Notes which statement is violated, and returns the questions behind it that may tell of others, or of a
        packet of this one that comes first."""
        if answer.finding != Finding.VIOLATED:
            self._check.give_up(answer)
        self._violate(questions[answer.place], answer.packet)
        return [question for question in questions[answer.place + 1:] if self._is_open(question)]

    def _is_open(self, question: Question) -> bool:
        """Whether what np says of the question may still count."""
        return self._groups.get(question.statement, question.group) == question.group

    def _violate(self, question: Question, packet: str) -> None:
        statement = question.statement
        if statement.state != State.VIOLATED or self._order(packet) < self._order(statement.word):
            statement.violate(packet)
        self._groups[statement] = question.group

    def _order(self, packet: str) -> Tuple[Tuple[int, int], ...]:
        """Where the packet stands in np's order, as far as its ends say it."""
        source, _, rest = packet.partition(" => ")
        return self._place(source), self._place(rest.partition(" : ")[0].partition(" (")[0])

    def _place(self, end: str) -> Tuple[int, int]:
        """Where an end stands: workloads are before the addresses of IPv4, and these before those of IPv6."""
        if end in self._workloads.places:
            return 0, self._workloads.places[end]
        try:
            address = ipaddress.ip_address(end)
        except ValueError:  # a name with the signs of a packet in it
            return 9, 0
        return address.version, int(address)

    def _without_those_of_rows(self, questions: List[Question]) -> List[Question]:
        """Notes which statements are violated by a row of np list, and returns the questions of the others."""
        by_statement: Dict[Statement, List[Question]] = {}
        for question in questions:
            if question.statement.may_hold:
                by_statement.setdefault(question.statement, []).append(question)
        for asked in by_statement.values():
            for question, packet in self._rows.breaking(asked):
                self._violate(question, packet)
        return [question for question in questions if not (question.statement in by_statement and question.statement in self._groups)]

    def _judge_many(self, questions: List[Question]) -> None:
        """Judges questions side by side."""
        statements = list(dict.fromkeys(question.statement for question in questions))
        lanes = max(1, min(os.cpu_count() or 1, len(statements)))
        lane_of = {statement: place % lanes for place, statement in enumerate(statements)}
        parts = [[question for question in questions if lane_of[question.statement] == lane] for lane in range(lanes)]
        with ThreadPoolExecutor(lanes) as pool:
            try:
                notes = list(pool.map(self._judge_lane, range(lanes), parts))
            except BaseException:
                children.end_running()
                raise
        self.notes = notes[0]

    def _judge_lane(self, lane: int, questions: List[Question]) -> bytes:
        rest = questions
        while True:
            answer = self._check.ask(rest, self._path, "asked.%d" % lane)
            if answer.finding == Finding.HOLDS:
                return answer.said
            rest = self._without_violated(rest, answer)
