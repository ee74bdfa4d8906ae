"""The gate from its file of statements to its status."""
from __future__ import annotations

import sys
from pathlib import Path
from typing import IO, List

from plugin.caveats import told
from plugin.caveats.statements import StatementCaveats
from plugin.gate import junit, report, sarif
from plugin.gate.caveats import mark, refuse_addresses
from plugin.gate.check import Check
from plugin.gate.files import write_whole
from plugin.gate.ingress import Ingresses, Source, controllers
from plugin.gate.judge import Judge, judge_grammar
from plugin.gate.nothing import asking_nothing, reason
from plugin.gate.pods import ListedPods
from plugin.gate.rows import Rows
from plugin.gate.statements import State, Statement, read_statements
from plugin.gate.words import GateWords
from plugin.gate.workloads import Workloads
from plugin.gate.written_out import Writer
from plugin.program import Program
from plugin.room import Room
from plugin.said import relay, stop, write
from plugin.snapshot import MOST


def run(words: GateWords, program: Program, path: Path, room: Room, caveats: StatementCaveats) -> int:
    """Judges every statement on the list in the file `path`, prints the answers, and returns the status.

    It is 0 where all hold, 5 where one is violated, and 1 where one is in error or unsure; the gate ends with that of np
    where that refuses the list.
    """
    statements = read_statements(_read_file(words.file))
    if statements:
        workloads = Workloads(program, path)
        notes = _judge(words, statements, Source(program, path, room, workloads, ListedPods(path, workloads)), caveats)
        relay(notes)
        told.tell(mark(statements, caveats))
        write(report.answers(statements, words.file, words.github), "the answers cannot be written")
    for name, form in ((words.junit, junit.report), (words.sarif, sarif.report)):
        if name:
            write_whole(name, form(statements, words.file))
    if not statements:
        stop(1, "there is no statement in %s" % words.file)
    if report.count(statements, State.ERROR) + report.count(statements, State.UNSURE):
        return 1
    return 5 if report.count(statements, State.VIOLATED) else 0


def _read_file(name: str) -> bytes:
    try:
        with open(name, "rb") if name != "-" else _standard_input() as file:
            return file.read(MOST + 1)  # np says of more that it is too much
    except OSError:
        stop(3, "cannot read %s" % name)


def _standard_input() -> IO[bytes]:
    if sys.stdin is None:
        raise OSError("standard input is closed")
    return sys.stdin.buffer


def _judge(words: GateWords, statements: List[Statement], source: Source, caveats: StatementCaveats) -> bytes:
    """Finds out about each statement, and returns np's notes on the objects."""
    check = Check(source.program, source.room)
    workloads = source.workloads
    names = controllers(words.controller, workloads)
    writer = Writer(workloads, source.pods, names)
    judge_grammar(check, statements)
    if not words.takes_addresses_of_pods:
        refuse_addresses(statements, workloads, caveats)
    writer.refuse_unknown(statements, words.allow_empty)
    judge = Judge(check, source.path, workloads, writer, Rows(source.program, source.path, workloads, caveats))
    judge.judge(statements)
    ingresses = Ingresses(source, writer, names)
    ingresses.judge(statements)
    asking = ingresses.asking(statements)
    for statement in asking_nothing(check, statements, judge.questions, source.path, workloads, asking):
        if words.allow_empty:
            statement.word = "nothing is asked"
        else:
            statement.refuse(reason(statement.parts, workloads))
    if words.allow_unsure:
        let_unsure_pass(statements)
    return judge.notes if ingresses.notes is None else ingresses.notes


def let_unsure_pass(statements: List[Statement]) -> None:
    """Takes the unsure statements for ones that hold, with a remark."""
    for statement in statements:
        if statement.state == State.UNSURE:
            statement.accept("unsure: " + statement.word.partition(";")[0])
