"""What is done, in order, by `kubectl np`. A run is short, so what a command does not need is not loaded."""
from __future__ import annotations

import os
import sys

from plugin import children, helptext, said, words as command_line
from plugin.program import Program
from plugin.room import Room
from plugin.said import Stop, write
from plugin.words import Words


def main() -> int:
    """Answers the command line; returns the status. Where np refused something the last line says what explains it. The
    gate has lines of its own, which stay as they are."""
    children.catch_signals()
    words = command_line.read(sys.argv[1:])
    said.is_quiet = words.is_quiet
    said.names_items_of_notes = words.command != "gate"
    try:
        status = _run(words)
    except Stop as end:
        end.tell()
        status = end.status
    if status == 1 and said.fault and not said.is_quiet and words.command != "gate":
        helptext.name_help(said.fault)
    return status


def _run(words: Words) -> int:
    program = Program(os.environ.get("KUBECTL_NP_PROGRAM"))
    if words.wants_help:
        write(helptext.of(words.command))
    elif not words.command:
        helptext.print_usage_error()
        return 2
    elif words.command == "help":
        write(helptext.about(words.own))
    elif words.command == "filter":
        command_line.check_own(words)
        _filter()
    else:
        return _answer(words, program)
    return 0


def _filter() -> None:
    """Prints what np reads of the list on standard input."""
    from plugin import snapshot
    from plugin.caveats.beside import Beside
    with Room() as room:
        snapshot.print_list(snapshot.filter_input(room, Beside()))


def _answer(words: Words, program: Program) -> int:
    program.check()
    command_line.check_sources(words)
    if words.command == "version":
        command_line.check_own(words)
        program.print_version()
        return 0
    if words.command == "sample":
        return program.answer(["sample", *words.own]).status
    from plugin.command import command_of
    return command_of(words, program).run()
