"""The statements of a file, each with what was found about it."""
from __future__ import annotations

import re
from dataclasses import dataclass, field
from enum import Enum
from typing import List

from plugin.gate.grammar import NO_PARTS, ONLY, EndKind, Parts, cut, misuse, slip
from plugin.said import decoded

_COMMENT = re.compile(rb"[ \t]*#")


class Form(Enum):
    """How a statement is judged."""

    PLAIN = "as a statement of np"
    EXTENDED = "as several statements of np"
    INGRESS_CONTROLLER = "by rows of np's list"
    FAULTY = "not at all, since the line is no statement"


class State(Enum):
    """What was found about a statement, as the gate prints it. np says of each run how many statements held, so that
    none is left out."""

    OK = "ok"
    VIOLATED = "violated"
    ERROR = "error"
    UNSURE = "unsure"


@dataclass(eq=False)
class Statement:
    """A statement: the number of its line, from 1, its text and parts, and what was found about it.

    The word is the packet that breaks it, the reason for which it is in error or unsure, or a remark. The caveats that
    touch it go by their keys. The seconds are its share of the time of the runs of np that it was asked in.
    """

    number: int
    text: str
    form: Form
    parts: Parts
    state: State = State.OK
    word: str = ""
    caveats: List[str] = field(default_factory=list)
    seconds: float = 0.0

    @property
    def may_hold(self) -> bool:
        """Whether nothing was found against it so far."""
        return self.state == State.OK

    def accept(self, remark: str) -> None:
        """Takes it for one that holds, with a remark."""
        self.state, self.word = State.OK, remark

    def violate(self, packet: str) -> None:
        """Notes the packet that breaks it."""
        self.state, self.word = State.VIOLATED, packet

    def doubt(self, reason: str) -> None:
        """Notes why it cannot be said whether it holds."""
        self.state, self.word = State.UNSURE, reason

    def refuse(self, reason: str) -> None:
        """Notes why it is in error."""
        self.state, self.word = State.ERROR, reason


def read_statements(data: bytes) -> List[Statement]:
    """The statements of a file: its lines but for those that are empty or begin with #. Statements are bytes: what is
    no UTF-8 is kept."""
    return [_read_line(number, line) for number, line in enumerate(data.split(b"\n"), 1) if line and not _COMMENT.match(line)]


def _read_line(number: int, line: bytes) -> Statement:
    # What editors and other systems add is named, since it does not show in an editor.
    if line.endswith(b"\r"):
        return _faulty(number, decoded(line[:-1]),
                       "the line ends in a carriage return, as in a file from Windows; end lines with a line feed only")
    text = decoded(line)
    if line.startswith(b"\xef\xbb\xbf"):
        return _faulty(number, text, "the line begins with a byte order mark; save the file without one")
    if line.startswith((b"\xff\xfe", b"\xfe\xff")):
        return _faulty(number, text, "the file is in UTF-16; save it in UTF-8")
    parts = cut(text)
    if parts is None:
        return _faulty(number, text, slip(text))
    problem = misuse(parts)
    return _faulty(number, text, problem) if problem else Statement(number, text, _form(parts), parts)


def _faulty(number: int, text: str, reason: str) -> Statement:
    return Statement(number, text, Form.FAULTY, NO_PARTS, State.ERROR, reason)


def _form(parts: Parts) -> Form:
    kinds = (parts.source.kind, parts.destination.kind)
    if EndKind.INGRESS_CONTROLLER in kinds:
        return Form.INGRESS_CONTROLLER
    return Form.EXTENDED if parts.verdict == ONLY or {EndKind.OUTSIDE_NAMESPACE, EndKind.PODS} & set(kinds) else Form.PLAIN


def of_form(statements: List[Statement], form: Form) -> List[Statement]:
    """The statements of that form against which nothing was found so far."""
    return [statement for statement in statements if statement.form == form and statement.may_hold]
