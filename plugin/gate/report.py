"""The answers, as the gate prints them: a line for each statement, annotations for GitHub, and how many there are of
each."""
from __future__ import annotations

import re
from typing import List, Tuple

from plugin.caveats.table import KINDS
from plugin.gate.statements import State, Statement
from plugin.said import encoded

_CONTROL = re.compile("[\x00-\x1f\x7f]")
_ESCAPES_OF_GITHUB = str.maketrans({"%": "%25", "\r": "%0D", "\n": "%0A"})
_ESCAPES_OF_PROPERTIES = str.maketrans({"%": "%25", "\r": "%0D", "\n": "%0A", ":": "%3A", ",": "%2C"})


def printable(text: str) -> str:
    """The text without control characters: whatever a statement has in it, it must not look like another line of the
    gate, or move the cursor."""
    return _CONTROL.sub("?", text)


def count(statements: List[Statement], state: State) -> int:
    """How many statements are in that state."""
    return sum(statement.state == state for statement in statements)


def answers(statements: List[Statement], file: str, with_annotations: bool) -> bytes:
    """What the gate prints. The annotations name the file."""
    lines = []
    for statement in statements:
        said = _said(statement)
        lines.append("line %d: %s%s" % (statement.number, said, _mark(statement)))
        if with_annotations:
            place = "file=%s,line=%d" % (file.translate(_ESCAPES_OF_PROPERTIES), statement.number)
            lines += ["::%s %s::%s" % (level, place, text.translate(_ESCAPES_OF_GITHUB)) for level, text in _annotations(statement, said)]
    lines.append(_summary(statements))
    return encoded("".join(line + "\n" for line in lines))


def _annotations(statement: Statement, said: str) -> List[Tuple[str, str]]:
    """The annotations of a statement, each with its level."""
    found = [("error", said)] if statement.state != State.OK else []
    level = "notice" if statement.state == State.OK else "warning"
    return found + [(level, "caveat %s: %s" % (key, KINDS[key].help)) for key in statement.caveats]


def _said(statement: Statement) -> str:
    text, word = printable(statement.text), printable(statement.word)
    if statement.state == State.OK:
        return "ok: %s (%s)" % (text, word) if word else "ok: " + text
    head = "VIOLATED" if statement.state == State.VIOLATED else statement.state.value
    return "%s: %s" % (head, ": ".join(part for part in (text, word) if part))


def _mark(statement: Statement) -> str:
    return " [caveat: %s]" % ", ".join(statement.caveats) if statement.caveats else ""


def _summary(statements: List[Statement]) -> str:
    errors, unsure = count(statements, State.ERROR), count(statements, State.UNSURE)
    counted = "%d ok, %d violated, %d error%s" % (
        count(statements, State.OK), count(statements, State.VIOLATED), errors, "" if errors == 1 else "s")
    return counted + (", %d unsure" % unsure if unsure else "")
