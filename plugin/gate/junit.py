"""The answers as JUnit XML, for other programs."""
from __future__ import annotations

import re
from typing import List

from plugin.gate.report import count, printable
from plugin.gate.statements import State, Statement
from plugin.said import encoded

# XML has no place for control characters, nor for bytes that are not UTF-8.
_CONTROL = re.compile(rb"[\x00-\x1f\x7f]")
_NOT_ASCII = re.compile(rb"[^ -~]")
_MARKS = str.maketrans({"&": "&amp;", "<": "&lt;", ">": "&gt;", '"': "&quot;"})


def _escaped(text: str) -> str:
    plain = _NOT_ASCII.sub(b"?", _CONTROL.sub(b"", encoded(text)))
    return plain.decode("ascii").translate(_MARKS)


def report(statements: List[Statement], file: str) -> bytes:
    """The report on the statements of the file. Where there is no statement its one test is in error: a report
    without tests would look like success. The time of a test is its share of the runs of np that it was asked in."""
    tests = [_test(file, "line %d: %s" % (each.number, printable(each.text)), each.number, each.seconds, _outcome(each))
             for each in statements]
    errors = count(statements, State.ERROR) + count(statements, State.UNSURE)
    if not statements:
        tests = [_test(file, "statements", 1, 0, '<error message="there is no statement" type="error"/>')]
        errors = 1
    seconds = sum(each.seconds for each in statements)
    counts = 'tests="%d" failures="%d" errors="%d" time="%.3f"' % (len(tests), count(statements, State.VIOLATED), errors, seconds)
    lines = ['<?xml version="1.0" encoding="UTF-8"?>', "<testsuites %s>" % counts,
             ' <testsuite name="%s" %s skipped="0">' % (_escaped(file), counts), *tests, " </testsuite>", "</testsuites>"]
    return "".join(line + "\n" for line in lines).encode()


def _test(file: str, name: str, line: int, seconds: float, outcome: str) -> str:
    place = _escaped(file)
    head = '  <testcase classname="%s" name="%s" file="%s" line="%d" time="%.3f"' % (place, _escaped(name), place, line, seconds)
    return "%s>%s</testcase>" % (head, outcome) if outcome else head + "/>"


def _outcome(statement: Statement) -> str:
    word = _escaped(printable(statement.word))
    caveats = "<system-err>caveat: %s</system-err>" % ", ".join(statement.caveats) if statement.caveats else ""
    if statement.state == State.VIOLATED:
        return '<failure message="%s" type="violated">%s</failure>' % (word, word) + caveats
    if statement.state in (State.ERROR, State.UNSURE):
        return '<error message="%s" type="%s">%s</error>' % (word, statement.state.value, word) + caveats
    return ("<system-out>%s</system-out>" % word if word else "") + caveats
