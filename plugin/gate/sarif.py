"""The answers as SARIF 2.1.0, which code scanning shows: what does not hold, and the caveats."""
from __future__ import annotations

import json
from typing import Any, Dict, Iterator, List
from urllib.parse import quote

from plugin import parts
from plugin.caveats.table import KINDS
from plugin.gate.report import printable
from plugin.gate.statements import State, Statement
from plugin.said import encoded

_SCHEMA = "https://json.schemastore.org/sarif-2.1.0.json"
_RULES = {
    "violated": "A statement does not hold. The message ends with the first packet that breaks it.",
    "error": "A statement is in error: it is none, names nobody, or asks about nothing.",
    "unsure": "It cannot be said whether a statement holds.",
}


def report(statements: List[Statement], file: str) -> bytes:
    """The report on the statements of the file. A file without a statement is in error."""
    results = [result for statement in statements for result in _results(statement, file)]
    if not statements:
        results = [_result("error", "error", "there is no statement", file, 1)]
    driver = {"name": "kubectl-np", "semanticVersion": parts.version(), "rules": list(_rules())}
    run = {"tool": {"driver": driver}, "columnKind": "unicodeCodePoints", "results": results}
    return (json.dumps({"$schema": _SCHEMA, "version": "2.1.0", "runs": [run]}, indent=1) + "\n").encode("ascii")


def _rules() -> Iterator[Dict[str, Any]]:
    for key, text in _RULES.items():
        yield {"id": key, "shortDescription": {"text": text}}
    for kind in KINDS.values():
        yield {"id": _caveat(kind.key), "shortDescription": {"text": kind.one + "."}, "help": {"text": kind.help}}


def _caveat(key: str) -> str:
    return "caveat-" + key


def _results(statement: Statement, file: str) -> Iterator[Dict[str, Any]]:
    """What there is to say of a statement. Caveats of one that holds are notes, and of others warnings."""
    text, word = _plain(statement.text), _plain(statement.word)
    if statement.state != State.OK:
        message = ": ".join(part for part in (text, word) if part)
        yield _result(statement.state.value, "error", message, file, statement.number)
    for key in statement.caveats:
        level = "note" if statement.state == State.OK else "warning"
        yield _result(_caveat(key), level, "%s: %s" % (text, KINDS[key].help), file, statement.number)


def _result(rule: str, level: str, message: str, file: str, line: int) -> Dict[str, Any]:
    place = {"artifactLocation": {"uri": _uri(file)}, "region": {"startLine": line}}
    return {"ruleId": rule, "level": level, "message": {"text": message}, "locations": [{"physicalLocation": place}]}


def _uri(file: str) -> str:
    """The file as a reference of URIs: relative, but for a path from the root. Standard input has the name stdin."""
    path = quote(encoded("stdin" if file == "-" else file))
    return "file://" + path if path.startswith("/") else path


def _plain(text: str) -> str:
    """The text without control characters. What is no UTF-8 is replaced."""
    return encoded(printable(text)).decode("utf-8", "replace")
