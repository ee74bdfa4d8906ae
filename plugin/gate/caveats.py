"""Caveats of statements: which are refused for the address of a pod, and which others some caveat touches."""
from __future__ import annotations

from typing import List

from plugin.caveats.asked import named, of_pod
from plugin.caveats.caveat import Caveat
from plugin.caveats.statements import StatementCaveats
from plugin.caveats.table import KINDS
from plugin.gate.statements import State, Statement
from plugin.gate.workloads import Workloads


def refuse_addresses(statements: List[Statement], workloads: Workloads, caveats: StatementCaveats) -> None:
    """Refuses statements about an address that is that of a listed pod: np takes each for an end outside the
    cluster."""
    for statement in statements:
        found = caveats.pod_at(statement.parts) if statement.may_hold else None
        if found is not None:
            text, address = found
            statement.refuse(of_pod(text, address, named(address, workloads.names)))


# What depends on who the controller of Ingresses is the gate says itself, as unsure.
_SAID = "controller-not-named"


def mark(statements: List[Statement], caveats: StatementCaveats) -> List[Caveat]:
    """Notes at each statement that is not in error which caveats bear on it, and returns them, each once, but for
    those that np's notes on Ingresses say."""
    found: List[Caveat] = []
    for statement in statements:
        if statement.state != State.ERROR:
            touching = _bearing(statement, caveats.of(statement.number, statement.parts))
            touching = [caveat for caveat in touching if caveat.key != _SAID]
            keys = {caveat.key for caveat in touching}
            statement.caveats = [key for key in KINDS if key in keys]
            found += [caveat for caveat in touching if not caveat.is_noted]
    return list(dict.fromkeys(found))


def _bearing(statement: Statement, touching: List[Caveat]) -> List[Caveat]:
    """The caveats that bear on what was found: that something passes is not changed by what can only let more
    through."""
    passes = (statement.parts.verdict == "allow") == (statement.state == State.OK)
    return [caveat for caveat in touching if not (passes and caveat.opens)]
