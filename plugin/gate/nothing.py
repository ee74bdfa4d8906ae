"""Whether a statement asks about any packet at all. One that asks about none holds, and so does its opposite."""
from __future__ import annotations

from pathlib import Path
from typing import List, Set

from plugin.gate.check import Check, Finding, Question
from plugin.gate.grammar import NO_CONNECTIONS, ONLY, EndKind, Parts, opposite
from plugin.gate.statements import Form, Statement
from plugin.gate.workloads import Workloads


def asking_nothing(check: Check, statements: List[Statement], questions: List[Question], path: Path, workloads: Workloads,
                   asking_of_ingresses: Set[Statement]) -> List[Statement]:
    """The statements that hold because they ask about no packet."""
    asking = asking_of_ingresses | {question.statement for question in questions if _surely_asks(question, workloads)}
    doubtful = {statement for statement in statements if statement.may_hold and statement not in asking}
    opposites = [question._replace(parts=opposite(question.parts)) for question in questions
                 if question.statement in doubtful and question.parts.connections != NO_CONNECTIONS]
    doubtful -= _shown_to_ask(check, opposites, path)
    return [statement for statement in statements if statement in doubtful]


def _surely_asks(question: Question, workloads: Workloads) -> bool:
    """Whether the question is about a packet by the names of the workloads alone: two different workloads are among
    its ends, or a workload and an address. Most need no run of np for that."""
    if question.statement.parts.connections == NO_CONNECTIONS:
        return False
    if question.statement.form == Form.INGRESS_CONTROLLER:
        return False
    senders, receivers = workloads.of(question.parts.source), workloads.of(question.parts.destination)
    if senders is None or receivers is None:
        return bool(senders or receivers)
    return bool(senders and receivers) and (len(senders) > 1 or len(receivers) > 1 or senders != receivers)


def _shown_to_ask(check: Check, opposites: List[Question], path: Path) -> Set[Statement]:
    """The statements whose opposites do not hold. One that does not shows that all statements of its two ends ask
    about packets."""
    shown: Set[Statement] = set()
    rest = opposites
    while rest:
        answer = check.ask(rest, path)
        if answer.finding == Finding.HOLDS:
            break
        if answer.finding != Finding.VIOLATED:
            check.give_up(answer)
        ends = _ends(rest[answer.place].parts)
        shown.update(question.statement for question in rest[answer.place:] if _ends(question.parts) == ends)
        rest = [question for question in rest[answer.place + 1:] if question.statement not in shown]
    return shown


def _ends(parts: Parts) -> List[str]:
    return [parts.source.text, parts.destination.text]


def reason(parts: Parts, workloads: Workloads) -> str:
    """Why a statement asks about no packet."""
    for end in parts.ends():
        if end.kind == EndKind.OUTSIDE_NAMESPACE and parts.verdict != ONLY and list(workloads.namespaces) == [end.name]:
            return "no pod is outside namespace %s" % end.name
        if end.kind == EndKind.NAMESPACE and end.name not in workloads.namespaces:
            return workloads.no_pod_in(end.name)
        if end.kind == EndKind.ANY_POD and not workloads.names:
            return "there is no pod in the list"
    if parts.connections == NO_CONNECTIONS:
        return "nothing is asked: its connections are No Connections"
    if parts.verdict == ONLY:
        return "nothing is asked: there are no others than the left ends"
    return "nothing is asked: both ends are the same single pod"
