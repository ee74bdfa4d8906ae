"""How statements are written out as statements of np: outside-namespace, pods with labels, the workloads of an owner,
and what `only` leaves to others."""
from __future__ import annotations

from typing import Dict, FrozenSet, Iterator, List, NamedTuple, Optional

from plugin.gate.blocks import outside_of
from plugin.gate.check import Question
from plugin.gate.grammar import (ANY_ADDRESS, ANY_POD, ARE_PODS, NO_CONNECTIONS, ONLY, End, EndKind, Parts, namespace, read_end,
                                 workload)
from plugin.gate.pods import ListedPods
from plugin.gate.statements import Form, Statement
from plugin.gate.workloads import NoWorkload, Workloads


class Unit(NamedTuple):
    """An end of np, and the places of the pods that are meant where these are not all of the one workload that it
    names."""

    end: End
    some: Optional[FrozenSet[int]] = None


class Writer:
    """Writes statements out for the workloads of a list. `controllers` are those that send what comes through Ingresses,
    where that is said."""

    def __init__(self, workloads: Workloads, pods: ListedPods, controllers: List[str]) -> None:
        self._workloads = workloads
        self._pods = pods
        self._controllers = controllers

    def refuse_unknown(self, statements: List[Statement], allow_empty: bool) -> None:
        """Refuses extended statements with an end that is not there: everything is outside a misspelt namespace, and
        everyone is among the others of nobody."""
        for statement in statements:
            if statement.form != Form.PLAIN and statement.may_hold:
                self._refuse(statement, allow_empty)

    def refuse_unknown_workloads(self, statements: List[Statement]) -> None:
        """Refuses the statements that may hold and name a workload that is not there."""
        for statement in statements:
            if statement.may_hold:
                self._refuse(statement, True)

    def _refuse(self, statement: Statement, allow_empty: bool) -> None:
        for end in reversed(statement.parts.ends()):  # what is said of the first counts
            problem = self._problem(end, allow_empty)
            if problem:
                statement.refuse(problem)

    def _problem(self, end: End, allow_empty: bool) -> str:
        """Why nobody is at the end; empty where somebody may be."""
        try:
            if end.kind == EndKind.WORKLOAD:
                self._workloads.named(end.name)
            found = self._pods.meeting(end.name, end.selector) if end.kind == EndKind.PODS else {}
        except NoWorkload as error:
            return str(error)
        if allow_empty or end.kind not in (EndKind.NAMESPACE, EndKind.OUTSIDE_NAMESPACE, EndKind.PODS):
            return ""
        if end.name not in self._workloads.namespaces:
            return self._workloads.no_pod_in(end.name)
        return "no pod of namespace %s has %s" % (end.name, end.selector) if end.kind == EndKind.PODS and not found else ""

    def questions(self, statements: List[Statement], are_known: bool) -> List[Question]:
        """What np is asked for all statements that may hold, in their order. Where it is not known yet that all
        workloads are there, plain statements are asked as they are."""
        return [question for statement in statements if statement.may_hold for question in self._questions(statement, are_known)]

    def _questions(self, statement: Statement, are_known: bool) -> Iterator[Question]:
        parts = statement.parts
        if statement.form == Form.PLAIN and not are_known:
            yield Question(statement, parts)
            return
        if statement.form == Form.INGRESS_CONTROLLER:
            # This asks nothing, but np refuses it where it does not know the workload.
            for unit in self.units(parts.destination) if are_known else [Unit(_plain(parts.destination))]:
                yield Question(statement, Parts("allow", ANY_POD, unit.end, NO_CONNECTIONS))
            return
        verdict = "deny" if parts.verdict == ONLY else parts.verdict
        receivers = self.units(parts.destination)
        for group, sender in enumerate(self.units(parts.source)):
            for receiver in receivers:
                if _has_packets(sender, receiver):
                    yield Question(statement, Parts(verdict, sender.end, receiver.end, parts.connections), group)

    def units(self, end: End) -> List[Unit]:
        """The ends of np that an end stands for, in np's order."""
        if end.kind == EndKind.WORKLOAD:
            return [Unit(workload(name)) for name in self._workloads.named(end.name)]
        if end.kind == EndKind.PODS:
            return [self._unit(name, places) for name, places in self._pods.meeting(end.name, end.selector).items()]
        if end.kind == EndKind.OUTSIDE_NAMESPACE:
            return [Unit(namespace(space)) for space in self._workloads.namespaces if space != end.name] + [Unit(ANY_ADDRESS)]
        if end.kind == EndKind.OTHERS:
            return [*self._other_pods(end), *self._other_addresses(end)]
        return [Unit(end)]

    def workloads_at(self, end: End) -> List[str]:
        """The workloads of an end of pods, in np's order."""
        return [name for unit in self.units(end) for name in self._workloads.of(unit.end) or ()]

    def _unit(self, name: str, places: FrozenSet[int]) -> Unit:
        return Unit(workload(name), None if places == self._pods.all_of(name) else places)

    def _other_pods(self, others: End) -> Iterator[Unit]:
        """The pods that are in none of the ends. Where nobody of a namespace is in one they are asked about
        together."""
        named = self._named(others)
        if not named:
            yield Unit(ANY_POD)
            return
        for space, names in self._workloads.namespaces.items():
            if not named.keys() & set(names):
                yield Unit(namespace(space))
            else:
                yield from (unit for name in names for unit in self._rest_of(name, named.get(name, frozenset())))

    def _rest_of(self, name: str, places: Optional[FrozenSet[int]]) -> Iterator[Unit]:
        """The pods of a workload that are not at these places; none of them where the whole workload is named."""
        if places == frozenset():
            yield Unit(workload(name))
        elif places is not None and places != self._pods.all_of(name):
            yield Unit(workload(name), self._pods.all_of(name) - places)

    def _named(self, others: End) -> Dict[str, Optional[FrozenSet[int]]]:
        """The workloads that are in some of the ends, each with the places of its pods that are, or with None where
        all are."""
        found: Dict[str, Optional[FrozenSet[int]]] = {}
        for end in others.ends:
            if end.kind == EndKind.INGRESS_CONTROLLER:
                found.update(dict.fromkeys(self._controllers))
            for unit in self.units(end) if end.kind in (*ARE_PODS, EndKind.OUTSIDE_NAMESPACE) else ():
                for name in self._workloads.of(unit.end) or ():
                    before = found.get(name, frozenset())
                    found[name] = None if before is None or unit.some is None else before | unit.some
        return found

    def _other_addresses(self, others: End) -> List[Unit]:
        """The addresses that are in none of the ends."""
        texts = [unit.end.text for end in others.ends if end.kind in (EndKind.ADDRESSES, EndKind.OUTSIDE_NAMESPACE)
                 for unit in self.units(end) if unit.end.kind == EndKind.ADDRESSES]
        if not texts:
            return [Unit(ANY_ADDRESS)]
        return [] if ANY_ADDRESS.text in texts else [Unit(read_end(block)) for block in outside_of(texts)]


def _plain(end: End) -> End:
    """An end of np in the place of one that np does not have, for a question about nothing."""
    return namespace(end.name) if end.kind == EndKind.PODS else end


def _has_packets(sender: Unit, receiver: Unit) -> bool:
    """Whether there is a packet from the one to the other that np does judge: none is between two addresses, nor from
    one pod to itself."""
    if EndKind.ADDRESSES == sender.end.kind == receiver.end.kind:
        return False
    if sender.some is None or receiver.some is None or sender.end != receiver.end:
        return True
    return len(sender.some | receiver.some) > 1
