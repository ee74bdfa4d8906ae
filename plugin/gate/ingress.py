"""What comes in through Ingresses: it is compared with the rows of `np list`.

Where no controller is named np takes it for a pod without labels. A workload to which an Ingress leads, and which lets
only named peers in, may then be open to the real one: that is unsure. Where Ingresses lead is asked of np (`opened`), and
so is whether somebody is let in there at all.
"""
from __future__ import annotations

from functools import cached_property
from pathlib import Path
from typing import Dict, List, NamedTuple, Optional, Set, Tuple

from plugin.gate import opened
from plugin.gate.check import give_up
from plugin.gate.grammar import NO_CONNECTIONS, ONLY, EndKind, Parts
from plugin.gate.pods import ListedPods
from plugin.gate.statements import Form, Statement
from plugin.gate.workloads import NoWorkload, Workloads, listed
from plugin.gate.written_out import Writer
from plugin.ports import Ports, read_connections
from plugin.program import Program
from plugin.room import Room
from plugin.said import decoded, stop

_NO_PORTS = Ports()

_OpenPorts = Dict[str, Ports]  # of TCP, by workload


class Source(NamedTuple):
    """The list, and what is asked about it."""

    program: Program
    path: Path
    room: Room
    workloads: Workloads
    pods: ListedPods


def controllers(name: str, workloads: Workloads) -> List[str]:
    """The workloads that the name stands for which --controller has; none where it is empty."""
    try:
        return workloads.named(name) if name else []
    except NoWorkload as error:
        stop(1, "--controller: %s" % error)


class Ingresses:
    """What comes in through the Ingresses of a list. `controllers` are the workloads that may send it; there are none
    where that is not known."""

    def __init__(self, source: Source, writer: Writer, controllers: List[str]) -> None:
        self._source = source
        self._writer = writer
        self._controllers = controllers
        self._doubts: Dict[str, Ports] = {}
        self.notes: Optional[bytes] = None  # np's notes on the list, where it was asked

    def judge(self, statements: List[Statement]) -> None:
        """Judges the statements that may hold and are about Ingresses."""
        for statement in statements:
            if statement.may_hold and self._is_asked(statement):
                try:
                    self._judge(statement)
                except ValueError:  # neither np's rows nor statements that np takes have such connections
                    give_up(self._source.program, 0, self.notes or b"")

    def asking(self, statements: List[Statement]) -> Set[Statement]:
        """The statements that may hold and ask what comes to some workload through Ingresses."""
        return {statement for statement in statements if statement.may_hold and self._is_asked(statement)
                and statement.parts.connections != NO_CONNECTIONS and self._writer.workloads_at(statement.parts.destination)}

    def _is_asked(self, statement: Statement) -> bool:
        """Whether the statement is about Ingresses. A controller that is named is a pod like others where `only` is
        asked about."""
        parts = statement.parts
        if statement.form == Form.INGRESS_CONTROLLER:
            return True
        return parts.verdict == ONLY and not self._controllers and parts.destination.kind != EndKind.ADDRESSES and all(
            end.kind != EndKind.INGRESS_CONTROLLER for end in parts.source.ends)

    def _judge(self, statement: Statement) -> None:
        parts, names = statement.parts, self._writer.workloads_at(statement.parts.destination)
        for ports in self._open:
            packet = self._first_breaking(parts, ports, names)
            if packet:
                statement.violate("{ingress-controller} => " + packet)
                return
        place = self._first_doubtful(parts, names)
        if place:
            statement.doubt("an Ingress leads to %s, and only named peers are let in; say which workload the controller is "
                            "(--controller), or that this may stay open (--allow-unsure)" % place)

    def _first_breaking(self, parts: Parts, open_ports: _OpenPorts, names: List[str]) -> Optional[str]:
        """The first packet that breaks the statement for sure: the first workload in np's order, and its least port. A
        workload without a row gets nothing through Ingresses, and only TCP comes through them."""
        denies = parts.verdict != "allow"
        for name in names:
            for protocol, ports in read_connections(parts.connections):
                there = open_ports.get(name, _NO_PORTS) if protocol == "TCP" else _NO_PORTS
                breaking = ports & there if denies else ports - there
                if not denies and protocol == "TCP":
                    breaking = breaking - self._doubtful(name)
                port = breaking.least()
                if port is not None:
                    return "%s : %s %d : %s" % (name, protocol, port, "Allow" if denies else "Deny")
        return None

    def _first_doubtful(self, parts: Parts, names: List[str]) -> Optional[str]:
        """The first workload and port of which it is not known whether the controller is let in."""
        asked = dict(read_connections(parts.connections)).get("TCP", _NO_PORTS)
        for name in names:
            port = (asked & self._doubtful(name)).least()
            if port is not None:
                return "%s at TCP %d" % (name, port)
        return None

    def _doubtful(self, name: str) -> Ports:
        """The ports of a workload to which an Ingress leads, and where a pod without labels is not let in, and
        somebody else may be."""
        if self._controllers or name not in self._leading:
            return _NO_PORTS
        if name not in self._doubts:
            shut = self._leading[name] - self._open[0].get(name, _NO_PORTS)
            self._doubts[name] = shut - self._shut_to_all(name, shut) if shut.least() else shut
        return self._doubts[name]

    def _shut_to_all(self, name: str, ports: Ports) -> Ports:
        """Those of the ports at which nobody is let in: no listed pod, no address, and no pod that is not listed,
        whatever its labels."""
        for words in (["list", "--focus", name, "--side", "to"], ["exposure", "--workload", name]):
            ended = self._source.program.run([*words, str(self._source.path)])
            if ended.status:
                return _NO_PORTS  # as where there are too many patterns of labels
            for line in decoded(ended.out).split("\n"):
                ends, _, connections = line.rpartition(" : ")
                if ends.rpartition(" => ")[2] in (name, name + " (IPv4)", name + " (IPv6)"):
                    ports = ports - dict(read_connections(connections)).get("TCP", _NO_PORTS)
        return ports

    @cached_property
    def _open(self) -> List[_OpenPorts]:
        """The ports that are open, for each workload that the controller may be."""
        source = self._source
        found = [listed(source.program, source.path, ["--controller", name]) for name in self._controllers]
        found = found or [source.workloads.through_ingresses()]
        self.notes = found[0].notes
        return [dict(map(_read_row, each.rows)) for each in found]

    @cached_property
    def _leading(self) -> _OpenPorts:
        """The ports to which Ingresses lead, whoever is let in."""
        items = self._source.pods.items
        if not opened.has_ingresses(items):
            return {}
        copy = self._source.room.write("opened", opened.text(items))
        return dict(map(_read_row, listed(self._source.program, copy, []).rows))


def _read_row(row: str) -> Tuple[str, Ports]:
    """The name of the workload, and the ports of TCP that are open to it."""
    name, _, ports = row.partition(" : TCP ")
    return name, Ports.read(ports)
