"""What rows of np list say about questions: whether one is violated, and by which packet first.

Rows stand in the place of runs of np check where many questions are violated, since each run finds one of these. Where
it takes more than the rows, nothing is said, and np check is asked: how many pods a workload without a row to itself
has, or what a block is that Python does not read.
"""
from __future__ import annotations

import ipaddress
import subprocess
from functools import cached_property, lru_cache
from pathlib import Path
from typing import IO, Dict, Iterator, List, NamedTuple, Optional, Tuple, cast

from plugin import children
from plugin.caveats.statements import StatementCaveats
from plugin.gate import blocks
from plugin.gate.check import Question
from plugin.gate.grammar import ANY_ADDRESS, End, Parts
from plugin.gate.workloads import Workloads
from plugin.page.rows import row_of
from plugin.ports import Ports, read_connections
from plugin.program import Program
from plugin.said import decoded, stop

# Beyond so many, runs of np check are faster than rows: many rows are those of few kinds of pods.
_MOST = 300_000
_PROTOCOLS = ("TCP", "UDP", "SCTP")
_NOTHING = Ports()
_MARKS = (" (IPv4)", " (IPv6)")
# Here Pythons write addresses in different ways.
_MAPPED = ipaddress.ip_network("::ffff:0:0/96")

Open = Tuple[Ports, ...]  # by protocol
Found = Tuple[int, int, str, str]  # the address, its text, and the packet behind the ends


class Unclear(Exception):
    """The rows do not say it."""


class Range(NamedTuple):
    """Addresses, by their numbers, and what passes there."""

    version: int
    first: int
    last: int
    text: str  # of the first
    open: Open


class Rows:
    """The rows of a list, which are read when they are needed first."""

    def __init__(self, program: Program, path: Path, workloads: Workloads, caveats: StatementCaveats) -> None:
        self._program = program
        self._path = path
        self._workloads = workloads
        self._caveats = caveats
        self._pairs: Dict[Tuple[str, str], Dict[str, Open]] = {}  # by both ends, and by the mark of the family
        self._senders: Dict[str, List[str]] = {}  # by destination
        self._ranges: Dict[Tuple[str, bool], List[Range]] = {}  # by workload, and whether it receives

    def breaking(self, questions: List[Question]) -> List[Tuple[Question, str]]:
        """Which of the questions of a statement are violated, of those of the first sender of which some are, and the
        first packet of each. There is none where the rows do not say it."""
        found: List[Tuple[Question, str]] = []
        try:
            for question in questions if self._are_there else []:
                if found and found[0][0].group != question.group:
                    break
                packet = self._first(question.parts)
                if packet:
                    found.append((question, packet))
        except Unclear:
            return []
        return found

    @cached_property
    def _are_there(self) -> bool:
        """Whether there are few enough rows. They are read for that."""
        try:
            child = children.start([*self._program.command, "list", "--report", "1", "--format", "json", self._path],
                                   stdout=subprocess.PIPE, stderr=subprocess.DEVNULL)
        except OSError as error:
            stop(3, "%s cannot be run: %s" % (self._program.name, error.strerror))
        with cast(IO[bytes], child.stdout) as stream:
            are_few = self._read(stream)
            if not are_few:
                child.terminate()
        return children.wait(child) == 0 and are_few

    def _read(self, stream: IO[bytes]) -> bool:
        for number, line in enumerate(stream):
            if number == _MOST or b"\\" in line:  # a name that JSON writes in another way
                return False
            if line.strip() not in (b"", b"[]"):
                self._take(*map(decoded, row_of(line)))
        return True

    def _take(self, text: str, destination: str, source: str) -> None:
        places = self._workloads.places
        name, mark = (destination[:-7], destination[-7:]) if destination.endswith(_MARKS) else (destination, "")
        if source in places and name in places:
            self._pairs.setdefault((source, name), {})[mark] = _open(text)
            self._senders.setdefault(name, []).append(source)
        elif source in places:
            self._ranges.setdefault((source, False), []).append(_range(destination, text))
        elif source != "{ingress-controller}":
            self._ranges.setdefault((destination, True), []).append(_range(source, text))

    def _first(self, parts: Parts) -> Optional[str]:
        """The first packet that breaks a statement of np."""
        asked, denies = _open(parts.connections), parts.verdict == "deny"
        senders, receivers = self._workloads.of(parts.source), self._workloads.of(parts.destination)
        if senders is None:
            found = [(self._first_address(name, True, parts.source, asked, denies), name) for name in receivers or ()]
            least = min(((each, name) for each, name in found if each), key=lambda pair: pair[0][:2], default=None)
            return None if least is None else "%s => %s : %s" % (least[0][2], least[1], least[0][3])
        if denies and receivers is not None:
            senders = self._sending(senders, receivers)
        for sender in senders:
            packet = self._to_address(sender, parts.destination, asked, denies) if receivers is None else (
                self._to_pods(sender, receivers, asked, denies))
            if packet:
                return packet
        return None

    def _to_address(self, sender: str, addresses: End, asked: Open, denies: bool) -> Optional[str]:
        found = self._first_address(sender, False, addresses, asked, denies)
        return None if found is None else "%s => %s : %s" % (sender, found[2], found[3])

    def _sending(self, senders: List[str], receivers: List[str]) -> List[str]:
        """Those of the senders that send something to some of the receivers, in np's order."""
        if len(senders) == 1 or len(receivers) > len(senders):
            return senders
        there = {sender for receiver in receivers for sender in self._senders.get(receiver, [])}
        return sorted(there.intersection(senders), key=self._workloads.places.__getitem__)

    def _to_pods(self, sender: str, receivers: List[str], asked: Open, denies: bool) -> Optional[str]:
        """The first packet of one workload to others. Between two without a row nothing passes."""
        for receiver in receivers:
            rows = self._pairs.get((sender, receiver))
            if rows is None and sender == receiver and not denies:
                raise Unclear
            if rows is None and denies:
                continue
            for mark in self._marks:
                opened = rows.get("") or rows.get(mark) if rows else None
                packet = _breaking(asked, opened or (_NOTHING,) * 3, denies)
                if packet:
                    return "%s => %s%s : %s" % (sender, receiver, mark if len(self._marks) > 1 else "", packet)
        return None

    @cached_property
    def _marks(self) -> List[str]:
        """The marks of the families of the list."""
        return [mark for mark in _MARKS if mark[2:-1] in self._caveats.families]

    def _first_address(self, name: str, receives: bool, addresses: End, asked: Open, denies: bool) -> Optional[Found]:
        """The first of the addresses at which a packet to the workload, or from it, breaks the statement."""
        for version, first, last in _spans(addresses):
            for each in self._ranges.get((name, receives), []):
                if each.version == version and each.first <= last and each.last >= first:
                    packet = _breaking(asked, each.open, denies)
                    if packet:
                        number = max(first, each.first)
                        return version, number, each.text if number == each.first else _address(version, number), packet
        return None


def _breaking(asked: Open, opened: Open, denies: bool) -> Optional[str]:
    """The first of the asked ports that breaks the statement, as np writes it."""
    for protocol, wanted, there in zip(_PROTOCOLS, asked, opened):
        port = (wanted & there if denies else wanted - there).least()
        if port is not None:
            return "%s %d : %s" % (protocol, port, "Allow" if denies else "Deny")
    return None


@lru_cache(maxsize=None)
def _open(text: str) -> Open:
    ports = dict(read_connections(text))
    return tuple(ports.get(protocol, _NOTHING) for protocol in _PROTOCOLS)


def _range(text: str, connections: str) -> Range:
    first, _, last = text.partition("-")
    version, least, greatest = _numbers(first, last or first)
    return Range(version, least, greatest, first, _open(connections))


@lru_cache(maxsize=None)
def _numbers(first: str, last: str) -> Tuple[int, int, int]:
    least = ipaddress.ip_address(first)
    return least.version, int(least), int(ipaddress.ip_address(last))


@lru_cache(maxsize=None)
def _spans(end: End) -> List[Tuple[int, int, int]]:
    """The addresses of an end, as ranges."""
    return list(_read_spans([*blocks.EVERYTHING] if end == ANY_ADDRESS else [end.text]))


def _read_spans(texts: List[str]) -> Iterator[Tuple[int, int, int]]:
    for text in texts:
        try:
            block = blocks.read(text)
        except ValueError:
            raise Unclear from None
        yield block.version, int(block[0]), int(block[-1])


def _address(version: int, number: int) -> str:
    """The text of an address, as np writes it."""
    address = ipaddress.IPv4Address(number) if version == 4 else ipaddress.IPv6Address(number)
    if address in _MAPPED:
        raise Unclear
    return str(address)
