"""Compares two tables, row by row in step: both have their rows in the order of the workloads' names."""
from __future__ import annotations

import socket
from typing import Dict, List, NamedTuple, Optional, Tuple

from plugin.changes.found import CLOSED, OPENED, Found, more
from plugin.changes.pairs import compare_pairs
from plugin.changes.rows import CONTROLLER, KINDS, NOTHING, Addresses, Kind, Range, Rows


def compare(before: Rows, after: Rows, found: Found) -> None:
    """Finds what opened and what closed between the two tables. A workload that one table does not have had, or has, nothing."""
    compare_pairs(before, after, found)
    _compare_addresses(before, after, found)
    _compare_ingresses(before.ingresses(), after.ingresses(), found)


# Rows of addresses.

def _compare_addresses(before: Rows, after: Rows, found: Found) -> None:
    old, new = before.addresses(), after.addresses()
    while old is not None or new is not None:
        is_old = new is None or (old is not None and old.workload <= new.workload)
        is_new = old is None or (new is not None and new.workload <= old.workload)
        _add_ranges(old if is_old else None, new if is_new else None, found)
        if old is not None and is_old:
            found.before.append(old.workload)
            old = before.addresses()
        if new is not None and is_new:
            found.after.append(new.workload)
            new = after.addresses()


class _Changed(NamedTuple):
    """A range in which the same changed."""

    first: bytes
    last: bytes
    opened: bytes
    closed: bytes


def _add_ranges(old: Optional[Addresses], new: Optional[Addresses], found: Found) -> None:
    either = new or old
    if either is None:
        return
    for kind in KINDS:
        was, now = _ranges(old, kind), _ranges(new, kind)
        if was == now:
            continue
        pieces = _cut(was or _nothing(now), now or _nothing(was))
        for direction, changed in ((OPENED, [(piece.first, piece.last, piece.opened) for piece in pieces]),
                                   (CLOSED, [(piece.first, piece.last, piece.closed) for piece in pieces])):
            for first, last, connections in _joined(changed):
                addresses = first if first == last else first + b"-" + last
                ends = (addresses, either.workload) if kind[0] else (either.workload, addresses)
                found.add(direction, *ends, b"", connections)


def _ranges(addresses: Optional[Addresses], kind: Kind) -> List[Range]:
    return addresses.ranges[kind] if addresses is not None else []


def _nothing(ranges: List[Range]) -> List[Range]:
    """The same addresses as those of the ranges, and that nothing passes."""
    return [Range(ranges[0].first, ranges[-1].last, NOTHING)]


def _cut(was: List[Range], now: List[Range]) -> List[_Changed]:
    """What changed, in pieces: the ranges are cut where either table cuts them. Both have all addresses."""
    pieces = []
    old_place, new_place = 0, 0
    first = was[0].first
    while old_place < len(was) and new_place < len(now):
        old, new = was[old_place], now[new_place]
        old_last, new_last = _number(old.last), _number(new.last)
        last = old.last if old_last <= new_last else new.last
        pieces.append(_Changed(first, last, more(new.connections, old.connections), more(old.connections, new.connections)))
        old_place += old_last <= new_last
        new_place += new_last <= old_last
        # The next piece begins where the table that ended its range here begins the next one.
        if old_last <= new_last and old_place < len(was):
            first = was[old_place].first
        elif new_place < len(now):
            first = now[new_place].first
    return pieces


def _number(address: bytes) -> bytes:
    """The address as bytes, which are in the order of the addresses of its family."""
    return socket.inet_pton(socket.AF_INET6 if b":" in address else socket.AF_INET, address.decode("ascii"))


def _joined(pieces: List[Tuple[bytes, bytes, bytes]]) -> List[Tuple[bytes, bytes, bytes]]:
    """The pieces in which something changed, neighbours joined where it is the same."""
    joined: List[Tuple[bytes, bytes, bytes]] = []
    for first, last, connections in pieces:
        if joined and joined[-1][2] == connections:
            joined[-1] = (joined[-1][0], last, connections)
        else:
            joined.append((first, last, connections))
    return [piece for piece in joined if piece[2]]


# Rows of Ingresses.

def _compare_ingresses(was: Dict[bytes, bytes], now: Dict[bytes, bytes], found: Found) -> None:
    for workload in sorted({*was, *now}):
        old, new = was.get(workload, NOTHING), now.get(workload, NOTHING)
        for direction, connections in ((OPENED, more(new, old)), (CLOSED, more(old, new))):
            if connections:
                found.add(direction, CONTROLLER, workload, b"", connections)
