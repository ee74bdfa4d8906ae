"""Compares the rows between workloads of two tables, in step: both have them in the order of the names, source first.

Most rows of large tables are the same, and are passed over without being looked at. Where the tables differ the rows are read some
at once: more where more of them differ.
"""
from __future__ import annotations

from typing import List, NamedTuple, Optional, Tuple

from plugin.changes.found import CLOSED, OPENED, Found, more
from plugin.changes.rows import IPV4, IPV6, NOTHING, Row, Rows

# How many bytes of rows are compared at once.
_FEWEST, _MOST = 1 << 12, 1 << 17


class Pair(NamedTuple):
    """What passes between two workloads, in each family. It is one row, or two that speak of one family each."""

    ends: Tuple[bytes, bytes]
    in_ipv4: bytes
    in_ipv6: bytes
    rows: int


def compare_pairs(before: Rows, after: Rows, found: Found) -> None:
    """Finds what opened and what closed between workloads."""
    size = _FEWEST
    while True:
        before.pass_alike(after)
        old, new = before.pairs(size), after.pairs(size)
        if not old and not new:
            return
        known = found.total()
        old_place, new_place = _compare(old, new, found)
        before.take_pairs(old[old_place:])
        after.take_pairs(new[new_place:])
        is_dense = 4 * (found.total() - known) > old_place + new_place
        size = min(2 * size, _MOST) if is_dense else _FEWEST


def _compare(old: List[Row], new: List[Row], found: Found) -> Tuple[int, int]:
    """Compares rows until either has no more of them, or all where one has none at all; returns how many of each."""
    here, there = 0, 0
    while here < len(old) and there < len(new):
        was, now = old[here], new[there]
        if was == now:
            here, there = here + 1, there + 1
        elif was[1] == now[1] and was[2] == now[2] and not was[1].endswith(b")"):
            _add_alike(was, now[0], was[0], found)
            here, there = here + 1, there + 1
        else:
            one, other = _pair(old, here), _pair(new, there)
            is_old, is_new = one.ends <= other.ends, other.ends <= one.ends
            _add(one if is_old else None, other if is_new else None, found)
            here, there = here + one.rows * is_old, there + other.rows * is_new
    if not new:
        here = _add_all(old, found, is_old=True)
    if not old:
        there = _add_all(new, found, is_old=False)
    return here, there


def _add_all(rows: List[Row], found: Found, is_old: bool) -> int:
    place = 0
    while place < len(rows):
        pair = _pair(rows, place)
        _add(pair if is_old else None, None if is_old else pair, found)
        place += pair.rows
    return place


def _pair(rows: List[Row], place: int) -> Pair:
    """What the row at the place says, with the one of the other family behind it."""
    connections, marked, source = rows[place]
    if not marked.endswith(b")"):
        return Pair((source, marked), connections, connections, 1)
    name = marked[:-len(IPV6)]
    if marked.endswith(IPV6):
        return Pair((source, name), NOTHING, connections, 1)
    if place + 1 < len(rows) and rows[place + 1][1:] == (name + IPV6, source):
        return Pair((source, name), connections, rows[place + 1][0], 2)
    return Pair((source, name), connections, NOTHING, 1)


def _add_alike(row: Row, now: bytes, was: bytes, found: Found) -> None:
    """Keeps what changed in both families alike."""
    opened, closed = more(now, was), more(was, now)
    if opened:
        found.add(OPENED, row[2], row[1], b"", opened)
    if closed:
        found.add(CLOSED, row[2], row[1], b"", closed)


def _add(old: Optional[Pair], new: Optional[Pair], found: Found) -> None:
    """Keeps what changed between two workloads: in each family by itself, unless it is the same."""
    source, destination = old.ends if old is not None else new.ends if new is not None else (b"", b"")
    was = (old.in_ipv4, old.in_ipv6) if old is not None else (NOTHING, NOTHING)
    now = (new.in_ipv4, new.in_ipv6) if new is not None else (NOTHING, NOTHING)
    for direction, to, away in ((OPENED, now, was), (CLOSED, was, now)):
        in_ipv4, in_ipv6 = more(to[0], away[0]), more(to[1], away[1])
        if in_ipv4 == in_ipv6:
            if in_ipv4:
                found.add(direction, source, destination, b"", in_ipv4)
            continue
        for family, connections in ((IPV4, in_ipv4), (IPV6, in_ipv6)):
            if connections:
                found.add(direction, source, destination, family, connections)
