"""What each workload sends to each, and which workloads are equal.

The values of a workload, one for each that it may send to, are numbers of connections (0: nothing passes). They are
kept as the places where they change, since many that stand side by side are mostly sent the same. The place of the
workload itself is left open, since a workload of one pod has no row with itself.
"""
from __future__ import annotations

import os
from array import array
from itertools import accumulate
from typing import Dict, Iterator, List, Sequence, Tuple


class Sent:
    """What one workload sends, as its rows say it in their order."""

    def __init__(self, place: int) -> None:
        self.place = place
        self.own = 0
        self.before = 0  # the value before the open place
        self.last = -1
        self._value = 0
        self._changes = array("L")

    def see(self, to: int, value: int) -> None:
        """The next row has this value, and there is none for the places since the last one."""
        if to > self.last + 1:
            self.end(to)
        self.last = to
        if to == self.place:
            self.own = value
        elif value != self._value:
            self._change(to, value)

    def end(self, to: int) -> None:
        """There is no row between the last one and this place."""
        gap = self.last + 1
        if gap == self.place:
            gap += 1
        if gap < to and self._value:
            self._change(gap, 0)

    def _change(self, to: int, value: int) -> None:
        self._changes.append(to)
        self._changes.append(value)
        self._value = value
        if to < self.place:
            self.before = value

    def changes(self) -> Iterator[Tuple[int, int]]:
        """The places where the value changes, and the values there."""
        return zip(self._changes[::2], self._changes[1::2])

    def text(self, value: int, count: int) -> bytes:
        """The changes among so many workloads, with that value at the open place: `0:1 5:0` is 1 from place 0 on, 0
        from place 5 on."""
        values = {self.place: value, self.place + 1: self.before, **dict(self.changes())}
        written, last = [], 0
        for to, new in sorted(values.items()):
            if new != last and to < count:
                written.append(b"%d:%d" % (to, new))
                last = new
        return b" ".join(written)


class Matrix:
    """What all workloads send. The rows of one are read at a time.

    Which of them are equal is seen by two sums for each workload: of what it sends, and of what it is sent. In both
    each value counts as often as the weight of the workload at the other end says. The weights are random numbers of
    128 bits, so that different values have the same sum by a chance of one in 2 to the power of 128.
    """

    def __init__(self, count: int) -> None:
        self._count = count
        self.sent: List[Sent] = []  # of the workloads whose rows were all read
        self._open = Sent(0)
        self._weights = [int.from_bytes(os.urandom(16), "big") for _ in range(count)]
        self._weights_from = [*accumulate(reversed(self._weights), initial=0)][::-1]  # the sum from each place on
        self._sums_sent: List[int] = []
        self._steps = [0] * count  # by how much the sum of what is received differs from that of the workload before
        self._holders: Dict[int, List[int]] = {0: [*range(count)]}  # the workloads that send a value to another, by that value

    def sent_of(self, place: int) -> Sent:
        """What the workload at that place sends, to be told more; what those before it send is complete."""
        while self._open.place < place:
            self._end(self._open)
            self._open = Sent(self._open.place + 1)
        return self._open

    def _end(self, sent: Sent) -> None:
        sent.end(self._count)
        weight, total, value = self._weights[sent.place], 0, 0
        for to, new in sent.changes():
            step = new - value
            self._steps[to] += weight * step
            total += self._weights_from[to] * step
            value = new
        for value in {new for _, new in sent.changes() if new}:
            self._holders.setdefault(value, []).append(sent.place)
        self._sums_sent.append(total)
        self.sent.append(sent)

    def groups(self, others: Sequence[Tuple[int, ...]]) -> Tuple[List[int], List[int]]:
        """Of each workload the first one that is equal to it, and, where that is itself, the value between the
        workloads of its group.

        Two workloads are equal where they have the same rows with every third one, with themselves and with
        addresses, and the same row from one to the other as back. `others` has of each workload what must be the same
        besides the rows between workloads. That is an equivalence, and between two groups, or within one, all rows
        say the same. So a group has one value at its open places: each is tried.
        """
        self.sent_of(self._count)
        sums_received = [*accumulate(self._steps)]
        leaders, inner, is_joined = [*range(self._count)], [0] * self._count, [False] * self._count
        for value in sorted(self._holders):
            first: Dict[Tuple[int, ...], int] = {}
            for place in [place for place in self._holders[value] if not is_joined[place]]:
                sent = self.sent[place]
                more = self._weights[place] * (value - sent.before)
                key = (self._sums_sent[place] + more, sums_received[place] + more, sent.own, *others[place])
                leader = first.setdefault(key, place)
                if leader != place:
                    leaders[place], inner[leader] = leader, value
                    is_joined[leader] = is_joined[place] = True
        return leaders, inner
