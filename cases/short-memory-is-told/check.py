"""Runs a program under every bound on memory in a range, and says what came of it: check.py PROGRAM

Of each run one of these must hold, and in this order as the bound grows:
- it did not start: the system killed it without a word, or its loader said with status 127 what it has no room for;
- it was told: nothing on standard output, `error: out of memory`, and status 4;
- it answered just as it does without a bound.
A line of a kind of bound and of some words names those that were seen. Anything else is told with its bound.
"""
from __future__ import annotations

import os
import resource
import signal
import subprocess
import sys
from typing import Callable, Dict, List, NamedTuple, Optional, Sequence

_PAGE = resource.getpagesize()

# The bounds by the letters that `ulimit` has for them.
_BOUNDS = {"v": resource.RLIMIT_AS, "d": resource.RLIMIT_DATA}

# What glibc's loader says when it has no room, before it hands the program the word.
_LOADER = (b"error while loading shared libraries: ", b"cannot allocate TLS data structures for initial thread\n")

_TOLD = b"error: out of memory\n"

# The order in which these come.
KILLED, LOADING, TOLD, ANSWERED = "killed at the start", "the loader says so", "error: out of memory", "answered"
_ORDER = [KILLED, LOADING, TOLD, ANSWERED]


class Said(NamedTuple):
    """What a run left."""

    status: int
    out: bytes
    err: bytes


class Call(NamedTuple):
    """Words of the program, the kinds of bounds that they are tried under, and whether standard output is closed."""

    name: str
    words: Sequence[str]
    kinds: Sequence[str] = ("v", "d")
    is_closed: bool = False


_CALLS = [
    Call("list", ["list", "examples/first.json"], ["v", "d", "vd"]),
    Call("help", ["--help"]),
    Call("a wrong word", ["lst"]),
    Call("a closed output", ["list", "examples/first.json"], is_closed=True),
    Call("a thousand words", ["list", *["-"] * 1000]),
    Call("a larger list", ["list", "examples/shop.json"]),
]


def _prepare(kinds: str, pages: Optional[int], is_closed: bool) -> Callable[[], None]:
    """What is done in the new process before the program takes its place."""
    def bound() -> None:
        if is_closed:
            os.close(1)
        if pages is not None:
            for kind in kinds:
                resource.setrlimit(_BOUNDS[kind], (pages * _PAGE, pages * _PAGE))
    return bound


def said_by(program: str, call: Call, kinds: str, pages: Optional[int]) -> Said:
    """What the program says to a call under a bound of so many pages."""
    ran = subprocess.run([program, *call.words], stdin=subprocess.DEVNULL, stdout=subprocess.PIPE, stderr=subprocess.PIPE, check=False,
                         preexec_fn=_prepare(kinds, pages, call.is_closed))
    return Said(ran.returncode, ran.stdout, ran.stderr)


def outcome(said: Said, answer: Said) -> str:
    """Which of the four it is; an empty text where it is none of them."""
    if said == answer:
        return ANSWERED
    if said == Said(4, b"", _TOLD):
        return TOLD
    if said.status == 127 and not said.out and any(text in said.err for text in _LOADER):
        return LOADING
    is_killed = said.status in (-signal.SIGSEGV, -signal.SIGKILL) and not said.out and not said.err
    return KILLED if is_killed else ""


class Tries:
    """A call under bounds of one kind; what came of each bound is kept."""

    def __init__(self, program: str, call: Call, kinds: str) -> None:
        self._program, self._call, self._kinds = program, call, kinds
        self._answer = said_by(program, call, "", None)
        self.seen: Dict[int, str] = {}
        self.faults: List[str] = []

    def at(self, pages: int) -> str:
        """What comes of this bound."""
        if pages not in self.seen:
            said = said_by(self._program, self._call, self._kinds, pages)
            self.seen[pages] = outcome(said, self._answer)
            if not self.seen[pages]:
                self.faults.append("%d kB: %s" % (pages * _PAGE // 1024, said))
        return self.seen[pages]

    def least(self, wanted: List[str], high: int = 1 << 15) -> int:
        """The least bound that gives one of these, if all above it do."""
        low = -1
        while high - low > 1:
            middle = (low + high) // 2
            low, high = (low, middle) if self.at(middle) in wanted else (middle, high)
        return high

    def sweep(self) -> None:
        """Tries all bounds near the least that starts and near the least that answers, and some from nothing up to there."""
        starts, answers = self.least([TOLD, ANSWERED]), self.least([ANSWERED])
        near = {edge + step for edge in (starts, answers) for step in range(-6, 7)}
        between = set(range(starts, answers, 1 + (answers - starts) // 20))
        for pages in sorted(near | between | set(range(0, starts, 1 + starts // 8))):
            if pages >= 0:
                self.at(pages)

    def line(self) -> str:
        """What was seen, in order of the bounds."""
        found = [self.seen[pages] for pages in sorted(self.seen)]
        if any(_ORDER.index(one) > _ORDER.index(next_one) for one, next_one in zip(found, found[1:]) if one and next_one):
            self.faults.append("a greater bound gave less")
        kinds = " ".join("-" + kind for kind in self._kinds)
        return "%s under %s: %s" % (self._call.name, kinds, ", ".join(one for one in _ORDER if one in found))


def main(program: str) -> None:
    """Tries each call under each kind of bound."""
    for call in _CALLS:
        for kinds in call.kinds:
            tries = Tries(program, call, kinds)
            tries.sweep()
            print("\n  ".join([tries.line(), *tries.faults]))


if __name__ == "__main__":
    main(sys.argv[1])
