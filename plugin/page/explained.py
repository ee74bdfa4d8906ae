"""What np explain answers about many ends, in as few bytes as there may be."""
from __future__ import annotations

from typing import Dict, List

from plugin.page.texts import listed, quoted
from plugin.said import decoded

# What stands in a line for the end that sends, and for the one that receives: no line of np has such characters.
_SOURCE, _DESTINATION = b"\x01", b"\x02"


class Explained:
    """The answers, as detail.js of the page reads them.

    Most lines are alike but for the ends. So each line stands once, with marks for the ends; an answer is the numbers
    of its lines, and equal answers are one. An end is the number of a workload, or that of an address behind them.
    """

    def __init__(self, workloads: Dict[bytes, int]) -> None:
        self._ends_by_name = dict(workloads)
        self._count = len(workloads)
        self._lines: Dict[bytes, int] = {}
        self._answers: Dict[bytes, int] = {}
        self._asked: List[bytes] = []

    def add(self, source: bytes, destination: bytes, answer: bytes) -> None:
        """Adds the answer about two ends."""
        marked = answer.replace(source, _SOURCE).replace(destination, _DESTINATION).split(b"\n")[:-1]
        numbers = b" ".join(b"%d" % self._lines.setdefault(line, len(self._lines)) for line in marked)
        known = self._ends_by_name
        ends = [known.setdefault(end, len(known)) for end in (source, destination)]
        self._asked.append(b"%d,%d,%d" % (*ends, self._answers.setdefault(numbers, len(self._answers))))

    def json(self) -> bytes:
        """The answers, each line once."""
        return b'{"lines":%s,"answers":%s,"addresses":%s,"ends":%s}' % (
            listed(quoted(decoded(line)) for line in self._lines),
            listed(b'"%s"' % numbers for numbers in self._answers),
            listed(b'"%s"' % end for end in [*self._ends_by_name][self._count:]),
            listed(self._asked))
