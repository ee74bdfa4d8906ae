"""What is said of caveats: a line each where all are asked for, and beside an answer a line for each kind."""
from __future__ import annotations

from collections import Counter
from typing import Iterable, List

from plugin.caveats.caveat import Caveat
from plugin.caveats.table import KINDS
from plugin.said import say, shown

# The kind that is about statements, and not about objects.
OF_STATEMENTS = "statement-block-holds-pods"


def lines(caveats: Iterable[Caveat]) -> List[str]:
    """A line for each."""
    return [shown(caveat.line()) for caveat in caveats]


def summary(caveats: Iterable[Caveat]) -> List[str]:
    """A line for each kind, in the order of the table."""
    counts = Counter(caveat.key for caveat in caveats)
    return ["caveat %s: %s%s" % (key, kind.line(counts[key]), "" if key == OF_STATEMENTS else " (kubectl np caveats lists them)")
            for key, kind in KINDS.items() if counts[key]]


def tell(caveats: Iterable[Caveat]) -> None:
    """Says of which kinds the caveats are, on standard error."""
    for line in summary(caveats):
        say(line)
