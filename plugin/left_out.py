"""The pods that a list does without, since np takes fewer objects than there are (`thinning`).

No row changes by them. What their numbers and names are needed for is done with what is known of them here: np's notes
count them, `names pods` has their names, and caveats are about their addresses.
"""
from __future__ import annotations

import json
from collections import Counter
from pathlib import Path
from typing import IO, Any, Callable, Dict, FrozenSet, Iterator, List, NamedTuple, TypeVar

from plugin import values
from plugin.words import Words, option

# The notes of np that count pods.
ON_HOST_NETWORK, FINISHED = "host network pods left out", "finished pods left out"
WITHOUT_ADDRESS = "pods without an address, matched by no networks peer"
_PHASES_AT_END = ("Succeeded", "Failed")

Of = TypeVar("Of")


class LeftOutPod(NamedTuple):
    """A pod that is left out: how many pods of the list stand before it, the first of the list that is like it, its name
    (both as `shop/web-1`) and its addresses."""

    before: int
    like: str
    name: str
    addresses: List[str]


class LeftOut:
    """What was left out of a list; nothing, as long as it was not thinned. `stays` are pods that the question names,
    which stay in the list; `is_index_asked` says that it may tell pods apart by their index."""

    def __init__(self, stays: FrozenSet[str] = frozenset(), is_index_asked: bool = False) -> None:
        self.stays = stays
        self.is_index_asked = is_index_asked
        self.counts: "Counter[str]" = Counter()  # by the note of np that counts such pods, empty where none does
        self._path = Path()

    @property
    def count(self) -> int:
        """How many pods were left out."""
        return sum(self.counts.values())

    def begin(self, path: Path) -> None:
        """Forgets what was left out, and has what follows in the file."""
        self._path = path
        self.counts.clear()

    def add(self, file: IO[bytes], pod: LeftOutPod, note: str) -> None:
        """Leaves out a pod, which is written to the file that is at that path; `note` is the note of np that would count it."""
        self.counts[note] += 1
        file.write(json.dumps(pod).encode("ascii") + b"\n")

    def merged(self, kept: List[Of], of: Callable[[LeftOutPod], Of]) -> Iterator[Of]:
        """What there is of each pod of the list, with what there is of those that were left out, in the order of all."""
        place = 0
        for pod in self._pods():
            yield from kept[place:pod.before]
            place = pod.before
            yield of(pod)
        yield from kept[place:]

    def _pods(self) -> Iterator[LeftOutPod]:
        if self.counts:
            with self._path.open("rb") as file:
                yield from (LeftOutPod(*json.loads(line)) for line in file)


def of(words: Words) -> LeftOut:
    """What is left out of a list that the words ask about: of `evaluate` no pod that they name, and of the gate none that
    a statement could name by its index."""
    named = [option(words.own, end) for end in ("--from", "--to")] if words.command == "evaluate" else []
    return LeftOut(frozenset(named), words.command == "gate")


def name_of(pod: Any) -> str:
    """The pod as `evaluate` takes it."""
    return "%s/%s" % (values.namespace_of(pod), values.name_of(pod))


def addresses_of(pod: Dict[str, Any]) -> List[str]:
    """The addresses of the pod, each once."""
    status = values.members(pod.get("status"))
    texts = [values.text(status.get("podIP")), *(values.text(each.get("ip")) for each in values.objects(status.get("podIPs")))]
    return list(dict.fromkeys(filter(None, texts)))


def is_end(pod: Any) -> bool:
    """Whether np has the pod as an end: it has a network of its own and is not finished."""
    return not note_of(pod)


def note_of(pod: Any) -> str:
    """The note of np that counts the pod, which is no end then; empty where there is none."""
    if values.members(pod.get("spec")).get("hostNetwork") is True:
        return ON_HOST_NETWORK
    return FINISHED if values.members(pod.get("status")).get("phase") in _PHASES_AT_END else ""
