"""The statements that `check` is asked about, which bear on what is said beside its answer."""
from __future__ import annotations

from pathlib import Path
from typing import List, NoReturn, Tuple

from plugin import names
from plugin.caveats.caveat import Caveat
from plugin.caveats.objects import Address
from plugin.caveats.statements import StatementCaveats, names_of_workload
from plugin.caveats.whole import Caveats
from plugin.gate.grammar import cut
from plugin.program import Program
from plugin.room import Room
from plugin.said import decoded, stop
from plugin.snapshot import MOST

_OPTION = "--statement"


class AskedStatements:
    """The statements of a file. What is no regular file is read once, and np is given a copy: `words` names that.
    Where the file cannot be read there are none, and np says so."""

    def __init__(self, words: List[str], room: Room, caveats: Caveats) -> None:
        self.words = list(words)
        self._caveats = caveats
        self._of = StatementCaveats(caveats)
        self._statements = [(number, parts) for number, line in enumerate(self._read(room).split(b"\n"), 1)
                            for parts in (cut(decoded(line)),) if parts is not None]

    def refuse_addresses(self, program: Program) -> None:
        """Refuses a statement about an address that is that of a listed pod."""
        for number, parts in self._statements:
            found = self._of.pod_at(parts)
            if found is not None:
                _refuse(number, found, named(found[1], names.workloads(program, self._caveats.path)))

    def bearing(self) -> List[Caveat]:
        """The caveats that touch some statement, each once."""
        asked = [caveat for number, parts in self._statements for caveat in self._of.of(number, parts)]
        return list(dict.fromkeys(asked))

    def _read(self, room: Room) -> bytes:
        place = self._place()
        name = self.words[place].split("=", 1)[-1] if place >= 0 else "-"
        if name == "-":
            return b""
        try:
            with open(name, "rb") as file:
                data = file.read(MOST + 1)
        except OSError:
            return b""
        if not Path(name).is_file():
            copy = str(room.write("statements", data))
            self.words[place] = "%s=%s" % (_OPTION, copy) if "=" in self.words[place] else copy
        return data

    def _place(self) -> int:
        """Where the word stands that names the file, or -1."""
        for place, word in enumerate(self.words):
            if word.startswith(_OPTION + "="):
                return place
            if word == _OPTION and place + 1 < len(self.words):
                return place + 1
        return -1


def named(address: Address, listed: List[str]) -> str:
    """np's name for the workload of the pod at the address; several where its owner has some, of which one is the
    pod's."""
    return " or ".join("workload " + name for name in names_of_workload(address.pods.workload, listed))


def _refuse(number: int, found: Tuple[str, Address], name: str) -> NoReturn:
    text, address = found
    stop(2, "line %d: %s" % (number, of_pod(text, address, name)))


def of_pod(text: str, address: Address, name: str) -> str:
    """Why a statement is refused that is about the address of a pod."""
    return "%s is the address of pod %s, and np takes an address for an end outside the cluster; write %s (--as-address goes on)" % (
        text, address.pod, name)
