"""The commands that ask about objects: each checks its words, gets the objects, and answers."""
from __future__ import annotations

import os
import re
from contextlib import suppress
from functools import cached_property
from pathlib import Path
from typing import TYPE_CHECKING, List, Optional

from plugin import left_out, said, snapshot, words as command_line
from plugin.caveats.beside import Beside
from plugin.children import Ended
from plugin.program import Program
from plugin.room import Room
from plugin.said import Stop, decoded, encoded, relay, say, step, write
from plugin.words import Words

if TYPE_CHECKING:
    from plugin.caveats.whole import Caveats

_UNKNOWN_END = re.compile(r"^error: UnknownEnd (.*)$", re.MULTILINE)
_FOREIGN_POLICY = re.compile(r"^error: item ([0-9]+): kind: ForeignPolicy$", re.MULTILINE)


def command_of(words: Words, program: Program) -> Command:
    """The command that the words name."""
    kinds = {"caveats": ListOfCaveats, "snapshot": Snapshot, "names": Names, "gate": Gate, "changes": Changes, "page": Page,
             "check": Check, "list": Rows}
    return kinds.get(words.command, Question)(words, program)


class Command:
    """A command that asks about objects."""

    def __init__(self, words: Words, program: Program) -> None:
        self.words = words
        self.program = program
        self.beside = Beside(left_out.of(words))

    def run(self) -> int:
        """Checks the words, gets the objects, and answers; returns the status."""
        self.check_words()
        if not self.words.list_file:
            from plugin import kubectl
            kubectl.find()
        with Room() as self.room:
            self.list = self._fetch()
            said.name_item, said.not_given = self._name_item, self.beside.left_out.counts
            try:
                return self.answer()
            except Stop as end:
                end.tell()  # as long as the list is there, whose items it may name
                return end.status

    def check_words(self) -> None:
        """Refuses words that the command does not take, before anything is asked for."""
        command_line.check_own(self.words)

    def answer(self) -> int:
        """Answers from the list; returns the status."""
        raise NotImplementedError

    def _name_item(self, number: int) -> Optional[str]:
        """The object that np counts so, as a person names it, and where it stands."""
        return self.manifests.name(number) if self.words.has_manifests else snapshot.name_item(self.list, number)

    @cached_property
    def caveats(self) -> Caveats:
        """The caveats of the list."""
        from plugin.caveats.whole import Caveats
        return Caveats(self.list, self.beside)

    def _fetch(self) -> Path:
        """The path of the list of objects."""
        if self.words.list_file:
            return snapshot.fetch_file(self.words.list_file, self.room, self.beside)
        if self.words.has_manifests:
            from plugin.manifests import Manifests
            self.manifests = Manifests(self.words, self.room, self.beside)
            self.manifests.fetch()
        else:
            from plugin import cluster
            cluster.fetch(self.words, self.room, self.beside)
        return self.room.path("list")


class Snapshot(Command):
    """Prints the list."""

    def answer(self) -> int:
        snapshot.print_list(self.list)
        return 0


class ListOfCaveats(Command):
    """Prints what there is about the list that bears on answers. np has to take it."""

    def answer(self) -> int:
        from plugin.caveats import told
        from plugin.gate import check
        relay(check.Check(self.program, self.room).ask([], self.list).said)
        text = "".join(line + "\n" for line in told.lines(self.caveats.all))
        write(encoded(text), "the caveats cannot be written")
        return 0


class Names(Command):
    """Prints the names of workloads or of pods. np has to take the list for either. Those of a cluster are kept too."""

    def answer(self) -> int:
        from plugin import names
        found = names.workloads(self.program, self.list)
        if self.words.own:
            found = names.pods(self.list, self.beside.left_out)
        text = names.text(found)
        if self.words.has_cluster:
            names.keep("pods" if self.words.own else "names", text)
        write(text, "the names cannot be written")
        return 0


class Gate(Command):
    """Judges statements."""

    def check_words(self) -> None:
        from plugin.gate.words import read_words
        self.gate_words = read_words(self.words.own)
        self.gate_words.takes_addresses_of_pods = self.words.takes_addresses_of_pods

    def answer(self) -> int:
        from plugin.caveats.statements import StatementCaveats
        from plugin.gate.run import run
        return run(self.gate_words, self.program, self.list, self.room, StatementCaveats(self.caveats))


class Changes(Command):
    """Says what opens and what closes between two states, each with objects of its own."""

    def run(self) -> int:
        from plugin.changes.run import run
        from plugin.changes.words import read_words
        return run(read_words(self.words), self.program)


class Page(Command):
    """Writes a page to look at."""

    def check_words(self) -> None:
        from plugin.page.words import read_words
        self.page_words = read_words(self.words.own)

    def answer(self) -> int:
        from plugin.caveats import told
        from plugin.page.whole import Request, write_page
        step("making the page")
        given = self.page_words
        caveats = [caveat for caveat in self.caveats.all
                   if not caveat.is_noted and not (given.controller and caveat.key == "controller-not-named")]
        source = self._title()
        request = Request(files=[str(self.list)], before=given.before, title=given.title or source, source=source, only=given.only,
                          commands=[(self._explain(), "")], caveats=caveats, controller=given.controller)
        status = write_page(self.program, self.room, request)
        told.tell(caveats)
        return status

    def _title(self) -> str:
        from plugin import source
        before = " ".join(map(os.path.basename, self.page_words.before))
        return source.title(self.words) + (" (changes since %s)" % before if before else "")

    def _explain(self) -> str:
        from plugin import source
        return source.command(self.words, "explain")


class Question(Command):
    """Has np answer, and says which caveats bear on the answer. Where np refuses a name or an object, more is said
    about that."""

    def check_words(self) -> None:
        self.program.check_words(self.words.command, self.words.own)

    def answer(self) -> int:
        self.refuse_addresses()
        step("asking np")
        ended = self.ask()
        if ended.status == 1:
            self._tell_nearest(ended)
            self._tell_foreign(ended)
        elif ended.status in (0, 5):
            self.tell_caveats()
        return ended.status

    def ask(self) -> Ended:
        """Has np answer."""
        with self.list.open("rb") as file:
            return self.program.answer([self.words.command, *self.words.own], stdin=file, meanwhile=self._find_caveats)

    def refuse_addresses(self) -> None:
        """Refuses addresses of listed pods where a pod is meant."""
        if self.words.command in ("explain", "evaluate") and not self.words.takes_addresses_of_pods:
            from plugin.caveats import questions
            questions.refuse_addresses(self.words, self.caveats, self.program)

    def _find_caveats(self) -> None:
        """Finds the caveats of the list, which np may still refuse: whatever is wrong with it is not said here."""
        with suppress(Exception):
            self.caveats.all  # kept there

    def tell_caveats(self) -> None:
        """Says which caveats bear on the answer."""
        from plugin.caveats import questions, told
        told.tell(questions.bearing(self.words, self.caveats))

    def _tell_nearest(self, ended: Ended) -> None:
        """Where np knew no workload or pod of a name, says the nearest of those that there are."""
        unknown = _UNKNOWN_END.findall(decoded(ended.said))
        if not unknown:
            return
        from plugin import names, nearest
        try:
            near = nearest.nearest(unknown[-1], self._names())
        except names.NoNames:
            return
        say("the nearest names: " + ", ".join(near) if near else "there are no such names in the list")

    def _names(self) -> List[str]:
        from plugin import names
        return names.pods(self.list, self.beside.left_out) if self.words.command == "evaluate" else names.workloads(self.program, self.list)

    def _tell_foreign(self, ended: Ended) -> None:
        """Where np refused an item of a manifest since it is a policy that it does not read, says of which kind it
        is."""
        refused = _FOREIGN_POLICY.search(decoded(ended.said))
        if refused and self.words.has_manifests:
            self.manifests.tell_foreign(int(refused.group(1)))


class Rows(Question):
    """Has np print its rows, of which filters may keep some."""

    def check_words(self) -> None:
        from plugin.rowfilter.words import read
        self.filters = read(self.words.own)
        self.program.check_words("list", self.filters.words_of_np if self.filters.is_any else self.words.own)

    def ask(self) -> Ended:
        if not self.filters.is_any:
            return super().ask()
        from plugin.rowfilter.run import run
        return run(self.filters, self.program, self.list)


class Check(Question):
    """Has np judge statements, which are read here too: they say which caveats bear on the answer."""

    def refuse_addresses(self) -> None:
        from plugin.caveats.asked import AskedStatements
        self.statements = AskedStatements(self.words.own, self.room, self.caveats)
        self.words.own = self.statements.words
        if not self.words.takes_addresses_of_pods:
            self.statements.refuse_addresses(self.program)

    def tell_caveats(self) -> None:
        from plugin.caveats import told
        told.tell(self.statements.bearing())
