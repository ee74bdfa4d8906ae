"""What came of an edit: the goals that refused it, or what is wrong with it."""
import tempfile
from dataclasses import dataclass

from wrong import edits, places, prover

SHOWN = 3


@dataclass
class Outcome:
    """What a line of the table says of an edit. Of one that is refused these are the goals; of any other there is a fault."""

    refused_by: str = ""
    fault: str = ""


def shown(found):
    """The goals as the table has them: those of one function together, and of many the first alone."""
    texts = []
    for name, goals in found.items():
        more = f" and {len(goals) - SHOWN} more" if len(goals) > SHOWN else ""
        texts.append(f"`{name}: {', '.join(goals[:SHOWN])}`{more}")
    more = f", and of {len(texts) - SHOWN} more functions" if len(texts) > SHOWN else ""
    return ", ".join(texts[:SHOWN]) + more


def failed_goals(crate, ran):
    """The goals that had no proof, by the name of their function: those whose answer does not hold, and those that no search settled."""
    found = {}
    for answer in (prover.ANSWER.match(it) for it in ran.lines if not prover.NAMES.search(it)):
        if answer:
            found.setdefault(f"{crate}::{answer[1].replace('/', '::')}", []).append(answer[2])
    for name, goals in ran.unproved().items():
        found.setdefault(name, []).extend(goals)
    return {name: list(dict.fromkeys(goals)) for name, goals in found.items() if goals}


def judge(crate, ran):
    """The outcome of one run, or None where all that it asked for is proved."""
    if ran.status == 0:
        return None
    broken = ran.found(prover.COMPILE) or ran.found(prover.UNREAD)
    if broken:
        return Outcome(fault=f"does not compile: {broken.strip()[:160]}")
    found = failed_goals(crate, ran)
    if ran.status == 1 and found:
        return Outcome(refused_by=shown(found))
    why = ran.found(prover.LIMIT) or ran.found(prover.ERROR) or f"the prover ended with status {ran.status}"
    return Outcome(fault=f"refused by no goal: {why.strip()[:160]}")


class Crate:
    """The edits of one crate, tried one after another on one copy, so that what two of them leave alone is proved once."""

    def __init__(self, libraries, crate, room, changes):
        libraries.prepare(crate)
        self.copy, self.changes = prover.Copy(libraries, crate, room), changes
        self.names, self.is_proved = {}, False

    def run(self, names):
        return judge(self.copy.crate, self.copy.check(names))

    def choose_names(self):
        """Finds the functions that each edit touches, by names that the prover knows."""
        left = {edit: [self.candidates(path, line) for path, line in lines] for edit, (_, lines) in self.changes.items()}
        strange = True
        while strange:
            self.names = {edit: list(dict.fromkeys(it[0] for it in lists if it)) for edit, lists in left.items()}
            ran = self.copy.check(list(dict.fromkeys(name for names in self.names.values() for name in names)))
            said = ran.found(prover.NO_FUNCTION) if ran.status == prover.FITS_NOTHING else None
            strange = [it for lists in left.values() for it in lists if said and it and f"`{it[0]}`" in said]
            for it in strange:
                it.pop(0)
        self.must_be_proved(judge(self.copy.crate, ran))

    def candidates(self, path, line):
        return places.function_names(self.copy.crate, (self.copy.folder / path).read_text(), path, line)

    def must_be_proved(self, outcome):
        """Stops where the crate as it stands came to this: then nothing that refuses an edit would show anything."""
        if outcome:
            raise prover.CannotTry(f"the crate as it stands is not proved over these libraries: {outcome.refused_by or outcome.fault}")

    def attempt(self, edit):
        """The outcome of one edit, by the functions that it touches, or by the whole crate where these are proved with it."""
        were = self.copy.write(self.changes[edit][0])
        try:
            outcome = self.run(self.names[edit]) if self.names[edit] else None
            if outcome:
                return outcome
            outcome = self.run([])
        finally:
            self.copy.write(were)
        if outcome and not self.is_proved:
            self.must_be_proved(self.run([]))
            self.is_proved = True
        return outcome or Outcome(fault="NOT REFUSED: the crate is still proved with it")


def try_edits(libraries, crate, chosen, tell):
    """Tries the edits of a crate, and tells of each as it is done, with the digest of what was tried."""
    changes, digests = {}, {}
    for edit in chosen:
        try:
            changes[edit], digests[edit] = edits.applied(edit), edits.digest(edit)
        except edits.Defect as defect:
            tell(edit, Outcome(fault=str(defect)), "")
    if not changes:
        return
    left = list(changes)
    with tempfile.TemporaryDirectory(prefix="np-wrong-") as room:
        try:
            work = Crate(libraries, crate, room, changes)
            work.choose_names()
            while left:
                tell(left[0], work.attempt(left[0]), digests[left[0]])
                left.pop(0)
        except prover.CannotTry as why:
            for edit in left:
                tell(edit, Outcome(fault=f"not tried: {why}"), "")
