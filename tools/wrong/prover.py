"""Runs the prover on a copy of a crate, over built libraries, and says what came of it.

A function of an edited copy is proved alone (`--only`), which gives no verdict on the crate. But a goal that has no proof there has none
in the whole crate either, so it shows that the crate is refused. Where the function is proved nothing is shown yet, and the whole copy
is tried.
"""
import os
import re
import shutil
import subprocess
from dataclasses import dataclass
from pathlib import Path

from wrong import edits

FITS_NOTHING = 2
FUNCTION = re.compile(r"^fn (\S+): (?:not proved|no proof|could not tell)(.*)")
ANSWER = re.compile(r"^(?:\./)?proofs/(\S+)/\w+\.antt:\d+:\d+: error: `([^`]+)`: ")
# What the compiler refuses, and a clause that cannot be read: neither is a goal.
COMPILE = re.compile(r"^(?:\S+ )?error\[[\w-]+\]")
UNREAD = re.compile(r"^(?:\./)?src/\S+ error: (?:[^`]|.*(?:is not in scope|has no field|is no name|expected the end|cannot continue))")
ERROR = re.compile(r"\berror\b")
NO_FUNCTION = re.compile(r"^rattle: error: .*`[^`]*`")
# A file of proofs that names what an edit took away: it says nothing of the contract.
NAMES = re.compile(r"has no field|is not in scope|has no `|was not admitted")
LIMIT = re.compile(r"antt ran out of|outgrew the memory limit|stopped at the step limit|^rattle: no verdict")


class CannotTry(Exception):
    """What keeps the edits of a crate from being tried; it says nothing of them."""


@dataclass
class Ran:
    """What the prover answered."""

    status: int
    lines: list

    def found(self, pattern):
        return next((it for it in self.lines if pattern.search(it)), None)

    def unproved(self):
        """The functions that are not proved, each with the goals that stand in its line."""
        found = (FUNCTION.match(it) for it in self.lines)
        return {it[1]: re.findall(r"`([^`]+)`", it[2].partition("did not prove")[2]) for it in found if it}


def kit():
    command = shutil.which("rt")
    if not command:
        raise SystemExit("wrong_bodies: this needs the Rattle kit (its command rt is not on the path)")
    return Path(command).resolve().parent.parent


class Libraries:
    """Where the built libraries are: in one folder that is given, or in out/ of each crate, where `rt check` keeps them."""

    def __init__(self, folder):
        self.kit, self.said, self.folder, self.used = kit(), folder, folder and Path(folder).resolve(), edits.crate_order()

    def below(self, crate):
        """The crates of the repository that a crate stands on, directly or not."""
        found = []
        for used in self.used[crate]:
            if used in self.used:
                found += [it for it in [*self.below(used), used] if it not in found]
        return found

    def path(self, crate):
        own = edits.TOP / "crates" / crate / "out" / "rlib"
        return (self.folder or own) / f"{crate}.rlib"

    def prepare(self, crate):
        """Sees that the libraries below a crate are there. In out/ rt builds what is missing or was changed, and proves no more."""
        if not self.folder and self.below(crate):
            made = subprocess.run(["rt", "check", "--only", ""], cwd=edits.TOP / "crates" / crate, stdin=subprocess.DEVNULL,
                                  stdout=subprocess.PIPE, stderr=subprocess.STDOUT, text=True, errors="replace", check=False)
            if made.returncode:
                raise CannotTry(f"rt could not build the libraries below: {made.stdout.strip().splitlines()[-1:]}")
        missing = [it for it in self.below(crate) if not self.path(it).is_dir()]
        if missing:
            raise CannotTry(f"no built library of {' '.join(missing)} in {self.said or 'crates/*/out/rlib'}")

    def command(self, crate, folder):
        """The prover's words for a copy of a crate, without the functions."""
        root = "src/main.rt" if (folder / "src" / "main.rt").is_file() else "src/lib.rt"
        words = [f"{self.kit}/bin/rattle", "check", "--crate-name", crate, root]
        for name in ["std", *self.used[crate]]:
            library = self.path(name) if name in self.used else f"{self.kit}/rlibs/{name}.rlib"
            words += ["--extern", f"{name}={library}"]
        for place in dict.fromkeys([f"{self.kit}/rlibs", *(str(self.path(it).parent) for it in self.below(crate))]):
            words += ["-L", f"dependency={place}"]
        return [*words, "--antt-project", f"{self.kit}/rattle/logic/antt-project.json", "--logic-built", f"{self.kit}/logic_built"]


def link_or_copy(one, other):
    """Gives what was proved a second name, as rt does: the prover replaces such a file, and never writes into it."""
    try:
        if one.endswith(".oantt"):
            return os.link(one, other)
    except OSError:
        pass
    return shutil.copy2(one, other)


class Copy:
    """A copy of a crate in a folder of its own, which keeps what was proved there from one run to the next, and begins with what `rt check`
    keeps of the crate."""

    def __init__(self, libraries, crate, room):
        self.libraries, self.crate, self.folder = libraries, crate, Path(room) / crate
        self.folder.mkdir()
        for part in edits.PARTS:
            if (edits.TOP / "crates" / crate / part).is_dir():
                shutil.copytree(edits.TOP / "crates" / crate / part, self.folder / part)
        self.kept, begin = self.folder / "kept", edits.TOP / "crates" / crate / "out" / "incremental"
        if begin.is_dir():
            shutil.copytree(begin, self.kept, symlinks=True, copy_function=link_or_copy)
        self.kept.mkdir(exist_ok=True)

    def write(self, texts):
        """Puts these texts in the place of the files' own, and gives what puts the own ones back."""
        were = {path: (self.folder / path).read_text() for path in texts}
        for path, text in texts.items():
            (self.folder / path).write_text(text)
        return were

    def check(self, functions):
        """Proves these functions alone, or the whole crate where there is none."""
        words = self.libraries.command(self.crate, self.folder) + ["--incremental", str(self.kept), "--jobs", "1"]
        for name in functions:
            words += ["--only", name]
        ran = subprocess.run(words, cwd=self.folder, stdin=subprocess.DEVNULL, stdout=subprocess.PIPE, stderr=subprocess.STDOUT,
                             text=True, errors="replace", check=False)
        return Ran(ran.returncode, ran.stdout.split("\n"))
