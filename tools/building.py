"""How the program np is proved and built from its sources, with the Rattle kit."""
from __future__ import annotations

import os
import re
import shutil
import subprocess
import sys
import tempfile
from pathlib import Path
from typing import IO, Callable, Dict, Optional

import interrupts
import sources

# What of a crate the prover looks at, but for must-fail: tests and edits are not tried here.
_PARTS = ["src", "specs", "proofs", "stdin", "stdout", "args", "status", "data"]

_DONE = re.compile(rb"rt: ([a-z0-9_]+) (?:proved|is kept)")
_NOT_DONE = re.compile(rb"rt: ([a-z0-9_]+) NOT PROVED")
_BAD = re.compile(rb"error|NOT PROVED|FAILED")


def say(text: str) -> None:
    """Says a text on a line of standard error."""
    _write_error((text + "\n").encode("utf-8", "surrogateescape"))


def _write_error(data: bytes) -> None:
    try:
        if sys.stderr is not None:
            sys.stderr.buffer.write(data)
            sys.stderr.buffer.flush()
    except OSError:
        pass  # there is no other place to say it


class _Progress:
    """Tells how far a proof is, a line a crate on standard error as each is done, from what `rt ci` prints of so many crates."""

    def __init__(self, total: int) -> None:
        self.total = total
        self.count = 0

    def look_at(self, line: bytes) -> None:
        done, not_done = _DONE.match(line), _NOT_DONE.match(line)
        if done:
            self.count += 1
            say("[%d/%d] %s" % (self.count, self.total, done.group(1).decode()))
        elif not_done:
            say("%s could not be proved" % not_done.group(1).decode())


def prove(folder: Path, total: int, copy: IO[bytes], environment: Optional[Dict[str, str]] = None) -> int:
    """Runs `rt ci` in a repository of so many crates, writes what it prints to the file `copy` too, and returns its status."""
    child = interrupts.start(["rt", "ci"], cwd=folder, env=environment, stdin=subprocess.DEVNULL, stdout=subprocess.PIPE,
                             stderr=subprocess.STDOUT)
    progress = _Progress(total)
    for line in child.stdout or []:
        copy.write(line)
        copy.flush()
        progress.look_at(line)
    return interrupts.wait(child)


def kit() -> str:
    """What the kit of this machine says that it is."""
    said = subprocess.run(["rt", "version"], stdin=subprocess.DEVNULL, stdout=subprocess.PIPE, check=True).stdout
    return said.strip().decode("utf-8", "surrogateescape")


def keep_stripped(program: Path, kept: Path) -> bool:
    """Keeps the program at the path `kept` without its symbols, which only a debugger asks for. What is loaded when it runs stays as the
    kit linked it. Returns whether that was done; where not, it is said why."""
    if not shutil.which("strip"):
        say("np: this needs the command strip (of Debian's package binutils)")
        return False
    return subprocess.run(["strip", "--strip-all", "-o", str(kept), str(program)], check=False).returncode == 0


def _copy_sources(top: Path, repository: Path) -> None:
    """Makes a repository of those crates alone that the program stands on."""
    (repository / "crates").mkdir(parents=True)
    lines = "".join(line + "\n" for line in sources.crate_lines(top, comments=True))
    (repository / "crates.txt").write_text(lines, encoding="utf-8", errors="surrogateescape")
    shutil.copy(top / "HANDLES", repository)
    for crate in sources.crates(top):
        (repository / "crates" / crate).mkdir()
        for part in _PARTS:
            old, new = top / "crates" / crate / part, repository / "crates" / crate / part
            if old.is_dir():
                shutil.copytree(old, new, symlinks=True, copy_function=shutil.copy)
            elif old.exists():
                shutil.copy(old, new)


def _keep_log(log: Path) -> None:
    """Keeps what the prover said, in a file of a new name: one of a fixed name might be a link that somebody else put there."""
    bad = [line for line in log.read_bytes().splitlines(keepends=True) if _BAD.search(line)]
    _write_error(b"".join(bad[:20]))
    say("np: the program was not built; ./prove tells why for the whole repository")
    number, kept = tempfile.mkstemp(prefix="np-build.", dir=os.environ.get("TMPDIR") or "/tmp")
    with open(number, "wb") as file:
        file.write(log.read_bytes())
    say("np: %s has what the prover said" % kept)


def build(top: Path, program: Path, use: Optional[Callable[[Path], None]] = None) -> bool:
    """Proves the crates of the program and builds it at the path `program`. Tests and edits are not tried: `./prove` does. Then the
    repository in which that was done is used, if so asked, before it goes. Returns whether the program was built; where not, it is said
    why."""
    if not shutil.which("rt"):
        say("np: the program has to be built from its sources, which needs the Rattle kit (its command rt is not on the path)")
        say("np: with the sources as they were released (git status shows what was changed) no kit is needed")
        return False
    total = len(sources.crates(top))
    with interrupts.temporary_folder() as room:
        repository, log = room / "repository", room / "log"
        say("np: proving %d crates and building the program; "
            "where nothing was proved before this may take three quarters of an hour on four cores" % total)
        _copy_sources(top, repository)
        environment = {name: value for name, value in os.environ.items() if name != "CI"}
        environment["TMPDIR"] = str(room)  # what a prover that is killed leaves there goes with the room
        with log.open("wb") as copy:
            status = prove(repository, total, copy, environment)
        built = repository / "crates" / "np" / "out" / "np"
        if status != 0 or not os.access(built, os.X_OK):
            _keep_log(log)
            return False
        shutil.copyfile(built, program)
        program.chmod(0o755)
        if use:
            use(repository)
    return True
