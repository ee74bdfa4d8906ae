"""The program np: where it is, whether it can be run, which version it is, and how it is asked."""
from __future__ import annotations

import os
import sys
from pathlib import Path
from typing import IO, Callable, List, Optional

from plugin import children, machine, parts
from plugin.said import Stop, decoded, encoded, relay, stop, write


# The status of a program whose reader ended early: it is no fault, and nothing is said. np says so itself, with a
# status of its own.
_CLOSED_PIPE = 141


class Program:
    """np, by its path: that of KUBECTL_NP_PROGRAM, or beside the plugin, links followed. Where np itself does not run, what stands
    beside the plugin runs np.wasm. `command` are the words that run it, before its own."""

    def __init__(self, given: Optional[str] = None) -> None:
        self.is_given = bool(given)
        self.name = given or str(machine.program_beside(parts.folder()))
        self.path = Path(os.path.abspath(self.name))
        self.command: List[children.Word] = [*machine.interpreter(self.path), self.path]

    def check(self) -> None:
        """Refuses a program that cannot be run, before anything is asked for."""
        problem = "KUBECTL_NP_PROGRAM names no program, %s" if self.is_given else "there is no program %s"
        if self.path.is_dir():
            stop(3, problem % self.name + ": it is a folder")
        elif not self.path.exists():
            stop(3, problem % self.name)
        elif machine.is_for_node(self.path):
            machine.check_node()
        elif not os.access(self.path, os.X_OK):
            stop(3, problem % self.name + ": it may not be executed")

    def run(self, words: List[str], stdin: Optional[IO[bytes]] = None, stdout: Optional[IO[bytes]] = None) -> children.Ended:
        """Runs np with the words, and returns what it wrote and said; its standard input is empty where none is
        given."""
        try:
            return children.run([*self.command, *words], stdin=stdin, stdout=stdout)
        except OSError as error:
            stop(3, "%s cannot be run: %s" % (self.name, error.strerror))

    def answer(self, words: List[str], stdin: Optional[IO[bytes]] = None, meanwhile: Optional[Callable[[], None]] = None) -> children.Ended:
        """Runs np with the words, which writes its answer to standard output; repeats what it said. `meanwhile` is done while it
        works."""
        try:
            ended = children.run_to_output([*self.command, *words], stdin, meanwhile)
        except OSError as error:
            stop(3, "%s cannot be run: %s" % (self.name, error.strerror))
        if ended.status == 3 and children.is_output_closed():
            raise SystemExit(_CLOSED_PIPE)
        relay(ended.said)
        return ended

    def behind_script(self) -> Path:
        """The program that is run, or the np.wasm that is. In the repository np is a script, which runs what is in dist/ where
        that was built from the sources that stand there, and else what it built itself."""
        module = machine.module(self.path)
        if module is not None:
            return module
        judge = self.path.parent / "tools" / "program.py"
        if not (judge.is_file() and machine.is_script(self.path)):
            return self.path
        if children.run([sys.executable or "python3", judge, "current"]).status == 0:
            return self.path.parent / "dist" / ("np" if machine.runs_np() else "np.wasm")
        built = self.path.parent / ".built" / "np"
        if not os.access(built, os.X_OK):
            stop(3, "%s has not built its program from the sources as they stand" % self.name)
        return built

    def print_version(self) -> None:
        """Prints the version, the program that is run, its digest, and its kit where that is known."""
        import hashlib
        program = self.behind_script()
        digest = hashlib.sha256(program.read_bytes()).hexdigest()
        lines = ["version %s" % parts.version(), "program %s" % program, "sha256 %s" % digest, *_kit_of(program)]
        if program.suffix == ".wasm":
            lines.append("translated by a compiler: it is not what was proved")
        write(encoded("\n".join(lines) + "\n"))

    def check_words(self, command: str, words: List[str]) -> None:
        """Has np look at the words of its command before any object is asked for: of an input without a byte it then
        says, with status 1, that it is no JSON. The statement file is not read here, since a pipe can be read
        once."""
        ended = self.run([command, *_without_statement_file(words)])
        if ended.status == 2:
            from plugin.wrong_words import wrong_word
            problem = wrong_word(command, words)
            if problem is not None:
                stop(2, "%s (kubectl np help %s)" % (problem, command))
        if ended.status != 1:
            raise Stop(ended.status, None, ended.said)


def _kit_of(program: Path) -> List[str]:
    """The first line of the manifest, which names the kit. In the repository the manifest lies beside the program,
    and where np is installed in ../share/np."""
    for manifest in (program.parent / "manifest", program.parent / ".." / "share" / "np" / "manifest"):
        if manifest.is_file():
            return [decoded(manifest.read_bytes().split(b"\n")[0])]
    return []


def _without_statement_file(words: List[str]) -> List[str]:
    tried: List[str] = []
    for word in words:
        if tried and tried[-1] == "--statement" and word != "-":
            word = os.devnull
        elif word.startswith("--statement=") and word not in ("--statement=", "--statement=-"):
            word = "--statement=" + os.devnull
        tried.append(word)
    return tried
