#!/usr/bin/env python3
"""The kept program dist/np: whether it was built from the sources that stand here, and what is run where it was not.

tools/program.py current          ends with status 0 where dist/np was built from the sources that stand here, and is as it was built
tools/program.py manifest PATH    prints the manifest of the program PATH, but for its first line, which names the kit
tools/program.py crates           prints the crates that the program stands on
tools/program.py build PATH       proves these crates, and builds the program at PATH
tools/program.py path             prints the path of the program that ./np runs, which is built first where it has to be
tools/program.py run WORD..       runs the program with these words: ./np calls it where it cannot tell by itself that dist/np is
                                  current
"""
from __future__ import annotations

import os
import sys
from pathlib import Path
from typing import List, NoReturn, Tuple

sys.dont_write_bytecode = True

import building  # noqa: E402
import interrupts  # noqa: E402
import sources  # noqa: E402

# The top of the repository in which this file is reached, which may be through a link to the folder.
TOP = Path(os.path.abspath(__file__)).parent.parent

_USAGE = "usage: tools/program.py current | manifest PATH | crates | build PATH | path | run WORD.."


def manifest(top: Path, program: Path) -> str:
    """The whole manifest but for its first line: the digest of the program, and those of its sources. Fails with OSError where one of
    these cannot be read."""
    return "\n".join(["program %s" % sources.digest(program.read_bytes()), *sources.digests(top)]) + "\n"


def is_of_sources(top: Path, program: Path, wanted: str) -> bool:
    """Whether the program may be executed, and its manifest is this one."""
    return program.is_file() and os.access(program, os.X_OK) and manifest(top, program) == wanted


def _kept_manifest(top: Path) -> Tuple[str, str]:
    """The first line of dist/manifest, and the rest of it. Fails with OSError where it cannot be read."""
    first, _, rest = (top / "dist" / "manifest").read_bytes().decode("utf-8", "surrogateescape").partition("\n")
    return first, rest


def kit(top: Path) -> str:
    """The kit with which dist/np was built. Fails with OSError where the manifest cannot be read."""
    return _kept_manifest(top)[0].partition(" ")[2]


def is_current(top: Path) -> bool:
    """Whether dist/np was built from the sources that stand here and is as it was built, with whichever kit."""
    try:
        return is_of_sources(top, top / "dist" / "np", _kept_manifest(top)[1])
    except OSError:
        return False


def _is_current_and_stamped(top: Path) -> bool:
    """is_current, and the stamp that ./np looks at the next time. The stamp's time is from before the digests are made, so that a change
    meanwhile is newer. Where .built cannot be written there is no stamp, and no word about it."""
    kept = top / ".built" / "stamp"
    try:
        kept.parent.mkdir(exist_ok=True)
        with interrupts.temporary_file(kept.parent, "stamp.") as stamp:
            current = is_current(top)
            if current:
                stamp.replace(kept)
            elif kept.exists():
                kept.unlink()
            return current
    except OSError:
        return is_current(top)


def _built_here(top: Path) -> Path:
    """The program that is built here, since dist/np is not of these sources. It is kept beside the digests of them, so that it is built
    once. Ends with status 3 where it cannot be built, which is said."""
    folder = top / ".built"
    program, kept, new = folder / "np", folder / "manifest", folder / "np.new"
    if kept.is_file() and is_of_sources(top, program, kept.read_text(encoding="utf-8", errors="surrogateescape")):
        return program
    folder.mkdir(exist_ok=True)
    building.say("np: dist/np was not built from these sources")
    with interrupts.temporary(new):
        if not building.build(top, new):
            sys.exit(3)
        new.replace(program)
    kept.write_text(manifest(top, program), encoding="utf-8", errors="surrogateescape")
    return program


def _runs_here() -> bool:
    """Whether this machine is one for which dist/np was built."""
    return sys.platform.startswith("linux") and os.uname().machine == "x86_64"


def is_translated(top: Path) -> bool:
    """Whether dist/np.wasm was made of dist/np, and is as it was made."""
    dist = top / "dist"
    wanted = {"%s %s" % (name, sources.digest((dist / file).read_bytes())) for name, file in (("wasm", "np.wasm"), ("program", "np"))}
    return wanted <= set((dist / "np.wasm.manifest").read_text(encoding="utf-8").split("\n"))


def _program(top: Path) -> Path:
    """The program that is of these sources: the kept one, or the one that is built here. On another machine than dist/np is for, what
    runs dist/np.wasm, where that is of these sources."""
    if _runs_here():
        return top / "dist" / "np" if _is_current_and_stamped(top) else _built_here(top)
    if not is_current(top):
        return _built_here(top)
    if not is_translated(top):
        building.say("np: dist/np.wasm was not made of dist/np: ./release makes it, on x86-64 Linux")
        sys.exit(3)
    return top / "np-wasm"


def _run(top: Path, words: List[str]) -> NoReturn:
    """Runs the program in the place of this one."""
    program = _program(top)
    try:
        os.execv(program, [str(program), *words])
    except OSError as error:
        building.say("np: %s cannot be run: %s" % (program, error.strerror))
        sys.exit(3)


def reason(error: Exception) -> str:
    """Why something failed, in the words of the system."""
    if isinstance(error, OSError) and error.strerror:
        return "%s: %s" % (error.filename, error.strerror) if error.filename else error.strerror
    return str(error)


def _obey(command: str, rest: List[str]) -> int:
    if command == "run":
        _run(TOP, rest)
    if (command, len(rest)) == ("path", 0):
        print(_program(TOP))
        return 0
    if (command, len(rest)) == ("current", 0):
        return 0 if is_current(TOP) else 1
    if (command, len(rest)) == ("crates", 0):
        print("\n".join(sources.crates(TOP)))
        return 0
    if (command, len(rest)) == ("manifest", 1):
        sys.stdout.write(manifest(TOP, Path(rest[0])))
        return 0
    if (command, len(rest)) == ("build", 1):
        return 0 if building.build(TOP, Path(rest[0])) else 3
    building.say(_USAGE)
    return 2


def main(words: List[str]) -> int:
    """Does what the words of the command line ask for, and returns the status."""
    interrupts.catch_signals()
    try:
        return _obey(words[0] if words else "", words[1:])
    except OSError as error:
        building.say("np: %s" % reason(error))
        return 3


if __name__ == "__main__":
    sys.exit(main(sys.argv[1:]))
