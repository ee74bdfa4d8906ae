#!/usr/bin/env python3
"""Compares `np` with the second program of this folder, to the byte, on cases that are made at random:
tools/second/compare.py [--program dist/np] [--lists 2000] [--others N] [--seed 1] [KIND..]

The second program was written from docs/proof/THEOREM.txt alone. Of each KIND of cases (all of them without a name) it makes as many as
--lists says of random lists and --others of each other kind (a tenth of --lists where it is not given), runs both programs on each, and
compares status, report and what is said on standard error. It prints how many cases of each kind it compared. It ends with status 1 at the
first case in which both differ, which it prints, with a folder that has the files to repeat it.

lists       random clusters, with a few changes in one of six
faults      a value of another type or spelling, or none, at each member of each kind of object in its turn
spellings   numbers, texts, addresses and blocks in random clusters, spelled otherwise
words       words of the command line that are out of place
statements  files of statements with spoilt lines
texts       JSON texts with a few bytes put in, left out or doubled
large       clusters of a few dozen objects; a quarter as many
limits      as large, as many and as deep as is read, and more

--second DIR takes the second program from another folder, as misreadings.py does.
"""
import argparse
import os
import random
import shlex
import shutil
import subprocess
import sys
import tempfile
import traceback
from collections import deque
from typing import Any, Deque, Dict, Iterable, Iterator, List, NamedTuple, Optional, Tuple

HERE = os.path.dirname(os.path.abspath(__file__))
# How many seconds np may take, also where it is np.wasm and a machine has much else to do, and on how many cases it runs at once.
TIMEOUT = 600
AT_ONCE = 3


class Found(NamedTuple):
    """What a program answered: its status, its report, and what it said on standard error."""
    status: int
    out: bytes
    err: bytes


class Running(NamedTuple):
    """A case that np runs on in a folder, with what the second program answers."""
    kind: str
    number: int
    case: Any
    folder: str
    process: "subprocess.Popen[bytes]"
    second: Found

    def found(self) -> Found:
        """What np answers, once it has ended."""
        try:
            out, err = self.process.communicate(timeout=TIMEOUT)
        except subprocess.TimeoutExpired:
            self.process.kill()
            out, err = self.process.communicate()
        return Found(self.process.returncode, out, err)


def start(np: str, words: List[str], folder: str) -> "subprocess.Popen[bytes]":
    """Starts np in a folder, whose file `stdin` it reads."""
    with open(os.path.join(folder, "stdin"), "rb") as stdin:
        return subprocess.Popen([np, *words], stdin=stdin, stdout=subprocess.PIPE, stderr=subprocess.PIPE, cwd=folder)


def write(folder: str, files: Dict[str, bytes], stdin: bytes) -> None:
    """Writes the files of a case into a folder, and no others."""
    for name in os.listdir(folder):
        os.unlink(os.path.join(folder, name))
    for name, data in [("stdin", stdin), *files.items()]:
        with open(os.path.join(folder, name), "wb") as file:
            file.write(data)


def second_answer(program: Any, case: Any) -> Found:
    """What the second program answers; where it breaks down, how."""
    held = {"./" + name: data for name, data in case.files.items()}
    held.update(case.files)
    held["-"] = case.stdin

    def source(name: str) -> bytes:
        if name not in held:
            raise OSError(name)
        return held[name]

    try:
        return Found(*program.run(case.words, source))
    except Exception:
        return Found(-1, b"", traceback.format_exc().encode())


def run_both(np: str, program: Any, cases: Iterable[Tuple[str, int, Any]], folders: List[str]) -> Iterator[Running]:
    """Both programs on each case; np runs on so many at once as there are folders."""
    running: Deque[Running] = deque()
    for place, (kind, number, case) in enumerate(cases):
        folder = folders[place % len(folders)]
        if len(running) == len(folders):
            yield running.popleft()
        write(folder, case.files, case.stdin)
        process = start(np, case.words, folder)
        running.append(Running(kind, number, case, folder, process, second_answer(program, case)))
    yield from running


def turns(kinds: List[str], lists: int, others: int) -> Iterator[Tuple[str, int]]:
    """The kinds of the cases, mixed evenly, each with its number from 0."""
    counts = {kind: {"lists": lists, "large": others // 4, "limits": min(others, 40)}.get(kind, others) for kind in kinds}
    every = [((number + 0.5) / counts[kind], place, kind, number) for place, kind in enumerate(kinds) for number in range(counts[kind])]
    return ((kind, number) for _, _, kind, number in sorted(every))


def difference(one: Running) -> Optional[str]:
    """What differs first between two answers, if anything does."""
    np, second = one.found(), one.second
    if np == second:
        return None
    folder = tempfile.mkdtemp(prefix="second-")
    for name in os.listdir(one.folder):
        shutil.move(os.path.join(one.folder, name), os.path.join(folder, name))
    lines = ["cd %s && np %s < stdin" % (folder, shlex.join(one.case.words))]
    for what, own, other in zip(("status", "report", "standard error"), np, second):
        if own != other:
            lines += ["%s of np: %r" % (what, first_difference(own, other)),
                      "%s of the second program: %r" % (what, first_difference(other, own))]
    return "\n".join(lines)


def first_difference(one: object, other: object) -> object:
    """What one answer has where it differs from the other: of bytes the first line that differs, and what stands behind it."""
    if not isinstance(one, bytes) or not isinstance(other, bytes):
        return one
    same = os.path.commonprefix([one, other]).rfind(b"\n") + 1
    return one[same:same + 2000]


def cases_of(names: List[str], lists: int, others: int, seed: int) -> Iterator[Tuple[str, int, Any]]:
    """The cases of these kinds, each with its kind and its number."""
    import kinds
    for kind, number in turns(names or list(kinds.KINDS), lists, others):
        for case in kinds.KINDS[kind](random.Random("%s %d %d" % (kind, seed, number)), number):
            yield kind, number, case


def compare(np: str, cases: Iterable[Tuple[str, int, Any]], seed: int, folders: List[str]) -> int:
    """Compares both programs on cases, and answers the status."""
    from second import program
    done: Dict[str, int] = {}
    for total, one in enumerate(run_both(np, program, cases, folders), 1):
        done[one.kind] = done.get(one.kind, 0) + 1
        told = difference(one)
        if told is not None:
            print("they differ at case %d: %s, number %d, seed %d\n%s" % (total, one.kind, one.number, seed, told))
            return 1
        if total % 5000 == 0:
            print("so far: " + ", ".join("%s %d" % entry for entry in done.items()), file=sys.stderr, flush=True)
    print("\n".join("%s: %d cases, no difference" % entry for entry in done.items()))
    return 0


def main() -> int:
    """Does what the words of the command line ask for, and returns the status."""
    words = argparse.ArgumentParser(description=__doc__, formatter_class=argparse.RawDescriptionHelpFormatter)
    words.add_argument("--program", default=os.path.join(HERE, "..", "..", "dist", "np"))
    words.add_argument("--lists", type=int, default=2000)
    words.add_argument("--others", type=int)
    words.add_argument("--seed", type=int, default=1)
    words.add_argument("--second", default=HERE)
    words.add_argument("kinds", nargs="*", metavar="KIND")
    given = words.parse_args()
    np, second = os.path.abspath(given.program), os.path.abspath(given.second)
    sys.path[:1] = [HERE, os.path.dirname(second)]
    memory = "/dev/shm" if os.access("/dev/shm", os.W_OK) else None
    others = given.lists // 10 if given.others is None else given.others
    with tempfile.TemporaryDirectory(dir=memory) as room:
        folders = [os.path.join(room, str(number)) for number in range(AT_ONCE)]
        for folder in folders:
            os.mkdir(folder)
        return compare(np, cases_of(given.kinds, given.lists, others, given.seed), given.seed, folders)


if __name__ == "__main__":
    sys.exit(main())
