#!/usr/bin/env python3
"""Holds `kubectl np gate` against np, over random files of statements for random small lists:

    tools/gated.py [--program dist/np] [--files 500] [--seed 1] [--wrong]

A plain line has to be answered as `np check` answers it where it stands alone. What a line of the gate's own means (only, pods, the
owner of several workloads, outside-namespace, ingress-controller) is worked out here from the rows of `np list --format json`, packet by
packet: for each two different pods, and each pod and each address at which what passes may change. The packet that is told has to be the
first that breaks the line, in np's order. It prints how many files and lines it tried, and how many of each answer there were, and ends
with status 1 at the first answer that is not as it should be, which it prints. With --wrong it spoils what the gate answers, in one way
after the other, and demands that each is noticed.
"""
from __future__ import annotations

import argparse
import json
import os
import random
import re
import subprocess
import sys
import tempfile
from collections import Counter
from pathlib import Path
from typing import Callable, Dict, Iterator, List, NamedTuple, Tuple

TOP = Path(os.path.abspath(__file__)).parent.parent
sys.path[:0] = [str(TOP / "tools" / "gated"), str(TOP / "tools" / "relations")]
import answers  # noqa: E402
from answers import Broken, demand  # noqa: E402
from listed_pods import pods_of  # noqa: E402
from lists_with_owners import Item, random_list  # noqa: E402
from meaning import Fault, Statement  # noqa: E402
from passing import Table  # noqa: E402
from statement_files import is_plain, random_line  # noqa: E402


# ---- one file

class Gate:
    """The gate and np, asked over files in a folder."""

    def __init__(self, program: str) -> None:
        self.np = answers.Program(program)
        self._environment = dict(os.environ, KUBECTL_NP_PROGRAM=program)
        self._folder = tempfile.TemporaryDirectory()

    def ask(self, items: List[Item], lines: List[str], controller: str) -> Tuple[int, List[str]]:
        place = Path(self._folder.name)
        (place / "list").write_text(json.dumps({"apiVersion": "v1", "kind": "List", "items": items}), encoding="utf-8")
        (place / "statements").write_text("".join(line + "\n" for line in lines), encoding="utf-8")
        words = ["--list", str(place / "list"), "gate", "--as-address", *(["--controller", controller] if controller else [])]
        done = subprocess.run([str(TOP / "kubectl-np"), *words, str(place / "statements")], env=self._environment,
                              capture_output=True, text=True, check=False)
        demand("Traceback" not in done.stderr, done.stderr)
        return done.returncode, done.stdout.splitlines()


def parsed(said: str, number: int, line: str) -> Tuple[str, str]:
    """The state of a line that the gate printed, and what stands behind the statement."""
    said = re.sub(r" \[caveat: [^]]*\]$", "", said)
    head, _, rest = said.partition(": ")[2].partition(": ")
    demand(said.startswith("line %d: " % number) and rest.startswith(line), "another line: " + said)
    return head, rest[len(line):].partition(": ")[2]


def expected(line: str, table: Table, np: answers.Program, items: List[Item]) -> Tuple[str, str]:
    try:
        state, packet = Statement(line, table).answer()
    except Fault:
        return "error", ""
    if is_plain(line, table) and state != "error":
        status, said = np.run(["check"], items, statements=[line])
        wanted = (0, ["holds: 1"]) if state == "ok" else (5, ["line 1: " + packet])
        demand((status, said) == wanted, "np check says %s, and rows %s of %s" % (said, (state, packet), line))
    return state, packet


class File(NamedTuple):
    """A file of statements, what the gate said of it, and what there is to say of each line."""

    lines: List[str]
    status: int
    said: List[str]
    wanted: List[Tuple[str, str]]


def asked(gate: Gate, seed: int) -> File:
    rng = random.Random(seed)
    items = random_list(rng)
    controller = rng.choice(pods_of(items)).workload if rng.random() < 0.25 else ""
    named = ["--controller", controller] if controller else []
    rows, exposed = (json.loads("\n".join(gate.np.rows([command, "--format", "json", *words], items)))
                     for command, words in (("list", named), ("exposure", [])))
    table = Table(rows, exposed, items, controller)
    lines = [random_line(table, rng) for _ in range(rng.randrange(1, 25))]
    status, said = gate.ask(items, lines, controller)
    return File(lines, status, said, [expected(line, table, gate.np, items) for line in lines])


def compare(file: File, said: List[str]) -> Iterator[str]:
    """Demands that each line is answered as it should be; yields the states."""
    demand(len(said) == len(file.lines) + 1, "%d answers to %d lines" % (len(said) - 1, len(file.lines)))
    counts: Dict[str, int] = Counter()
    for number, (line, answer, wanted) in enumerate(zip(file.lines, said, file.wanted), 1):
        state, word = parsed(answer, number, line)
        found = state, word if state == "VIOLATED" else ""
        demand(found == wanted, "%s\n  the gate: %s %s\n  rows: %s %s" % (line, state, word, *wanted))
        counts[state] += 1
        yield "%s %s" % (line.split(" ")[0], state)
    status = 1 if counts["error"] + counts["unsure"] else 5 if counts["VIOLATED"] else 0
    demand(file.status == status, "status %d" % file.status)


def is_noticed(file: File, wrong: Callable[[List[str]], List[str]]) -> bool:
    try:
        list(compare(file, wrong(file.said)))
    except Broken:
        return True
    return False


# ---- answers that are wrong

def changing(pattern: str, by: str) -> Callable[[List[str]], List[str]]:
    return lambda lines: [re.sub(pattern, by, line) for line in lines]


WRONGS = {
    "a violated line is told to hold": changing(r"VIOLATED: (\S+ .* : .*?): \S+ => .*$", r"ok: \1"),
    "a line that holds is told to be violated": changing(r"ok: (.*)$", r"VIOLATED: \1: a => b : TCP 1 : Allow"),
    "an unsure line is told to hold": changing(r"unsure: (.*?): an Ingress.*$", r"ok: \1"),
    "an error is told to hold": changing(r"error: (.*?): no .*$", r"ok: \1"),
    "the packet has another port": changing(r" (TCP|UDP) ([0-9]+) : (Allow|Deny)$", r" \1 9\2 : \3"),
    "the packet comes from another sender": changing(r": [^ :]+ => (\S+(?: \(IPv.\))? : \S+ \d+ : \w+)$", r": ns/gone[Pod] => \1"),
    "only does not look at addresses": changing(r"VIOLATED: (only .* : .*?): [0-9a-f.:]+ => .*$", r"ok: \1"),
    "only does not look at Ingresses": changing(r"VIOLATED: (only .* : .*?): \{.*$", r"ok: \1"),
}


def notice(gate: Gate, first: int, files: int) -> int:
    """Demands that each way of being wrong is noticed in some file."""
    missed = dict(WRONGS)
    for seed in range(first, first + files):
        if not missed:
            break
        file = asked(gate, seed)
        missed = {name: wrong for name, wrong in missed.items() if not is_noticed(file, wrong)}
    for name in missed:
        print("not noticed: " + name)
    print("%d of %d wrong gates noticed" % (len(WRONGS) - len(missed), len(WRONGS)))
    return 1 if missed else 0


def main() -> int:
    parser = argparse.ArgumentParser()
    parser.add_argument("--program", default=str(TOP / "dist" / "np"))
    parser.add_argument("--files", type=int, default=500)
    parser.add_argument("--seed", type=int, default=1)
    parser.add_argument("--wrong", action="store_true")
    parser.add_argument("--quiet", action="store_true", help="print how many files alone")
    given = parser.parse_args()
    gate, counts = Gate(given.program), Counter()  # type: Gate, Dict[str, int]
    if given.wrong:
        return notice(gate, given.seed, given.files)
    for seed in range(given.seed, given.seed + given.files):
        try:
            file = asked(gate, seed)
            for state in compare(file, file.said):
                counts[state] += 1
        except Broken as fault:
            print("seed %d: %s" % (seed, fault))
            return 1
    print("%d files" % given.files)
    if not given.quiet:
        print("%d lines" % sum(counts.values()))
        for state, count in sorted(counts.items()):
            print("  %s: %d" % (state, count))
    return 0


if __name__ == "__main__":
    sys.exit(main())
