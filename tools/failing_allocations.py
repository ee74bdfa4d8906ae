#!/usr/bin/env python3
"""Runs ./np on stored cases with each allocation failing in turn, and says where an answer is neither the case's nor want of memory.

failing_allocations.py [--program P] [CASE..]    the cases that are named, or those of CASES below

Of each run one of these must hold:
- the status and both outputs are those of the case: the program did without the memory, or asked for no such allocation;
- the status is 4, standard error has `error: out of memory` or a front of it, and standard output has a front of the case's text.
It needs gcc, which compiles the small library beside this script that refuses the allocations of the program as it stands. It is no part
of ./test or ./prove: a case takes as many runs as it has allocations.
"""
import argparse
import os
import subprocess
import sys
import tempfile

ROOT = os.path.dirname(os.path.dirname(os.path.abspath(__file__)))
FAULT = b"error: out of memory\n"

# One case of each command at least, and the larger ones of `list`, `explain` and the reading.
CASES = """
    first-example first-example-in-cidrs pass-leads-to-the-baseline pods-of-one-owner-told-apart ingress-to-a-named-port csv-with-commas
    json-from-one-workload explain-a-pass-and-the-baseline explain-two-pods-of-one-workload exposure-by-all-operators
    exposure-to-the-own-namespace csv-to-one-workload exposure-as-json evaluate-families-told-apart unused-in-each-tier
    check-holds check-violated check-line-of-another-system
    flatten-a-pass-and-the-baseline flatten-split sample-35 node-peer unknown-option
""".split()


def content(path):
    if not os.path.exists(path):
        return b""
    with open(path, "rb") as file:
        return file.read()


class Case:
    """A stored case: what is run, and what is wanted of it."""

    def __init__(self, name, program, room):
        folder = os.path.join(ROOT, "cases", name)
        if os.path.exists(os.path.join(folder, "run")) or not os.path.exists(os.path.join(folder, "words")):
            sys.exit(f"{name}: there is no such case, or it is no single run of the program")
        self.name, self.program, self.count = name, program, os.path.join(room, "count")
        self.words = [word for word in content(f"{folder}/words").decode().split("\n") if word]
        self.place = os.path.join(folder, "files") if os.path.isdir(f"{folder}/files") else folder
        self.stdin = content(f"{folder}/stdin")
        self.out, self.err = content(f"{folder}/stdout"), content(f"{folder}/stderr")
        self.status = int(content(f"{folder}/status") or b"0")

    def run(self, library, number):
        """Runs it with that allocation refused; the status, both outputs and how many were asked for."""
        env = {**os.environ, "LD_PRELOAD": library, "FAIL_AT": str(number), "COUNT_TO": self.count}
        ran = subprocess.run([self.program, *self.words], input=self.stdin, capture_output=True, cwd=self.place, env=env, timeout=60)
        return ran.returncode, ran.stdout, ran.stderr, int(content(self.count))

    def is_right(self, status, out, err):
        if (status, out, err) == (self.status, self.out, self.err):
            return True
        written = self.out if self.status in (0, 5) else b""
        return status == 4 and written.startswith(out) and FAULT.startswith(err)


def try_case(case, library):
    """Tries each allocation of a case; how many there are, how many runs wanted memory, and the faults."""
    status, out, err, total = case.run(library, 0)
    if (status, out, err) != (case.status, case.out, case.err):
        return total, 0, [f"{case.name}: differs before any allocation failed"]
    wants, faults = 0, []
    for number in range(1, total + 1):
        status, out, err, _ = case.run(library, number)
        wants += status == 4
        if not case.is_right(status, out, err):
            faults.append(f"{case.name}: allocation {number} of {total}: status {status}, {len(out)} bytes, says {err[:80]!r}")
    if not wants:
        faults.append(f"{case.name}: no allocation was missed: the program was run without the library")
    return total, wants, faults


def main():
    parser = argparse.ArgumentParser()
    parser.add_argument("--program", default=os.path.join(ROOT, "dist", "np"))
    parser.add_argument("cases", nargs="*", default=CASES)
    words = parser.parse_args()
    failed = 0
    with tempfile.TemporaryDirectory() as room:
        library = os.path.join(room, "failing_allocations.so")
        source = os.path.join(ROOT, "tools", "failing_allocations.c")
        subprocess.run(["gcc", "-shared", "-fPIC", "-O1", "-o", library, source, "-ldl"], check=True)
        for name in words.cases:
            total, wants, faults = try_case(Case(name, os.path.abspath(words.program), room), library)
            print(*faults, f"{name}: {total} allocations, {wants} answered by want of memory, {len(faults)} wrong", sep="\n", flush=True)
            failed += bool(faults)
    print(f"{len(words.cases) - failed} passed, {failed} failed")
    return 1 if failed else 0


if __name__ == "__main__":
    sys.exit(main())
