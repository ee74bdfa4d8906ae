#!/usr/bin/env python3
"""docs/proof/WRONG-BODIES.md: the wrong programs that are tried, and the goals that refuse them. `./prove --wrong-bodies` calls it.

tools/wrong_bodies.py [CRATE..]     tries the edits of these crates, or of all, and writes the page; it needs the kit
tools/wrong_bodies.py --stale       says which edits have a line that was not made of the sources as they stand; it needs no kit
tools/wrong_bodies.py --check       says nothing where the page has each edit, with a goal, and each edit can be put into its source; else
                                    what is wrong, and ends with 1. It needs no kit, and is a case

The edits are crates/CRATE/must-fail/*.edit, which the gate tries too, and crates/CRATE/wrong-bodies/*.edit, which it does not. A line of
the page is made anew only where the sources of its crate or the edit changed since. Flags of a run that tries edits:

--anew              tries those too of which nothing changed
--libraries DIR     takes the libraries of the crates below, NAME.rlib, from this folder: whoever gives it vouches that they are of the
                    sources as they stand. Without it they are those that `rt check` keeps in crates/*/out, and rt builds there what is
                    missing or was changed. The environment variable LIBRARIES says the same
--at-once N         works on so many crates at a time (1)

The status is 1 where an edit is still proved, where what refuses it is no goal of the prover (it cannot be put into its source, does not
compile, or meets a limit), or where it could not be tried; it is told by name, and its line says so until it is tried again.
"""
import argparse
import os
import sys
import threading
import time
from concurrent.futures import ThreadPoolExecutor

sys.dont_write_bytecode = True

from wrong import edits, prover, table, trials  # noqa: E402


def is_current(edit, line):
    try:
        return bool(line and line.digest and line.digest == edits.digest(edit))
    except edits.Defect:
        return False


class Page:
    """The page as trials renew it, one line after another, so that a run that is cut off keeps what it did. It is read anew before each
    line, since another run may try other crates at the same time."""

    def __init__(self, every):
        self.every, self.alone, self.faults, self.began = every, threading.Lock(), 0, time.monotonic()

    def write(self, new):
        table.DOCUMENT.write_text(table.text(self.every, {**table.read(), **new}))

    def put(self, edit, outcome, digest):
        said = outcome.refused_by or f"**{outcome.fault}**".replace("|", "/")
        with self.alone:
            self.faults += bool(outcome.fault)
            self.write({(edit.crate, edit.name): table.Line(said, "" if outcome.fault else digest)})
            print(f"[{time.monotonic() - self.began:.0f} s] {edit.label}: {said}", flush=True)


def try_all(words):
    every = edits.all_edits()
    lines = table.read()
    unknown = [it for it in words.crates if it not in edits.crate_order()]
    if unknown:
        raise SystemExit(f"wrong_bodies: crates.txt has no crate {unknown[0]}")
    left = {}
    for edit in every:
        if not words.crates or edit.crate in words.crates:
            if words.anew or not is_current(edit, lines.get((edit.crate, edit.name))):
                left.setdefault(edit.crate, []).append(edit)
    gate = sum(it.in_gate for it in every)
    print(f"wrong_bodies: {len(every)} edits, {gate} of them in the gate; to try: {sum(map(len, left.values()))}", flush=True)
    libraries, page = prover.Libraries(words.libraries), Page(every)
    page.write({})
    with ThreadPoolExecutor(words.at_once) as pool:
        list(pool.map(lambda crate: trials.try_edits(libraries, crate, left[crate], page.put), left))
    if page.faults:
        raise SystemExit(f"wrong_bodies: {page.faults} edits are not refused by a goal, as the lines above say")


def check():
    """What is wrong with the page or with an edit, as far as it shows without the kit."""
    every, lines = edits.all_edits(), table.read()
    for edit in every:
        try:
            edits.applied(edit)
        except edits.Defect as defect:
            yield f"{edit.label}: {defect}"
            continue
        missing = [it for it in edits.cases_of(edit) if not (edits.TOP / "cases" / it).is_dir()]
        yield from (f"{edit.label}: there is no case {it}" for it in missing)
        line = lines.get((edit.crate, edit.name))
        if not line or not line.digest:
            yield f"{edit.label}: no goal that refused it: run ./prove --wrong-bodies {edit.crate}"
    if not table.DOCUMENT.is_file() or table.text(every, lines) != table.DOCUMENT.read_text():
        yield "docs/proof/WRONG-BODIES.md is not that of the edits: run ./prove --wrong-bodies"


def stale():
    lines = table.read()
    return [it.label for it in edits.all_edits() if not is_current(it, lines.get((it.crate, it.name)))]


def main():
    words = argparse.ArgumentParser(usage=__doc__, add_help=False)
    words.add_argument("crates", nargs="*")
    for flag in ("--check", "--stale", "--anew", "--help"):
        words.add_argument(flag, action="store_true")
    words.add_argument("--libraries", default=os.environ.get("LIBRARIES"))
    words.add_argument("--at-once", type=int, default=1)
    words = words.parse_args()
    if words.help:
        print(__doc__)
    elif words.check:
        told = list(check())
        if told:
            raise SystemExit("\n".join(told))
    elif words.stale:
        for label in stale():
            print(label)
    else:
        try_all(words)


main()
