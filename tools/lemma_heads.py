#!/usr/bin/env python3
"""For which function each lemma file is, said at its head.

tools/lemma_heads.py --write    puts it there
tools/lemma_heads.py --check    says nothing where each head says it; else names the files, and ends with 1

A lemma file is a file of a crate's proofs/ that answers no goals of one function itself. Its head, the comment before its first line of
proof, ends with a sentence `For A, B and C.`: the functions of its crate whose proofs import it, or, where none does, the lemma files that
import it, and `crates above` where other crates do, whichever. Of more than three it names two, and says how many more there are. They may
come in any order, and `crates above` may be missing beside names: so no file has to change, and nothing has to be proved again, because one
far above it does. A head that says it is left as it is.
"""
from __future__ import annotations

import re
import sys
from collections import defaultdict
from pathlib import Path
from typing import Dict, List, NamedTuple, Set

TOP = Path(__file__).resolve().parent.parent
CRATES = TOP / "crates"
WIDTH = 140
IMPORT = re.compile(r"^(?:pub )?use Rattle\.(\w+)\.proofs\.([^\s{}]+?)(?:\.\{.*| as .*)?$", re.MULTILINE)
ONE = r"(?:`[^`]+`|crates above|\w+)"
SENTENCE = re.compile(rf"(?:^| )For {ONE}(?:(?:, {ONE})* and (?:{ONE}|\d+ more))?\.$")


class Proof(NamedTuple):
    """A file of proofs: its crate, and its place in proofs/ as an import names it."""

    crate: str
    place: str

    def is_lemmas(self) -> bool:
        """Whether it stands beside the folders of functions, and not in one."""
        return "." not in self.place

    def function(self) -> str:
        """The function whose goals it answers, as `Checker::check`."""
        return "::".join(part.strip("+«»") for part in self.place.split(".")[1:-1])


def read_proofs() -> Dict[Proof, Path]:
    """All files of proofs, but for the lists of modules."""
    found = {}
    for path in sorted(CRATES.glob("*/proofs/**/*.antt")):
        crate, _, *place = path.relative_to(CRATES).with_suffix("").parts
        if place[-1] != "Lib":
            found[Proof(crate, ".".join(place))] = path
    return found


def importers(proofs: Dict[Proof, Path]) -> Dict[Proof, Set[Proof]]:
    """For each file those that import it."""
    found: Dict[Proof, Set[Proof]] = defaultdict(set)
    for proof, path in proofs.items():
        for crate, place in IMPORT.findall(path.read_text(encoding="utf-8")):
            found[Proof(crate, place)].add(proof)
    return found


def users(proof: Proof, by: Set[Proof]) -> List[str]:
    """Who a lemma file is for: functions, or else lemma files, of its own crate, and crates above."""
    own = [one for one in sorted(by) if one.crate == proof.crate]
    functions = sorted({f"`{one.function()}`" for one in own if not one.is_lemmas()})
    return (functions or [one.place for one in own]) + ["crates above"] * (len(own) < len(by))


def sentence(words: List[str]) -> str:
    """`For A, B and C.`, or nothing for nobody."""
    if not words:
        return ""
    if len(words) > 3:
        words = words[:2] + [f"{len(words) - 2} more"]
    return "For " + " and ".join([*([", ".join(words[:-1])] if words[1:] else []), words[-1]]) + "."


def tells(said: str, words: List[str]) -> bool:
    """Whether a sentence names these, each once, or two of them and how many more there are."""
    names = re.findall(ONE, said[len("For "):].replace(" and ", ", "))
    more = re.search(r"(\d+) more\.$", said)
    named = [name for name in names if not re.fullmatch(r"\d+|more", name)]
    left = list(words)
    for name in named:
        if name not in left:
            return False
        left.remove(name)
    without = [word for word in left if word != "crates above" or not named]
    return len(left if more else without) == (int(more[1]) if more else 0)


def is_told(text: str, words: List[str]) -> bool:
    """Whether the head of a lemma file says for whom it is."""
    lines = text.split("\n")
    end = next(place for place, line in enumerate(lines) if not line.startswith("--"))
    found = SENTENCE.search(lines[end - 1].removeprefix("--")) if end else None
    return tells(found[0].strip(), words) if found else not words


def with_head(text: str, said: str) -> str:
    """The text of a lemma file, the sentence at the end of its head in place of an earlier one."""
    lines = text.split("\n")
    end = next(place for place, line in enumerate(lines) if not line.startswith("--"))
    head = [*lines[: max(end - 1, 0)], SENTENCE.sub("", lines[end - 1])] if end else []
    if head and head[-1] == "--":
        head.pop()
    if said and head and len(f"{head[-1]} {said}") <= WIDTH:
        head[-1] += f" {said}"
    elif said:
        head.append(f"-- {said}")
    return "\n".join(head + lines[end:])


def main(words: List[str]) -> int:
    if words not in (["--write"], ["--check"]):
        print("usage: tools/lemma_heads.py --write | --check", file=sys.stderr)
        return 2
    proofs = read_proofs()
    by, stale = importers(proofs), 0
    for proof, path in proofs.items():
        if not proof.is_lemmas():
            continue
        text, words_of = path.read_text(encoding="utf-8"), users(proof, by[proof])
        wanted = with_head(text, sentence(words_of))
        if text == wanted or is_told(text, words_of):
            continue
        stale += 1
        if words == ["--write"]:
            path.write_text(wanted, encoding="utf-8")
        else:
            print(f"{path.relative_to(TOP)}: its head does not say for which functions it is: tools/lemma_heads.py --write")
    return 1 if stale and words == ["--check"] else 0


if __name__ == "__main__":
    sys.exit(main(sys.argv[1:]))
