"""docs/proof/WRONG-BODIES.md: a line for each edit."""
from dataclasses import dataclass

from wrong import edits

DOCUMENT = edits.TOP / "docs" / "proof" / "WRONG-BODIES.md"
HEAD = """# Wrong programs that the prover refuses

`./prove --wrong-bodies` makes this page; do not edit it by hand. Each line is an edit: a change of a line or two of the code, with which
the crate must not be proved. "refused by" has the function and its goals that had no proof, as the prover names them: `returns..` is what
the function promises (`ensures`) at a return, behind `clause-` which clause of it; `F-requires` is what a call of F demands; `loop-I-init`
and `loop-I-preserved` are the invariant of the loop over I, at first and after a round; `overflow_..` is the range of a number.

The edit was put into a copy of the crate. The prover was given the functions that it touches (and the whole crate where these were proved
all the same), after it had proved the same functions without the edit, over the same libraries. So it is for the edit that the goals named
here have no proof.

{gate} of the {all} edits stand in crates/CRATE/must-fail, where `./prove` tries them each time; the others stand in
crates/CRATE/wrong-bodies, and are tried on demand, by `./prove --wrong-bodies` alone. "of" is a digest of the sources of the crate (src/,
specs/, proofs/) and of the edit with which the line was made: `./prove --wrong-bodies` tries again where it is another one, `./prove
--wrong-bodies --anew` tries all, which also sees what a change of a crate below would do. A case (cases/) or a test (crates/np_test_*)
refuses a program whose answer differs.
docs/proof/THEOREM.md names wrong programs that no edit shows.

"""
COLUMNS = ["crate", "edit", "a program that", "the gate tries it", "refused by", "case or test", "of"]
NOT_YET = "**not tried yet**"


@dataclass
class Line:
    """What is kept of a trial: what refused the edit, and the digest of what it was made of, or none where it has to be tried again."""

    refused_by: str = NOT_YET
    digest: str = ""


def cells(edit, line):
    gate = "yes" if edit.in_gate else "on demand"
    return [edit.crate, f"`{edit.name}`", edit.words(), gate, line.refused_by, edit.cases(), line.digest]


def text(every, lines):
    """The page, of all edits, with what is kept of each."""
    head = HEAD.format(gate=sum(it.in_gate for it in every), all=len(every))
    rows = [COLUMNS, ["---"] * len(COLUMNS), *(cells(it, lines.get((it.crate, it.name), Line())) for it in every)]
    return head + "".join(f"| {' | '.join(row)} |\n".replace("|  |", "| |").replace("|  |", "| |") for row in rows)


def read():
    """What the page keeps, by the crate and the name of the edit."""
    found = {}
    for line in DOCUMENT.read_text().split("\n") if DOCUMENT.is_file() else []:
        row = [it.strip() for it in line.strip("|").split("|")]
        if len(row) == len(COLUMNS) and row[1].startswith("`"):
            found[row[0], row[1].strip("`")] = Line(row[4], row[6])
    return found
