#!/usr/bin/env python3
"""docs/proof/THEOREM.txt: the contracts of answer and np_main with every definition that they reach, for an auditor to read from top to
bottom.

tools/theorem_text.py            prints how much there is to read, part by part
tools/theorem_text.py --write    writes the document
tools/theorem_text.py --check    says nothing where the document is that of the sources; else says what to do, and ends with 1

Names are followed from the contract through the definitions (crates/*/specs) and the types of the code (crates/*/src). A name that is
neither of these, nor bound where it stands, nor of the kit, is refused, and so is a definition that would stand before one that it
needs. What is said of the kit's names is read from the kit where there is one. `--check` takes that from the document as it stands, so
that it needs no kit.
"""
import sys

sys.dont_write_bytecode = True

from theorem import kit, pages, project  # noqa: E402

DOCUMENT = project.TOP / "docs" / "proof" / "THEOREM.txt"


def main(words):
    if words not in ([], ["--write"], ["--check"]):
        raise SystemExit(__doc__)
    present = DOCUMENT.read_text() if DOCUMENT.is_file() else ""
    kept, sources = kit.kept_lines(present), kit.root() if words == ["--write"] else None

    def kit_line(module, name):
        return kit.look_up(sources, module, name) if sources else kit.kept_line(kept, module, name)

    document = pages.Document(kit_line)
    if not words:
        print("\n".join(document.table()))
        return
    made = "\n".join(document.lines()) + "\n"
    if words == ["--write"]:
        DOCUMENT.write_text(made)
    elif made != present:
        raise SystemExit("theorem_text: docs/proof/THEOREM.txt is not that of the sources: run tools/theorem_text.py --write")


main(sys.argv[1:])
