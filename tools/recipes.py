#!/usr/bin/env python3
"""The recipes of docs/use/RECIPES.md, for the cases whose names begin with recipe.

tools/recipes.py headings           prints the headings of the recipes, one a line
tools/recipes.py block HEADING N    prints a block under a heading: the first has the commands of a recipe, the second what they print
tools/recipes.py run HEADING        runs the recipe in this folder, in which what it names lies as it does at the top of the repository
                                    (examples/ is there for every case), and ends with its status; NP is the path of np
"""
from __future__ import annotations

import os
import subprocess
import sys
from pathlib import Path
from typing import List, NamedTuple

TOP = Path(os.path.abspath(__file__)).parent.parent

_USAGE = "usage: tools/recipes.py headings | block HEADING N | run HEADING"


class Recipe(NamedTuple):
    """A heading, and the fenced blocks that stand under it."""

    heading: str
    blocks: List[str]


def recipes(text: str) -> List[Recipe]:
    """The recipes of a page. What stands in a fenced block is no heading."""
    found: List[Recipe] = []
    is_fenced = False
    for line in text.split("\n"):
        if line.startswith("```"):
            is_fenced = not is_fenced
            if is_fenced and found:
                found[-1].blocks.append("")
        elif is_fenced and found:
            found[-1].blocks[-1] += line + "\n"
        elif line.startswith("## "):
            found.append(Recipe(line[len("## "):], []))
    return found


def block(heading: str, number: int) -> str:
    """The block of this number, from 1, under a heading; an empty text where there is none."""
    found = [block for recipe in read() if recipe.heading == heading for block in recipe.blocks]
    return found[number - 1] if 1 <= number <= len(found) else ""


def read() -> List[Recipe]:
    """The recipes of the repository."""
    return recipes((TOP / "docs" / "use" / "RECIPES.md").read_text(encoding="utf-8"))


def run(heading: str) -> int:
    """Runs the commands of a recipe in this folder, by bash, as who copies them does. Returns their status."""
    program = os.environ["NP"]
    Path("np").symlink_to(program)
    for name in ("tools", "kubectl-np"):
        Path(name).symlink_to(TOP / name)
    return subprocess.run(["bash", "-c", block(heading, 1)], env=dict(os.environ, KUBECTL_NP_PROGRAM=program), check=False).returncode


def main(words: List[str]) -> int:
    """Does what the words of the command line ask for, and returns the status."""
    if words == ["headings"]:
        print("\n".join(recipe.heading for recipe in read()))
    elif len(words) == 3 and words[0] == "block" and words[2].isdigit():
        sys.stdout.write(block(words[1], int(words[2])))
    elif len(words) == 2 and words[0] == "run":
        return run(words[1])
    else:
        print(_USAGE, file=sys.stderr)
        return 2
    return 0


if __name__ == "__main__":
    sys.exit(main(sys.argv[1:]))
