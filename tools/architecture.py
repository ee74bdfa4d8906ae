#!/usr/bin/env python3
"""The picture of the crates, made from crates.txt and from the comments at the heads of the crates.

tools/architecture.py            prints it
tools/architecture.py --write    puts it between the markers of docs/develop/ARCHITECTURE.md
tools/architecture.py --check    says nothing where it stands there exactly so; else says what to do, and ends with 1

A crate's layer is 0 where it stands on no crate of the project, and else one more than the highest layer among the crates that it
stands on. A crate's sentence is the first one of the comment at the head of its src/lib.rt (src/main.rt for the program). Beside
it stand the crates and libraries that it uses directly, without those that another one of these uses already, directly or not. What
the program does not stand on are laws, tests and what these share: they stand apart, in no layer.
"""
import re
import sys
import textwrap
from pathlib import Path

TOP = Path(__file__).resolve().parent.parent
DOCUMENT = TOP / "docs" / "develop" / "ARCHITECTURE.md"
BEGIN = "<!-- The picture begins here. tools/architecture.py --write makes it. -->"
END = "<!-- The picture ends here. -->"
WIDTH = 140
PROGRAM = "np"


def stop(fault):
    raise SystemExit(f"architecture: {fault}")


def read_crates():
    """What each crate uses, by its name: crates of the project and libraries, in the order of crates.txt."""
    uses = {}
    for line in (TOP / "crates.txt").read_text().split("\n"):
        line = line.split("#")[0].strip()
        if line:
            name, _, used = line.partition(":")
            uses[name.strip()] = used.split()
    folders = {path.name for path in (TOP / "crates").iterdir() if path.is_dir()}
    if folders != set(uses):
        stop(f"crates.txt and the folders of crates/ differ: {' '.join(sorted(folders ^ set(uses)))}")
    return uses


def reached(uses, name):
    """All that a crate uses, directly or not."""
    found, left = set(), list(uses.get(name, []))
    while left:
        used = left.pop()
        if used not in found:
            found.add(used)
            left += uses.get(used, [])
    return found


def layer_of(uses, name):
    return max((layer_of(uses, used) + 1 for used in uses[name] if used in uses), default=0)


def direct(uses, name):
    """What a crate uses, without what another one of these uses already."""
    implied = set().union(*(reached(uses, used) for used in uses[name]))
    return [used for used in uses[name] if used not in implied]


def first_sentence(name):
    """The first sentence of the comment at the head of a crate."""
    path = TOP / "crates" / name / "src" / ("main.rt" if name == PROGRAM else "lib.rt")
    lines = []
    for line in path.read_text().split("\n"):
        if not line.startswith("//!"):
            break
        lines.append(line[3:].strip())
    sentence = re.match(r".*?\.(?=\s|$)", " ".join(lines))
    if not sentence:
        stop(f"{path.relative_to(TOP)} has no sentence at its head")
    return sentence.group()


def item(uses, name):
    """The lines of a crate: its name, its sentence and what it stands on."""
    used = ", ".join(used if used in uses else f"`{used}`" for used in direct(uses, name))
    text = f"- **{name}**: {first_sentence(name)}" + (f" On {used}." if used else "")
    return textwrap.wrap(text, WIDTH, subsequent_indent="  ", break_long_words=False, break_on_hyphens=False)


def picture():
    """The lines of the picture: the layers, highest first, and then each crate, lowest first."""
    uses = read_crates()
    program = reached(uses, PROGRAM) | {PROGRAM}
    layers = {}
    for name in uses:
        if name in program:
            layers.setdefault(layer_of(uses, name), []).append(name)
    lines = ["```"]
    for number in sorted(layers, reverse=True):
        lines += textwrap.wrap(f"{number:2}  {'  '.join(layers[number])}", WIDTH, subsequent_indent="    ", drop_whitespace=True)
    lines.append("```")
    for number in sorted(layers):
        lines += ["", f"**Layer {number}**"]
        for name in layers[number]:
            lines += item(uses, name)
    lines += ["", "**Laws and tests, and what they share**"]
    for name in uses:
        if name not in program:
            lines += item(uses, name)
    return lines


def document_parts():
    """What stands before the picture in the document, the picture, and what stands behind it."""
    text = DOCUMENT.read_text()
    if text.count(BEGIN) != 1 or text.count(END) != 1:
        stop(f"{DOCUMENT.relative_to(TOP)} has not each of the two markers once")
    before, rest = text.split(BEGIN)
    drawn, behind = rest.split(END)
    return before, drawn, behind


def main(words):
    if words not in ([], ["--write"], ["--check"]):
        raise SystemExit(__doc__)
    made = "\n" + "\n".join(picture()) + "\n"
    if not words:
        print(made.strip("\n"))
        return
    before, drawn, behind = document_parts()
    if words == ["--write"]:
        DOCUMENT.write_text(before + BEGIN + made + END + behind)
    elif drawn != made:
        stop(f"the picture of {DOCUMENT.relative_to(TOP)} is not that of crates.txt and the crates: run tools/architecture.py --write")


main(sys.argv[1:])
