#!/usr/bin/env python3
"""How a program for Linux is protected against what somebody may make of a fault in it: tools/hardening.py PROGRAM

It prints a line for each protection: `yes`, `no`, or what there is of it. What is asked of the file is asked of readelf.
"""
from __future__ import annotations

import os
import re
import subprocess
import sys
from typing import Dict, List, NamedTuple, Tuple

_USAGE = "usage: tools/hardening.py PROGRAM"

# A line of a table of readelf: a segment, by its type, its place in memory, its size there, and its flags.
_SEGMENT = re.compile(r"^  ([A-Z_]+) +0x\w+ 0x(\w+) 0x\w+ 0x\w+ 0x(\w+) ([R ][W ][E ]) ", re.MULTILINE)
_SECTION = re.compile(r"^ +\[ *\d+\] (\S+) +\w+ +(\w+) \w+ (\w+) ", re.MULTILINE)
_IMPORT = re.compile(r" UND ([^@\s]+)", re.MULTILINE)


class Segment(NamedTuple):
    """A segment of a program."""

    kind: str
    begin: int
    end: int
    flags: str


class Program:
    """What readelf says of a program."""

    def __init__(self, path: str) -> None:
        self.head = _asked(["-h"], path)
        self.segments = [Segment(kind, int(begin, 16), int(begin, 16) + int(size, 16), flags.replace(" ", ""))
                         for kind, begin, size, flags in _SEGMENT.findall(_asked(["-l"], path))]
        self.dynamic = _asked(["-d"], path)
        self.notes = _asked(["-n"], path)
        self.imports = _IMPORT.findall(_asked(["--dyn-syms"], path))
        self.sections = {name: (int(begin, 16), int(begin, 16) + int(size, 16))
                         for name, begin, size in _SECTION.findall(_asked(["-S"], path))}

    def of_kind(self, kind: str) -> List[Segment]:
        """The segments of this type."""
        return [segment for segment in self.segments if segment.kind == kind]


def _asked(words: List[str], path: str) -> str:
    """What readelf prints of a file, in wide lines."""
    environment = {**os.environ, "LC_ALL": "C"}
    return subprocess.run(["readelf", "-W", *words, path], stdout=subprocess.PIPE, check=True, env=environment).stdout.decode()


def _is_movable(program: Program) -> bool:
    """Whether the system may load it anywhere (PIE)."""
    return "DYN (Position-Independent Executable file)" in program.head and bool(re.search(r"FLAGS_1.*\bPIE\b", program.dynamic))


def _is_stack_data(program: Program) -> bool:
    """Whether the stack is never executed (NX)."""
    stacks = program.of_kind("GNU_STACK")
    return bool(stacks) and all("E" not in segment.flags for segment in stacks)


def _is_code_fixed(program: Program) -> bool:
    """Whether nothing that is loaded can be both written and executed, and no code is changed while it is loaded."""
    return "TEXTREL" not in program.dynamic and not any({"W", "E"} <= set(segment.flags) for segment in program.segments)


def _is_table_fixed(program: Program) -> bool:
    """Whether the addresses of the functions of libraries are found at the start, and cannot be written from then on (full RELRO)."""
    is_early = re.search(r"\(FLAGS\) +.*\bBIND_NOW\b", program.dynamic) or re.search(r"FLAGS_1.*\bNOW\b", program.dynamic)
    tables = [program.sections[name] for name in (".got", ".got.plt") if name in program.sections]
    return bool(is_early) and bool(tables) and all(
        any(fixed.begin <= begin and end <= fixed.end for fixed in program.of_kind("GNU_RELRO")) for begin, end in tables)


def _features(program: Program) -> str:
    """What the program says that its code is made for, of the processor's own protection of the flow of control (CET)."""
    found = re.findall(r"x86 feature: (.*)", program.notes)
    return ", ".join(found) or "no"


def _said(holds: bool) -> str:
    return "yes" if holds else "no"


def protections(program: Program) -> Dict[str, str]:
    """What there is of each protection."""
    checked = [name for name in program.imports if name.endswith("_chk") and name.startswith("__")]
    libraries = re.findall(r"\(NEEDED\).*\[(.*)\]", program.dynamic)
    rows: List[Tuple[str, str]] = [
        ("loaded anywhere (PIE)", _said(_is_movable(program))),
        ("stack not executable (NX)", _said(_is_stack_data(program))),
        ("nothing both writable and executable", _said(_is_code_fixed(program))),
        ("addresses of functions bound at the start, then fixed (full RELRO)", _said(_is_table_fixed(program))),
        ("libraries", ", ".join(libraries) or "none"),
        ("folders of libraries of its own", _said("RPATH" in program.dynamic or "RUNPATH" in program.dynamic)),
        ("guards of returns on the stack (stack protector)", _said("__stack_chk_fail" in program.imports)),
        ("calls of libc with checked lengths (FORTIFY)", ", ".join(checked) or "no"),
        ("marked for control-flow enforcement (IBT, SHSTK)", _features(program)),
    ]
    return dict(rows)


def main(words: List[str]) -> int:
    """Says it of the program that is named, and returns the status."""
    if len(words) != 1:
        print(_USAGE, file=sys.stderr)
        return 2
    try:
        found = protections(Program(words[0]))
    except (OSError, subprocess.CalledProcessError) as error:
        print("hardening: %s" % error, file=sys.stderr)
        return 1
    for name, what in found.items():
        print("%s: %s" % (name, what))
    return 0


if __name__ == "__main__":
    sys.exit(main(sys.argv[1:]))
