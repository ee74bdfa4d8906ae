#!/usr/bin/env python3
"""Makes dist/np.mjs, which runs np.wasm in Node: of the host that np.html has too, and of node.js of this folder.

tools/wasm/node_program.py            writes dist/np.mjs
tools/wasm/node_program.py --check    says with status 1 that dist/np.mjs is not what its parts give
"""
from __future__ import annotations

import os
import sys
from pathlib import Path
from typing import List

TOP = Path(os.path.abspath(__file__)).parent.parent.parent

_USAGE = "usage: tools/wasm/node_program.py [--check]"
_PARTS = ["page/ask/host.js", "tools/wasm/node.js"]
_HEAD = """\
// Made by tools/wasm/node_program.py of %s.
import { closeSync, openSync, readFileSync, readSync, writeSync } from 'node:fs';
""" % " and ".join(_PARTS)


def text(top: Path) -> str:
    """The program as its parts give it."""
    return _HEAD + "".join((top / part).read_text(encoding="utf-8") for part in _PARTS)


def is_current(top: Path) -> bool:
    """Whether dist/np.mjs is what its parts give."""
    try:
        return (top / "dist" / "np.mjs").read_text(encoding="utf-8") == text(top)
    except OSError:
        return False


def write(top: Path) -> None:
    """Writes dist/np.mjs."""
    (top / "dist" / "np.mjs").write_text(text(top), encoding="utf-8")


def main(words: List[str]) -> int:
    """Does what the words of the command line ask for, and returns the status."""
    if words not in ([], ["--check"]):
        print(_USAGE, file=sys.stderr)
        return 2
    if not words:
        write(TOP)
    elif not is_current(TOP):
        print("dist/np.mjs is not current: run tools/wasm/node_program.py", file=sys.stderr)
        return 1
    return 0


if __name__ == "__main__":
    sys.exit(main(sys.argv[1:]))
