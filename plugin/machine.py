"""Which program this machine runs: np itself, or np.wasm in Node, which docs/use/INSTALL.md describes."""
from __future__ import annotations

import os
import sys
from pathlib import Path
from typing import List, Optional

from plugin import children
from plugin.said import stop

_NO_NODE = "np runs here as np.wasm, which needs Node 24 or later: there is no %s on the path (NP_NODE may have its path)"


def runs_np() -> bool:
    """Whether it is one for which the program np was built."""
    return sys.platform.startswith("linux") and os.uname().machine == "x86_64"


def program_beside(home: Path) -> Path:
    """The program in the folder of the plugin: np, or what runs np.wasm. In the repository np is a script, which chooses by
    itself; where a system runs no script without its interpreter, it is the one that Node runs."""
    if runs_np():
        return home / "np"
    if sys.platform != "win32":
        return home / ("np" if is_script(home / "np") else "np-wasm")
    return _first([home / "dist" / "np.mjs", home / ".." / "share" / "np" / "np.mjs"])


def is_for_node(program: Path) -> bool:
    """Whether it is a script that Node runs, which need not be executable."""
    return program.suffix == ".mjs"


def interpreter(program: Path) -> List[str]:
    """What stands before the program where the system does not run it by itself: Node before its script."""
    return [_node()] if is_for_node(program) else []


def check_node() -> None:
    """Refuses where there is no Node."""
    try:
        children.run([_node(), "--version"])
    except OSError:
        stop(3, _NO_NODE % _node())


def _node() -> str:
    return os.environ.get("NP_NODE") or "node"


def module(program: Path) -> Optional[Path]:
    """The file np.wasm that a program runs; None where it runs none."""
    if program.name not in ("np-wasm", "np.mjs"):
        return None
    home = program.parent
    found = _first([home / "np.wasm", home / "dist" / "np.wasm", home / ".." / "share" / "np" / "np.wasm"])
    if not found.is_file():
        stop(3, "there is no %s" % found)
    return found


def is_script(path: Path) -> bool:
    """Whether there is a file whose first line names what runs it."""
    try:
        with path.open("rb") as file:
            return file.read(2) == b"#!"
    except OSError:
        return False


def _first(paths: List[Path]) -> Path:
    """The first of the paths at which there is something, and else the last."""
    return next((path for path in paths if path.exists()), paths[-1])
