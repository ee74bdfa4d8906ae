"""The files that the plugin has in it beside its modules, whether it runs from its one file or from the repository."""
from __future__ import annotations

import os
from pathlib import Path
from typing import cast

# The file kubectl-np, or the top of the repository, as Python names it: it knows the files in an archive by this very
# text.
_HOME = os.path.dirname(os.path.dirname(__file__))


def folder() -> Path:
    """The folder in which the plugin lies, links followed."""
    home = Path(_HOME).resolve()
    return home if home.is_dir() else home.parent


def is_packed() -> bool:
    """Whether the plugin runs from its one file."""
    return not os.path.isdir(_HOME)


def part(name: str) -> bytes:
    """The bytes of a file by its path from the top of the repository."""
    loader = globals()["__loader__"]
    return cast(bytes, loader.get_data(os.path.join(_HOME, *name.split("/"))))


def version() -> str:
    """The version of np, as VERSION has it."""
    return part("VERSION").decode().strip()
