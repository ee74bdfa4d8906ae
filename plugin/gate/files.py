"""Files that reports are written to."""
from __future__ import annotations

import os
from pathlib import Path

from plugin.said import stop


def write_whole(name: str, data: bytes) -> None:
    """Writes a file whole or not at all: beside its place first. What is no file, as a pipe, is written into. Ends
    with status 3 where that is not possible."""
    try:
        place = Path(name)
        if place.exists() and not place.is_file():
            place.write_bytes(data)
        else:
            _write_beside(name, data)
    except OSError:
        stop(3, "cannot write %s" % name)


def _write_beside(name: str, data: bytes) -> None:
    new = Path("%s.%d" % (name, os.getpid()))
    try:
        new.write_bytes(data)
        new.replace(name)
    except OSError:
        _remove(new)
        raise


def _remove(path: Path) -> None:
    try:
        path.unlink()
    except OSError:
        pass  # it may not have come to be
