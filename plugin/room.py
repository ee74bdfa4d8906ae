"""The folder of the temporary files: nobody else may read it, and it is gone when the plugin ends, also by a signal."""
from __future__ import annotations

import os
from contextlib import contextmanager
from pathlib import Path
from types import TracebackType
from typing import IO, Iterator, Optional, Type

from plugin import children
from plugin.said import stop


class Room:
    """A folder that is there within a `with` block."""

    def __init__(self) -> None:
        place = os.environ.get("TMPDIR") or ("/tmp" if os.name == "posix" else os.environ.get("TEMP") or os.curdir)
        self._place = Path(os.path.abspath(place), "kubectl-np." + os.urandom(8).hex())
        try:
            self._place.mkdir(mode=0o700)
        except OSError:
            stop(3, "there is no room for temporary files in %s" % place)
        children.at_end(self.remove)

    def __enter__(self) -> "Room":
        return self

    def __exit__(self, _kind: Optional[Type[BaseException]], _error: Optional[BaseException], _trace: Optional[TracebackType]) -> None:
        self.remove()

    def remove(self) -> None:
        """Removes the folder and what is in it."""
        _remove(self._place)

    def path(self, name: str) -> Path:
        """The path of a file in the folder."""
        return self._place / name

    def folder(self, name: str) -> Path:
        """Makes a folder in the folder."""
        with self.writing():
            self.path(name).mkdir(mode=0o700)
        return self.path(name)

    def create(self, name: str) -> IO[bytes]:
        """Makes a file, or makes it empty, to be written."""
        return open(self.path(name), "wb", opener=_open_for_oneself)

    def write(self, name: str, data: bytes) -> Path:
        """Makes a file of these bytes, whole."""
        with self.writing(), self.create(name) as file:
            file.write(data)
        return self.path(name)

    @contextmanager
    def writing(self) -> Iterator[None]:
        """Ends with status 3 where a file of the folder cannot be written within the block."""
        try:
            yield
        except OSError:
            stop(3, "cannot write temporary files in %s" % self._place)


def _remove(folder: Path) -> None:
    try:
        for path in folder.iterdir():
            if path.is_dir():
                _remove(path)
            else:
                path.unlink()
        folder.rmdir()
    except OSError:
        pass  # it is gone, or its device is


def _open_for_oneself(path: str, flags: int) -> int:
    return os.open(path, flags, 0o600)
