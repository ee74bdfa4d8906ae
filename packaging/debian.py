"""The package for Debian: the tree that the tarball has too, and what dpkg asks for."""
from __future__ import annotations

import hashlib
import os
import shutil
from pathlib import Path
from typing import List

import plugin_archive
from said import run

# Scripts of Debian run by its own Python and not by the first one on the path. A first line has room for one option alone.
_FIRST_LINE = b"#!/usr/bin/python3 -ISXutf8\n"


def set_times(folder: Path, time: int) -> None:
    """Gives all that is in a folder, and the folder, one time."""
    for path in (folder, *folder.rglob("*")):
        os.utime(path, (time, time), follow_symlinks=False)


class Package:
    """The package of a version, which is made in a new folder, of the files of a commit."""

    def __init__(self, source: Path, version: str, folder: Path) -> None:
        self._source = source
        self._version = version
        self._folder = folder

    def make(self, tree: Path, time: int, file: Path) -> None:
        """Makes the package of the tree as a file, with this time in it, in seconds since 1970."""
        shutil.copytree(tree, self._folder / "usr", symlinks=True)
        self._arrange_completion()
        self._name_python()
        self._write("usr/share/lintian/overrides/np", self._text("overrides"))
        self._write("DEBIAN/md5sums", self._digests())
        self._write("DEBIAN/control", self._text("control").replace("@VERSION@", self._version).replace("@SIZE@", str(self._size())))
        set_times(self._folder, time)
        environment = dict(os.environ, SOURCE_DATE_EPOCH=str(time), DPKG_DEB_THREADS_MAX="1")
        run(["dpkg-deb", "--root-owner-group", "-Zxz", "--build", self._folder, file], "the package was not made", env=environment)

    def _write(self, name: str, text: str) -> None:
        path = self._folder / name
        path.parent.mkdir(parents=True, exist_ok=True)
        path.write_text(text, encoding="utf-8")
        path.chmod(0o644)

    def _text(self, name: str) -> str:
        return (self._source / "packaging" / "deb" / name).read_text(encoding="utf-8")

    def _arrange_completion(self) -> None:
        """zsh of Debian looks for the completion of packages elsewhere than for that of /usr/local."""
        zsh = self._folder / "usr" / "share" / "zsh"
        (zsh / "site-functions").rename(zsh / "vendor-completions")

    def _name_python(self) -> None:
        programs = self._folder / "usr" / "bin"
        (programs / "kubectl-np").write_bytes(plugin_archive.archive(self._source, _FIRST_LINE))
        page = programs / "np-page"
        page.write_bytes(_FIRST_LINE + page.read_bytes().partition(b"\n")[2])

    def _contents(self) -> List[Path]:
        return list((self._folder / "usr").rglob("*"))

    def _size(self) -> int:
        """How many blocks of 1024 bytes the files take. Files count in whole blocks, and folders and links as one, so that the size does
        not depend on the file system."""
        is_file = [path.is_file() and not path.is_symlink() for path in self._contents()]
        sizes = [path.stat().st_size for path, counts in zip(self._contents(), is_file) if counts]
        return 1 + is_file.count(False) + sum((size + 1023) // 1024 for size in sizes)

    def _digests(self) -> str:
        files = [path for path in self._contents() if path.is_file() and not path.is_symlink()]
        lines = [(path.relative_to(self._folder).as_posix(), hashlib.md5(path.read_bytes()).hexdigest()) for path in files]
        return "".join("%s  %s\n" % (digest, name) for name, digest in sorted(lines))
