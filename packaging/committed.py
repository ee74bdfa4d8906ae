"""What is packed: the files of a commit, and nothing else that lies in the folder."""
from __future__ import annotations

import os
import subprocess
from pathlib import Path
from typing import Optional

from said import run, stop


class Commit:
    """A commit of the repository whose top is given: that of the name, or the last one, HEAD, where nothing is changed since.

    It refuses a folder that is no repository, a tree with changes that are not committed where no commit is named, and a name of none.
    """

    def __init__(self, top: Path, name: Optional[str]) -> None:
        self._top = top
        # Within another repository, files that lie here would be packed as those of a commit of that one.
        if self._ask("rev-parse", "--show-toplevel") != str(top.resolve()):
            stop("%s is no repository of git, and only what is committed is packed" % top)
        if name is None and self._ask("status", "--porcelain") != "":
            stop("there are changes that are not committed, as git status shows: commit them, or name the commit to be packed "
                 "(--commit HEAD)")
        wanted = "HEAD" if name is None else name
        found = None if wanted.startswith("-") else self._ask("rev-parse", "--verify", "--quiet", wanted + "^{commit}")
        if not found:
            stop("there is no commit %s" % wanted)
        self.name = found

    def _ask(self, *words: str) -> Optional[str]:
        """What git answers; None where it fails, which it says itself."""
        ran = subprocess.run(["git", "-C", str(self._top), *words], stdin=subprocess.DEVNULL, stdout=subprocess.PIPE, check=False)
        return ran.stdout.decode("utf-8", "surrogateescape").strip() if ran.returncode == 0 else None

    def time(self) -> int:
        """The time of the commit, in seconds since 1970; SOURCE_DATE_EPOCH where that is set."""
        given = os.environ.get("SOURCE_DATE_EPOCH") or self._ask("show", "--no-patch", "--format=%ct", self.name)
        if not (given and given.isascii() and given.isdigit()):
            stop("there is no time to take: SOURCE_DATE_EPOCH is a number of seconds")
        return int(given)

    def unpack(self, folder: Path) -> None:
        """Puts the files of the commit into a new folder."""
        folder.mkdir()
        archive = folder.with_suffix(".tar")
        failure = "the files of the commit cannot be had"
        run(["git", "-C", self._top, "archive", "--format=tar", "--output", archive, self.name], failure)
        run(["tar", "-xf", archive, "--no-same-owner", "-C", folder], failure)
        archive.unlink()
