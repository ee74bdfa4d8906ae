#!/usr/bin/env python3
"""Installs by apt-get the commands that stored cases need (cases/*/needs) and that are not on the path. Where all are there, it does
nothing. It is for the machine of the merge gate; elsewhere such cases are skipped.
"""
from __future__ import annotations

import os
import shutil
import subprocess
import sys
import time
from pathlib import Path
from typing import List

TOP = Path(__file__).resolve().parent.parent

# The packages of Debian whose names are not those of their commands.
_PACKAGES = {
    "/usr/bin/python3": "python3",
    "chromedriver": "chromium-driver",
    "dpkg-deb": "dpkg",
    "kubectl": "kubernetes-client",
    "man": "man-db",
    "musl-gcc": "musl-tools",
    "node": "nodejs",
    "strip": "binutils",
}

# The network may fail for a while: how many seconds there are before each try.
_PAUSES = [0, 5, 20]


def missing(top: Path) -> List[str]:
    """The commands that some case needs and that are not on the path, in the order of their names."""
    needed = {name for file in top.glob("cases/*/needs") for name in file.read_text(encoding="utf-8").split()}
    return sorted(name for name in needed if not shutil.which(name))


def install(commands: List[str]) -> None:
    """Tries to install the packages that have these commands. Whether it succeeded is seen by the commands."""
    packages = [_PACKAGES.get(command, command) for command in commands]
    retries = ["-o", "Acquire::Retries=3"]
    quiet = dict(os.environ, DEBIAN_FRONTEND="noninteractive")
    subprocess.run(["apt-get", "-qq", *retries, "update"], stdout=subprocess.DEVNULL, check=False)
    subprocess.run(["apt-get", "-qq", "-y", "--no-install-recommends", *retries, "install", *packages],
                   stdout=subprocess.DEVNULL, env=quiet, check=False)


def main() -> int:
    """Installs what is missing, and returns the status."""
    for pause in _PAUSES:
        commands = missing(TOP)
        if not commands:
            return 0
        time.sleep(pause)
        try:
            install(commands)
        except OSError as error:
            print("install_for_tests: apt-get cannot be run: %s" % error.strerror, file=sys.stderr)
            break
    commands = missing(TOP)
    if commands:
        print("install_for_tests: these commands could not be installed: %s" % " ".join(commands), file=sys.stderr)
    return 1 if commands else 0


if __name__ == "__main__":
    sys.exit(main())
