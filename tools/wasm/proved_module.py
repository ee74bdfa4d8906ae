"""The LLVM module of the proved program, as the kit hands it to clang.

The kit lowers a whole proved program to one LLVM module, has its clang compile that, and keeps nothing of it. So the program is built once
more, over the libraries that the proof left, by a toolchain that is the kit's own but for clang: that is a script which keeps the module
and then calls the kit's clang on the same words. What it makes is linked, and has to be the proved program, byte for byte.
"""
from __future__ import annotations

import os
import shutil
import subprocess
import sys
from pathlib import Path
from typing import List, Sequence

sys.path.insert(0, str(Path(os.path.abspath(__file__)).parent.parent))

import sources  # noqa: E402

# What clang is in the toolchain that keeps the module: the module lies in the folder in which it is called.
_KEEPING_CLANG = """\
#!/bin/sh
[ ! -f module.bc ] || cp module.bc '%s' || exit 1
exec '%s' "$@"
"""


class Failed(Exception):
    """A step failed; the text says which, and what was said of it."""


def kit_folder() -> Path:
    """The folder of the kit whose command rt is on the path."""
    command = shutil.which("rt")
    if not command:
        raise Failed("this needs the Rattle kit (its command rt is not on the path)")
    return Path(os.path.realpath(command)).parent.parent


def run(words: Sequence[str], folder: Path) -> None:
    """Runs a command in a folder, at the least of priorities, and fails with what it says where it fails."""
    ended = subprocess.run(["nice", *words], cwd=folder, stdin=subprocess.DEVNULL, stdout=subprocess.PIPE, stderr=subprocess.STDOUT,
                           check=False)
    if ended.returncode:
        said = ended.stdout.decode("utf-8", "replace")[-2000:]
        raise Failed("%s ended with status %d:\n%s" % (Path(words[0]).name, ended.returncode, said))


def keeping_toolchain(kit: Path, folder: Path, module: Path) -> Path:
    """Makes in a new folder the kit's toolchain, whose clang keeps the module at that path besides."""
    (folder / "bin").mkdir(parents=True)
    (folder / "lib").symlink_to(kit / "toolchain" / "lib")
    for tool in (kit / "toolchain" / "bin").iterdir():
        if tool.name != "clang":
            (folder / "bin" / tool.name).symlink_to(tool)
    clang = folder / "bin" / "clang"
    clang.write_text(_KEEPING_CLANG % (module, kit / "toolchain" / "bin" / "clang"), encoding="utf-8")
    clang.chmod(0o755)
    return folder


def _library_words(repository: Path) -> List[str]:
    """What tells rattle where the libraries of the repository lie that np uses, and those below them."""
    line = next(line for line in sources.crate_lines(repository, comments=False) if line.split(":")[0].strip() == "np")
    words = ["--extern=%s=%s" % (name, _library(repository, name)) for name in line.partition(":")[2].split()]
    for name in sources.crates(repository):
        if name != "np":
            words += ["-L", "dependency=%s" % _library(repository, name).parent]
    return words


def _library(repository: Path, name: str) -> Path:
    return repository / "crates" / name / "out" / "rlib" / ("%s.rlib" % name)


def _build_words(kit: Path, repository: Path, toolchain: Path, made: Path) -> List[str]:
    """What makes rattle prove the crate np and compile the program, over the libraries that were proved."""
    return [str(kit / "bin" / "rattle"), "build", "--crate-name", "np", "src/main.rt",
            "--extern=std=%s" % (kit / "rlibs" / "std.rlib"), "-L", "dependency=%s" % (kit / "rlibs"), *_library_words(repository),
            "--antt-project", str(kit / "rattle" / "logic" / "antt-project.json"), "--logic-built", str(kit / "logic_built"),
            "--jobs", "2", "--links", "np=", "--toolchain", str(toolchain), "--backend", "llvm", "-o", str(made)]


def kept_module(kit: Path, repository: Path, room: Path) -> Path:
    """The module of the program that `rt ci` left in this repository, in bitcode. Fails where another program comes of it."""
    module, made, linked = room / "proved.bc", room / "np.o", room / "np"
    toolchain = keeping_toolchain(kit, room / "toolchain", module)
    crate = repository / "crates" / "np"
    run(_build_words(kit, repository, toolchain, made), crate)
    run([str(kit / "bin" / "rattle-link"), "--target", "x86_64-unknown-linux-gnu", "--toolchain", str(kit / "toolchain"), "-o", str(linked),
         str(made), str(kit / "c" / "libos_c.a"), str(kit / "c" / "liblibc_c.a")], room)
    if not module.exists():
        raise Failed("the kit's clang was given no module.bc")
    if linked.read_bytes() != (crate / "out" / "np").read_bytes():
        raise Failed("the module gives another program than %s" % (crate / "out" / "np"))
    return module
