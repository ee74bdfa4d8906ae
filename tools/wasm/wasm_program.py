#!/usr/bin/env python3
"""Makes dist/np.wasm, which is the proved program translated once more, for where there is no Linux.

tools/wasm/wasm_program.py                       makes it of the program that the kit proves of these sources, which has to be dist/np
tools/wasm/wasm_program.py --check               says with status 1 that dist/np.wasm is not of dist/np, of its C or of this tool
tools/wasm/wasm_program.py --trial MODULE PATH   makes PATH of some module, to try the tool chain: that is nothing to ship

np.wasm is NOT what was proved. Proved is the module of the program; here the kit's clang compiles it for wasm64, with the words that the
kit itself gives for that target, and the kit's rattle-link links it with heap.c and host.c of this folder, and with its own helpers.c for
numbers of 128 bits. All of these, and the host, are trusted; tools/wasm/compare.py tests them.
"""
from __future__ import annotations

import os
import re
import sys
from pathlib import Path
from typing import List

HERE = Path(os.path.abspath(__file__)).parent
TOP = HERE.parent.parent
sys.dont_write_bytecode = True
sys.path[:0] = [str(HERE), str(HERE.parent)]

import building  # noqa: E402
import interrupts  # noqa: E402
import sources  # noqa: E402
from proved_module import Failed, kept_module, kit_folder, run  # noqa: E402

_USAGE = "usage: tools/wasm/wasm_program.py [--check | --trial MODULE PATH]"

# What np.wasm is made of besides the program.
_PARTS = ["heap.c", "host.c", "wasm_program.py", "proved_module.py"]

# What the kit's rattle gives its clang for wasm64, and what its rattle-link gives for helpers.c.
_FOR_WASM = """
    --target=wasm64-unknown-unknown -mcpu=lime1 -mllvm -expand-div-rem-bits=64 -mllvm -expand-fp-convert-bits=64 -ffunction-sections
    -fdata-sections -mllvm -trap-unreachable -mllvm -no-x86-call-frame-opt -mllvm -disable-machine-licm -mllvm
    -disable-postra-machine-licm -mllvm -sink-common-insts=false --no-default-config -no-canonical-prefixes -fintegrated-cc1
    -fno-crash-diagnostics -Werror -c""".split()
_FOR_C = ["-O2", "-fwrapv", "-ffreestanding", "-nostdinc", "-Wall", "-x", "c"]

# What a module says of its target, and what those say that rattle makes for wasm64. The builtins are the functions of a C library that
# clang would call by itself, and that are not there. Of instructions the module names one of x86-64 alone, which shuffles 16 bytes: a place
# is the low four bits of a byte, and no place where its highest bit is set, which gives 0. WebAssembly's own gives 0 for places past 15.
_LAYOUT = "e-m:e-p:64:64-p10:8:8-p20:8:8-i64:64-i128:128-n32:64-S128-ni:1:10:20"
_EDITS = [
    (r'(?m)^target datalayout = ".*"$', 'target datalayout = "%s"' % _LAYOUT),
    (r'(?m)^target triple = ".*"$', 'target triple = "wasm64-unknown-unknown"'),
    (r'"target-cpu"="x86-64[^"]*"',
     '"no-builtin-bcmp" "no-builtin-memcmp" "no-builtin-strlen" "target-cpu"="lime1" "target-features"="+simd128"'),
    (r"@llvm\.x86\.ssse3\.pshuf\.b\.128", "@np.shuffled_bytes"),
    (r"(?m)^declare <16 x i8> @np\.shuffled_bytes\(.*$", """\
define internal <16 x i8> @np.shuffled_bytes(<16 x i8> %bytes, <16 x i8> %places) "target-cpu"="lime1" "target-features"="+simd128" {
  %within = and <16 x i8> %places, splat (i8 -113)
  %shuffled = call <16 x i8> @llvm.wasm.swizzle(<16 x i8> %bytes, <16 x i8> %within)
  ret <16 x i8> %shuffled
}
declare <16 x i8> @llvm.wasm.swizzle(<16 x i8>, <16 x i8>)"""),
]

# More than a run was seen to take: the least of natively is 84 kB (docs/use/INPUT.md).
_STACK = 8 << 20


def _retargeted(text: str) -> str:
    """A module in LLVM's text, for wasm64 in place of x86-64. One instruction is changed: that of x86-64 which shuffles bytes."""
    for pattern, new in _EDITS:
        text, count = re.subn(pattern, new, text)
        if not count:
            raise Failed("the module has nothing that looks like %s" % pattern)
    return text


def translate(kit: Path, module: Path, room: Path) -> bytes:
    """The module in bitcode, as WebAssembly, linked with what it asks of a system."""
    clang, text, program = str(kit / "toolchain" / "bin" / "clang"), room / "module.ll", room / "program.o"
    run([clang, "--target=x86_64-unknown-linux-gnu", "-x", "ir", str(module), "-S", "-emit-llvm", "-Xclang", "-disable-llvm-passes",
         "-o", str(text)], room)
    text.write_text(_retargeted(text.read_text(encoding="utf-8")), encoding="utf-8")
    run([clang, *_FOR_WASM, "-x", "ir", str(text), "-o", str(program), "-O3"], room)
    objects = [str(program)]
    for name in ("heap", "host"):
        objects.append(str(room / (name + ".o")))
        run([clang, *_FOR_WASM, *_FOR_C, str(HERE / (name + ".c")), "-o", objects[-1]], room)
    run([str(kit / "toolchain" / "bin" / "llvm-ar"), "rcs", "libnp.a", *objects], room)
    run([str(kit / "bin" / "rattle-link"), "--target", "wasm64-unknown-unknown", "--toolchain", str(kit / "toolchain"),
         "--stack", str(_STACK), "-o", "np.wasm", "libnp.a"], room)
    return (room / "np.wasm").read_bytes()


def _manifest(top: Path) -> List[str]:
    """The digests of np.wasm, of the program that it was made of, and of its other parts."""
    lines = ["wasm %s" % sources.digest((top / "dist" / "np.wasm").read_bytes()),
             "program %s" % sources.digest((top / "dist" / "np").read_bytes())]
    return lines + ["%s  tools/wasm/%s" % (sources.digest((top / "tools" / "wasm" / part).read_bytes()), part) for part in _PARTS]


def is_current(top: Path) -> bool:
    """Whether dist/np.wasm was made of dist/np by these parts, and is as it was made."""
    try:
        return (top / "dist" / "np.wasm.manifest").read_text(encoding="utf-8").split("\n")[1:-1] == _manifest(top)
    except OSError:
        return False


def renew(top: Path, repository: Path) -> None:
    """Makes dist/np.wasm and its manifest of the program that `rt ci` left in the repository, which is dist/np but for its symbols."""
    kit = kit_folder()
    with interrupts.temporary_folder() as room:
        if not building.keep_stripped(repository / "crates" / "np" / "out" / "np", room / "stripped"):
            raise Failed("the program was not stripped")
        if (room / "stripped").read_bytes() != (top / "dist" / "np").read_bytes():
            raise Failed("dist/np is not the program of these sources: run ./release")
        made = translate(kit, kept_module(kit, repository, room), room)
    (top / "dist" / "np.wasm").write_bytes(made)
    lines = ["kit %s" % building.kit(), *_manifest(top)]
    (top / "dist" / "np.wasm.manifest").write_text("\n".join(lines) + "\n", encoding="utf-8")


def _try(module: Path, made: Path) -> None:
    with interrupts.temporary_folder() as room:
        made.write_bytes(translate(kit_folder(), module, room))


def _renew_here() -> bool:
    """Proves the crates of the program, which takes seconds where that is kept, and makes np.wasm of it."""
    with interrupts.temporary_folder() as room:
        return building.build(TOP, room / "np", lambda repository: renew(TOP, repository))


def main(words: List[str]) -> int:
    """Does what the words of the command line ask for, and returns the status."""
    interrupts.catch_signals()
    try:
        if words == ["--check"]:
            if not is_current(TOP):
                building.say("dist/np.wasm is not current: run ./release, or tools/wasm/wasm_program.py where dist/np is current")
            return 0 if is_current(TOP) else 1
        if len(words) == 3 and words[0] == "--trial":
            _try(Path(words[1]).resolve(), Path(words[2]))
            return 0
        if words:
            building.say(_USAGE)
            return 2
        return 0 if _renew_here() else 1
    except Failed as failed:
        building.say("wasm: %s" % failed)
        return 1


if __name__ == "__main__":
    sys.exit(main(sys.argv[1:]))
