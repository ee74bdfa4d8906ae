#!/usr/bin/env python3
"""dist/np.cdx.json, the software bill of materials of dist/np and dist/np.wasm, in CycloneDX 1.6.

tools/bill_of_materials.py             writes it, once tools/ported_crates.txt was compared with the kit of this machine
tools/bill_of_materials.py --check     says with status 1 that it is not what its parts give; this needs no kit

It is made of dist/manifest, the digests of the two programs, crates.txt, VERSION with its day in CHANGELOG.md, and ported_crates.txt. The
same parts give the same bytes: its time is the day of the version, and its serial number is made of the rest.
"""
from __future__ import annotations

import json
import os
import re
import sys
import uuid
from pathlib import Path
from typing import Any, Dict, List, NamedTuple, Set, Tuple

HERE = Path(os.path.abspath(__file__)).parent
TOP = HERE.parent
sys.dont_write_bytecode = True
sys.path[:0] = [str(HERE), str(HERE / "wasm")]

import sources  # noqa: E402
from proved_module import Failed, kit_folder  # noqa: E402

_USAGE = "usage: tools/bill_of_materials.py [--check]"
_NAME = Path("dist") / "np.cdx.json"

# The crates of the kit's standard library, which belong to the kit itself.
_STANDARD = {"core", "std", "std_alloc", "std_collections", "std_heap", "std_io", "io", "os", "libc"}

# The oldest glibc that has all that dist/np asks for.
_GLIBC = "2.34"


class Ported(NamedTuple):
    """A crate of the kit: the Rust crates that it is after, with their versions, their licence, and the kit's crates that it uses."""

    name: str
    origins: List[Tuple[str, str]]
    licence: str
    below: List[str]


def ported_crates(top: Path) -> Dict[str, Ported]:
    """What ported_crates.txt says, by the names of the kit's crates."""
    found = {}
    for line in (top / "tools" / "ported_crates.txt").read_text(encoding="utf-8").splitlines():
        if not line.startswith("#"):
            name, origins, licence, below = (part.strip() for part in line.split("|"))
            pairs = [origin.rpartition(" ") for origin in origins.split(", ") if origin]
            found[name] = Ported(name, [(crate, version) for crate, _, version in pairs], licence, below.split())
    return found


def _asked_for(top: Path) -> List[str]:
    """The crates of the kit that lines of crates.txt name, for the crates that the program stands on."""
    own = set(sources.crates(top))
    named = {name for line in sources.crate_lines(top, comments=False) for name in line.partition(":")[2].split()}
    return sorted(named - own)


def used_crates(top: Path) -> List[Ported]:
    """The crates of the kit that are in the program: those that crates.txt asks for, and what they use, in order."""
    known, waiting = ported_crates(top), _asked_for(top)
    used: Set[str] = set()
    while waiting:
        name = waiting.pop()
        if name not in known:
            raise Failed("tools/ported_crates.txt has no line for %s" % name)
        if name not in used:
            used.add(name)
            waiting.extend(known[name].below)
    return [known[name] for name in sorted(used)]


def compare(top: Path, kit: Path) -> None:
    """Fails where the kit in this folder says other versions of a crate than ported_crates.txt, or uses other crates for it."""
    for crate in used_crates(top):
        text = (kit / "rattle" / crate.name / "README.md").read_text(encoding="utf-8").replace("`", "")
        for origin, version in crate.origins:
            if not re.search(r"\b%s %s(?![.\d]*\d)" % (re.escape(origin), re.escape(version)), text):
                raise Failed("%s: the kit does not say that it is after %s %s" % (crate.name, origin, version))
        said = (kit / "rlibs" / (crate.name + ".rlib") / "format").read_text(encoding="utf-8")
        below = set(re.findall(r"(?m)^dep (\w+)$", said)) - _STANDARD
        if below != set(crate.below):
            raise Failed("%s: the kit uses %s for it" % (crate.name, ", ".join(sorted(below)) or "nothing"))


def _kit(top: Path) -> Tuple[str, str]:
    """The version of the kit that dist/manifest names, and the digest of its logic."""
    line = (top / "dist" / "manifest").read_text(encoding="utf-8").partition("\n")[0]
    match = re.fullmatch(r"kit rattle-kit-(\w+) logic ([0-9a-f]+)", line)
    if not match:
        raise Failed("dist/manifest does not name a kit: %s" % line)
    return match.group(1), match.group(2)


def _origin(name: str, version: str) -> Dict[str, Any]:
    return {"type": "library", "name": name, "version": version, "purl": "pkg:cargo/%s@%s" % (name, version)}


def _library(crate: Ported, kit_version: str) -> Dict[str, Any]:
    """A crate of the kit. It has the version of the kit: it is written anew in Rattle, and has none of the Rust crate's compiled code."""
    made: Dict[str, Any] = {"type": "library", "bom-ref": "kit:" + crate.name, "group": "rattle-kit", "name": crate.name,
                            "version": kit_version}
    if crate.origins:
        made["pedigree"] = {
            "ancestors": [_origin(name, version) for name, version in crate.origins],
            "notes": "Written in Rattle after these crates, whose licence is %s." % crate.licence}
    return made


def _program(top: Path, name: str, description: str) -> Dict[str, Any]:
    digest = sources.digest((top / "dist" / name).read_bytes())
    return {"type": "file", "bom-ref": "dist/" + name, "name": "dist/" + name, "description": description,
            "hashes": [{"alg": "SHA-256", "content": digest}]}


def _components(top: Path, crates: List[Ported]) -> List[Dict[str, Any]]:
    version, logic = _kit(top)
    kit = {"type": "application", "bom-ref": "kit", "name": "rattle-kit", "version": version,
           "description": "The prover, the compiler and the linker, and the standard library, of which parts are in the programs.",
           "properties": [{"name": "rattle:logic", "value": logic}]}
    glibc = {"type": "library", "bom-ref": "glibc", "name": "glibc",
             "description": "Taken from the system on which dist/np runs: %s or later." % _GLIBC}
    return [_program(top, "np", "The proved program, for x86-64 Linux."),
            _program(top, "np.wasm", "The same program for WebAssembly, which is not proved."),
            kit, glibc, *(_library(crate, version) for crate in crates)]


def _dependencies(top: Path, crates: List[Ported]) -> List[Dict[str, Any]]:
    direct = ["kit", *("kit:" + name for name in _asked_for(top))]
    uses: Dict[str, List[str]] = {"np": ["dist/np", "dist/np.wasm"], "dist/np": ["glibc", *direct], "dist/np.wasm": direct, "kit": [],
                                  "glibc": []}
    uses.update({"kit:" + crate.name: ["kit", *("kit:" + name for name in crate.below)] for crate in crates})
    return [{"ref": ref, "dependsOn": uses[ref]} for ref in uses]


def _day(top: Path, version: str) -> str:
    """The day of a version, as CHANGELOG.md has it."""
    match = re.search(r"(?m)^## %s, (\d{4}-\d\d-\d\d)$" % re.escape(version), (top / "CHANGELOG.md").read_text(encoding="utf-8"))
    if not match:
        raise Failed("CHANGELOG.md has no entry for %s" % version)
    return match.group(1)


def bill(top: Path) -> bytes:
    """The bytes of the bill of materials, as its parts in the repository whose top this is give them."""
    version, crates = (top / "VERSION").read_text(encoding="utf-8").strip(), used_crates(top)
    subject = {"type": "application", "bom-ref": "np", "name": "np", "version": version,
               "description": "Says who can reach whom under the network policies of a Kubernetes cluster."}
    content = {"metadata": {"timestamp": _day(top, version) + "T00:00:00Z", "component": subject},
               "components": _components(top, crates), "dependencies": _dependencies(top, crates)}
    serial = uuid.uuid5(uuid.NAMESPACE_OID, json.dumps(content, sort_keys=True))
    head = {"$schema": "http://cyclonedx.org/schema/bom-1.6.schema.json", "bomFormat": "CycloneDX", "specVersion": "1.6",
            "serialNumber": "urn:uuid:%s" % serial, "version": 1}
    return (json.dumps({**head, **content}, indent=2) + "\n").encode()


def is_current(top: Path) -> bool:
    """Whether the file is what its parts give."""
    try:
        return (top / _NAME).read_bytes() == bill(top)
    except (OSError, Failed):
        return False


def write(top: Path) -> None:
    """Makes the file anew, where the kit of this machine has what ported_crates.txt says."""
    compare(top, kit_folder())
    (top / _NAME).write_bytes(bill(top))


def main(words: List[str]) -> int:
    """Does what the words of the command line ask for, and returns the status."""
    if words not in ([], ["--check"]):
        print(_USAGE, file=sys.stderr)
        return 2
    try:
        if not words:
            write(TOP)
        elif not is_current(TOP):
            raise Failed("%s is not current: run ./release" % _NAME)
    except (OSError, Failed) as error:
        print("bill_of_materials: %s" % error, file=sys.stderr)
        return 1
    return 0


if __name__ == "__main__":
    sys.exit(main(sys.argv[1:]))
