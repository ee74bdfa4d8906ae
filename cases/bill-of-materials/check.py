"""Says what is wrong with dist/np.cdx.json of a repository, and what of copies of it that are spoilt: check.py TOP

The form is that of the parts of CycloneDX 1.6 that such a bill uses: which members an object has to have, which it may have, and what they
are. Then each part that is named has to be there once, and the digests, the kit and the crates have to be those of the repository.
"""
from __future__ import annotations

import copy
import hashlib
import json
import re
import sys
from pathlib import Path
from typing import Any, Callable, Dict, List, NamedTuple

_TYPES = ("application", "file", "library")


class Shape(NamedTuple):
    """The members of an object, by the shape of each: those that it has to have, and those that it may have."""

    wanted: Dict[str, Any]
    free: Dict[str, Any]


def _matches(pattern: str) -> Callable[[Any], bool]:
    return lambda value: isinstance(value, str) and re.fullmatch(pattern, value) is not None


_TEXT = _matches(r"\S(.*\S)?")
_ORIGIN = Shape({"type": _matches("library"), "name": _TEXT, "version": _TEXT, "purl": _matches(r"pkg:cargo/[\w-]+@\d+\.\d+\.\d+")}, {})
_PART = Shape({"type": lambda value: value in _TYPES, "name": _TEXT}, {
    "bom-ref": _TEXT, "group": _TEXT, "version": _TEXT, "description": _TEXT,
    "hashes": [Shape({"alg": _matches("SHA-256"), "content": _matches("[0-9a-f]{64}")}, {})],
    "pedigree": Shape({}, {"ancestors": [_ORIGIN], "notes": _TEXT}),
    "properties": [Shape({"name": _TEXT, "value": _TEXT}, {})]})
_BILL = Shape({
    "$schema": _matches(re.escape("http://cyclonedx.org/schema/bom-1.6.schema.json")), "bomFormat": _matches("CycloneDX"),
    "specVersion": _matches(r"1\.6"), "version": lambda value: value == 1 and not isinstance(value, bool),
    "serialNumber": _matches("urn:uuid:[0-9a-f]{8}-[0-9a-f]{4}-[0-9a-f]{4}-[0-9a-f]{4}-[0-9a-f]{12}"),
    "metadata": Shape({"timestamp": _matches(r"\d{4}-\d\d-\d\dT00:00:00Z"), "component": _PART}, {}),
    "components": [_PART], "dependencies": [Shape({"ref": _TEXT, "dependsOn": [_TEXT]}, {})]}, {})


def faults_of_form(value: Any, shape: Any, path: str = "") -> List[str]:
    """Where a value is not of a shape."""
    if isinstance(shape, list):
        return [] if isinstance(value, list) and not value else _faults_of_items(value, shape[0], path)
    if isinstance(shape, Shape):
        return _faults_of_object(value, shape, path)
    return [] if shape(value) else ["%s: not %s" % (path, json.dumps(value))]


def _faults_of_items(value: Any, shape: Any, path: str) -> List[str]:
    if not isinstance(value, list):
        return ["%s: no list" % path]
    return [fault for place, item in enumerate(value) for fault in faults_of_form(item, shape, "%s[%d]" % (path, place))]


def _faults_of_object(value: Any, shape: Shape, path: str) -> List[str]:
    if not isinstance(value, dict):
        return ["%s: no object" % path]
    known = {**shape.wanted, **shape.free}
    found = ["%s has no %s" % (path or "the bill", name) for name in shape.wanted if name not in value]
    found += ["%s.%s: unknown" % (path, name) for name in value if name not in known]
    return found + [fault for name in value if name in known for fault in faults_of_form(value[name], known[name], "%s.%s" % (path, name))]


def faults_of_references(bill: Dict[str, Any]) -> List[str]:
    """Where a part is named twice, or is named and is not there, or what it uses is not said."""
    parts = [part.get("bom-ref") for part in (bill["metadata"]["component"], *bill["components"])]
    said = [line["ref"] for line in bill["dependencies"]]
    used = {ref for line in bill["dependencies"] for ref in line["dependsOn"]}
    found = ["%s stands twice" % ref for names in (parts, said) for ref in dict.fromkeys(names) if names.count(ref) > 1]
    found += ["%s is no part" % ref for ref in sorted({*said, *used} - set(parts))]
    found += ["what %s uses is not said" % ref for ref in parts if ref not in said]
    return found + ["nothing uses %s" % ref for ref in parts[1:] if ref not in used]


def faults_of_contents(bill: Dict[str, Any], top: Path) -> List[str]:
    """Where the digests, the version, the kit or the crates are not those of the repository."""
    parts = {part["bom-ref"]: part for part in bill["components"]}
    found: List[str] = []
    for name in ("dist/np", "dist/np.wasm"):
        digest = hashlib.sha256((top / name).read_bytes()).hexdigest()
        if [entry["content"] for entry in parts.get(name, {}).get("hashes", [])] != [digest]:
            found.append("%s: another digest" % name)
    kit = "kit rattle-kit-%s logic %s" % (parts["kit"]["version"], parts["kit"]["properties"][0]["value"])
    if (top / "dist" / "manifest").read_text(encoding="utf-8").partition("\n")[0] != kit:
        found.append("another kit: %s" % kit)
    if bill["metadata"]["component"].get("version") != (top / "VERSION").read_text(encoding="utf-8").strip():
        found.append("another version")
    versions = {one["name"]: one["version"] for part in parts.values() for one in part.get("pedigree", {}).get("ancestors", [])}
    asked = ("serde_json", "clap_builder", "csv", "indexmap", "itoa", "smallvec")
    return found + ["no version of %s" % name for name in asked if name not in versions]


def faults(bill: Dict[str, Any], top: Path) -> List[str]:
    """All that is wrong with a bill; what it says is looked at where it has the form."""
    return faults_of_form(bill, _BILL) or [*faults_of_references(bill), *faults_of_contents(bill, top)]


def _set(*path: Any) -> Callable[[Any], None]:
    """What sets the last of these in the place to which those before lead."""
    def spoil(bill: Any) -> None:
        place = bill
        for step in path[:-2]:
            place = place[step]
        place[path[-2]] = path[-1]
    return spoil


# What is spoilt, a copy each. The first three parts are dist/np, dist/np.wasm and the kit.
_SPOILT: List[Callable[[Any], Any]] = [
    lambda bill: bill.pop("bomFormat"),
    _set("specVersion", "1.5"),
    _set("serialNumber", "urn:uuid:1"),
    _set("metadata", "timestamp", "yesterday"),
    _set("metadata", "component", "version", "0.0.0"),
    _set("components", 0, "hashes", 0, "content", "0" * 63),
    _set("components", 0, "hashes", 0, "content", "0" * 64),
    _set("components", 1, "hashes", 0, "content", "0" * 64),
    _set("components", 2, "version", "12"),
    _set("components", 2, "type", "kit"),
    _set("components", 2, "licence", "none"),
    lambda bill: bill["components"].append(copy.deepcopy(bill["components"][3])),
    lambda bill: bill["components"].pop(),
    lambda bill: bill["dependencies"].pop(),
    _set("dependencies", 0, "dependsOn", ["dist/np"]),
    lambda bill: [part.pop("pedigree", None) for part in bill["components"] if part["name"] == "smallvec"],
]


def main(top: Path) -> None:
    """Looks at the bill, and at copies of it that are spoilt, one after the other."""
    whole = json.loads((top / "dist" / "np.cdx.json").read_text(encoding="utf-8"))
    print("\n".join(faults(whole, top) or ["nothing is wrong"]))
    for spoil in _SPOILT:
        spoilt = copy.deepcopy(whole)
        spoil(spoilt)
        print("; ".join(faults(spoilt, top)) or "a spoilt bill is taken")


if __name__ == "__main__":
    main(Path(sys.argv[1]))
