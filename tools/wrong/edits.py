"""The edits of the repository: what each changes, what the wrong program does, and what stands against it.

An edit is a file of the kit's form: a line 'file: ', and then pairs of lines 'old: ' and 'new: '. The kit reads no line that begins
with '#'; here such lines at the head say in words what the wrong program does, and one '# cases: ' which stored cases or tests see it.
"""
import hashlib
import re
from dataclasses import dataclass
from pathlib import Path

TOP = Path(__file__).resolve().parent.parent.parent
PARTS = ("src", "specs", "proofs")
CASES = "# cases: "


class Defect(Exception):
    """What is wrong with an edit itself."""


@dataclass(frozen=True)
class Edit:
    crate: str
    path: Path
    in_gate: bool

    @property
    def name(self):
        return self.path.stem

    @property
    def label(self):
        return f"{self.crate} {self.name}"

    def lines(self):
        return self.path.read_text().split("\n")

    def words(self):
        """What the wrong program does: the comment at the head of the edit, or else its name."""
        told = [it[2:] for it in self.lines() if it.startswith("# ") and not it.startswith(CASES)]
        return " ".join(told) or self.name.replace("_", " ")

    def cases(self):
        """The stored cases and tests that refuse the program too, as the edit lists them."""
        return next((it[len(CASES):] for it in self.lines() if it.startswith(CASES)), "")


def crate_order():
    """The crates of crates.txt, in its order: lowest first."""
    rows = (line.split("#")[0].partition(":") for line in (TOP / "crates.txt").read_text().split("\n"))
    return {name.split()[0]: used.split() for name, colon, used in rows if colon}


def all_edits():
    """Each edit of the repository, in the order of crates.txt and then of names."""
    order = list(crate_order())
    found = [Edit(path.parent.parent.name, path, True) for path in TOP.glob("crates/*/must-fail/*.edit")]
    found += [Edit(path.parent.parent.name, path, False) for path in TOP.glob("crates/*/wrong-bodies/*.edit")]
    strange = sorted({it.crate for it in found} - set(order))
    if strange:
        raise SystemExit(f"wrong_bodies: edits of what is no crate of crates.txt: {' '.join(strange)}")
    return sorted(found, key=lambda it: (order.index(it.crate), it.name))


def pairs(edit):
    """The changes of an edit, each as the file in the crate, the text that stands there once, and the new one."""
    path = old = None
    found = []
    for line in edit.lines():
        if line.startswith("file: "):
            path = line[len("file: "):].strip()
        elif line.startswith("old: "):
            old = line[len("old: "):]
        elif line.startswith("new:"):
            if not path or not old:
                raise Defect("a line 'new:' stands before any 'file:' or 'old:'")
            found.append((path, old, re.sub(r"\A ", "", line[len("new:"):])))
            old = None
        elif line and not line.startswith("#"):
            raise Defect(f"a line begins with none of 'file: ', 'old: ', 'new:' and '#': {line[:60]}")
    if not found:
        raise Defect("it has no pair of 'old:' and 'new:'")
    return found


def applied(edit):
    """The files that the edit changes, each with its new text, and the places of the changes, each as a file and the number of a line
    of the text before them. A change that spans no line moves none, so these numbers are those of the new text too."""
    texts, places = {}, []
    for path, old, new in pairs(edit):
        source = TOP / "crates" / edit.crate / path
        if not path.startswith("src/") or not source.is_file():
            raise Defect(f"{path} is no file of src/ of the crate")
        text = texts.get(path) or source.read_text()
        if text.count(old) != 1:
            raise Defect(f"its old text is in {path} {text.count(old)} times, and not once: {old.strip()[:60]}")
        number = text.count("\n", 0, text.index(old)) + 1
        if text.split("\n")[number - 1].lstrip().startswith(("requires", "ensures", "ghost ")):
            raise Defect("it changes a contract, and no code, so that it shows nothing")
        places.append((path, number))
        texts[path] = text.replace(old, new)
        if texts[path] == text:
            raise Defect("it changes nothing")
    return texts, places


def cases_of(edit):
    """The folders of cases/ that the edit names: what has no `..` is one."""
    named = (it.strip() for it in edit.cases().split(","))
    return [it for it in named if it and it != "every case" and not it.startswith("`")]


def sources_of(crate):
    """The files of a crate that are proved, by their paths in it."""
    folder = TOP / "crates" / crate
    found = (it for part in PARTS for it in (folder / part).rglob("*") if it.suffix in (".rt", ".antt"))
    return sorted((str(it.relative_to(folder)), it) for it in found)


def digest(edit):
    """A digest of what the edit's line rests on: the sources of its crate, and what it changes in them."""
    made = hashlib.sha256()
    for path, source in sources_of(edit.crate):
        made.update(f"{path}\n{hashlib.sha256(source.read_bytes()).hexdigest()}\n".encode())
    made.update(repr(pairs(edit)).encode())
    return made.hexdigest()[:12]
