"""The tree of files that the tarball and the package for Debian have alike."""
from __future__ import annotations

import re
from datetime import datetime, timezone
from email.utils import format_datetime
from pathlib import Path
from typing import Iterable, List

from said import run, stop


def version_of(source: Path) -> str:
    """The version of np, as VERSION has it; refuses one that CHANGELOG.md has no entry for."""
    version = (source / "VERSION").read_text(encoding="utf-8").strip()
    if not re.search("^## %s, " % re.escape(version), _changes(source), re.MULTILINE):
        stop("CHANGELOG.md has no entry for %s" % version)
    return version


def _changes(source: Path) -> str:
    return (source / "CHANGELOG.md").read_text(encoding="utf-8")


def compress(data: bytes) -> bytes:
    """The bytes as gzip compresses them, without a time."""
    return run(["gzip", "-9n"], "gzip failed", stdin=None, input=data)


class Tree:
    """A tree that is made in a new folder, of the files of a commit."""

    def __init__(self, source: Path, folder: Path) -> None:
        self.source = source
        self.folder = folder
        folder.mkdir()

    def build(self) -> None:
        """Puts in all that there is."""
        self._put_programs()
        self._put_completion()
        self._put_manuals()
        self._put_documents()

    def _write(self, name: str, data: bytes, mode: int = 0o644) -> None:
        path = self.folder / name
        path.parent.mkdir(parents=True, exist_ok=True)
        path.write_bytes(data)
        path.chmod(mode)

    def _put(self, folder: str, files: Iterable[Path], mode: int = 0o644) -> None:
        for file in files:
            self._write("%s/%s" % (folder, file.name), file.read_bytes(), mode)

    def _link(self, name: str, target: str) -> None:
        (self.folder / name).symlink_to(target)

    def _put_programs(self) -> None:
        names = ["dist/np", "np-wasm", "kubectl-np", "np-page", "completion/kubectl_complete-np"]
        self._put("bin", [self.source / name for name in names], 0o755)
        # Who installed np asks for the kit and the digest; those of the sources are in the repository.
        lines = (self.source / "dist" / "manifest").read_bytes().splitlines(keepends=True)
        self._write("share/np/manifest", b"".join(lines[:2]))
        self._put("share/np", [self.source / "dist" / name for name in ("np.cdx.json", "np.html", "np.mjs", "np.wasm", "np.wasm.manifest")])

    def _put_completion(self) -> None:
        completion = self.source / "completion"
        self._write("share/bash-completion/completions/np", (completion / "np.bash").read_bytes())
        self._link("share/bash-completion/completions/kubectl-np", "np")
        self._put("share/zsh/site-functions", [completion / "_np"])
        self._put("share/fish/vendor_completions.d", [completion / "np.fish"])
        self._link("share/fish/vendor_completions.d/kubectl-np.fish", "np.fish")

    def _put_manuals(self) -> None:
        for name in ("np", "kubectl-np"):
            page = run([self.source / "packaging" / "manual", name], "the manual page of %s was not made" % name)
            self._write("share/man/man1/%s.1.gz" % name, compress(page))

    def _put_documents(self) -> None:
        """The pages of docs/proof are there because those of docs/use name them."""
        source, place = self.source, "share/doc/np"
        for folder in ("use", "proof"):
            self._put("%s/%s" % (place, folder), (source / "docs" / folder).glob("*.md"))
        self._put("%s/use/pictures" % place, (source / "docs" / "use" / "pictures").glob("*"))
        self._put(place, [source / "packaging" / "copyright"])
        for file in _files_below(source / "examples"):
            name = file.relative_to(source).as_posix()
            self._write("%s/%s" % (place, name), file.read_bytes())
        self._write("%s/changelog.gz" % place, compress(self._debian_changes().encode()))

    def _debian_changes(self) -> str:
        """CHANGELOG.md in the form that Debian has for it."""
        control = (self.source / "packaging" / "deb" / "control").read_text(encoding="utf-8")
        maintainer = re.findall("^Maintainer: (.*)$", control, re.MULTILINE)[0]
        entries = re.split("^## ", _changes(self.source), flags=re.MULTILINE)[1:]
        return "".join(_debian_entry(entry, maintainer) for entry in entries)


def _debian_entry(entry: str, maintainer: str) -> str:
    """An entry of CHANGELOG.md, which begins with its version and its day, in Debian's form: its points alone."""
    head, _, rest = entry.partition("\n")
    version, day = head.split(", ")
    lines: List[str] = ["np (%s) unstable; urgency=medium\n" % version]
    is_point = False
    for line in rest.split("\n"):
        is_point = line.startswith("- ") or (is_point and line.startswith("  "))
        if is_point:
            lines.append("  * " + line[2:] if line.startswith("- ") else "  " + line)
    time = format_datetime(datetime.strptime(day, "%Y-%m-%d").replace(tzinfo=timezone.utc))
    return "\n".join([*lines, "\n -- %s  %s\n\n" % (maintainer, time)])


def _files_below(folder: Path) -> List[Path]:
    """The files in a folder and in those within it."""
    return sorted(path for path in folder.rglob("*") if path.is_file())
