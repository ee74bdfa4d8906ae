#!/usr/bin/env python3
"""kubectl-np, the one file that users of the plugin copy: made of plugin/, the parts of the page, VERSION and two pages of docs/use.

tools/plugin_archive.py             writes kubectl-np
tools/plugin_archive.py --check     says with status 1 that kubectl-np is not what its parts give, or may not be executed

It is a zip that Python runs, with a first line that names Python. The same parts give the same bytes on every machine and with every
version of Python: nothing is compressed, names are sorted, and times and modes are fixed. The names in it are those of the repository,
and the parts are those that stand there, but for what plugin/page/squeeze.py leaves out of scripts and styles.
"""
from __future__ import annotations

import io
import os
import sys
import zipfile
from pathlib import Path
from typing import Dict, List

TOP = Path(os.path.abspath(__file__)).parent.parent
sys.dont_write_bytecode = True
sys.path.insert(0, str(TOP))

from plugin.page.squeeze import squeezed  # noqa: E402

_USAGE = "usage: tools/plugin_archive.py [--check]"
_FIRST_LINE = b"#!/usr/bin/env -S python3 -IS -X utf8\n"
_PATTERNS = ["plugin/**/*.py", "plugin/**/*.txt", "plugin/**/*.jq", "page/page.html", "page/page.css", "page/*.js", "VERSION",
             "docs/use/FAULTS.md", "docs/use/CAVEATS.md"]
_MAIN = b"""import sys
if sys.version_info < (3, 9):
    sys.stderr.write("kubectl np: this needs Python 3.9 or later\\n")
    sys.exit(3)
from plugin import importer
importer.install()
from plugin.door import main
from plugin.ending import run
run(main)
"""


def parts(top: Path) -> Dict[str, bytes]:
    """What is in the archive of the repository whose top this is, by the names that it has there."""
    found = {"__main__.py": _MAIN}
    for pattern in _PATTERNS:
        for path in top.glob(pattern):
            found[path.relative_to(top).as_posix()] = squeezed(path.name, path.read_bytes())
    return found


def archive(top: Path, first_line: bytes = _FIRST_LINE) -> bytes:
    """The bytes of kubectl-np, as the parts in the repository whose top this is give them. Another first line names another Python."""
    made = io.BytesIO(first_line)
    made.seek(0, io.SEEK_END)
    with zipfile.ZipFile(made, "w", zipfile.ZIP_STORED) as written:
        for name, data in sorted(parts(top).items()):
            entry = zipfile.ZipInfo(name, (1980, 1, 1, 0, 0, 0))
            entry.create_system = 3  # Unix, on every system
            entry.external_attr = 0o100644 << 16  # a regular file, which its owner may write and all may read
            written.writestr(entry, data)
    return made.getvalue()


def fault(top: Path) -> str:
    """What is wrong with kubectl-np in the repository whose top this is; an empty text where nothing is."""
    path = top / "kubectl-np"
    if not path.is_file() or path.read_bytes() != archive(top):
        return "kubectl-np is not current: run tools/plugin_archive.py"
    if not os.access(path, os.X_OK):
        return "kubectl-np may not be executed: run tools/plugin_archive.py"
    return ""


def write(top: Path) -> None:
    """Makes kubectl-np anew. Who runs it meanwhile sees the old file or the new one, and never a half of one."""
    new = top / "kubectl-np.new"
    try:
        new.write_bytes(archive(top))
        new.chmod(0o755)
        new.replace(top / "kubectl-np")
    finally:
        if new.exists():
            new.unlink()


def main(words: List[str]) -> int:
    """Does what the words of the command line ask for, and returns the status."""
    if words == ["--check"]:
        said = fault(TOP)
    elif words:
        print(_USAGE, file=sys.stderr)
        return 2
    else:
        write(TOP)
        said = ""
    if said:
        print("plugin_archive: " + said, file=sys.stderr)
        return 1
    return 0


if __name__ == "__main__":
    sys.exit(main(sys.argv[1:]))
