#!/usr/bin/env python3
"""Makes dist/np.html, the page that asks np: of page/ask, of the parts of page/ that a made page has too, and of dist/np.wasm.

tools/wasm/ask_page.py            writes dist/np.html
tools/wasm/ask_page.py PATH WASM  writes PATH with the module of another file, to try it
tools/wasm/ask_page.py --check    says with status 1 that dist/np.html is not what its parts give
"""
from __future__ import annotations

import base64
import gzip
import hashlib
import os
import re
import sys
from pathlib import Path
from typing import Dict, List

TOP = Path(os.path.abspath(__file__)).parent.parent.parent
sys.dont_write_bytecode = True
sys.path.insert(0, str(TOP))

from plugin.page.whole import SCRIPTS  # noqa: E402

_USAGE = "usage: tools/wasm/ask_page.py [--check | PATH WASM]"
_LINE = 120

_WORKER = ["ask/host.js", "ask/given.js", "ask/table.js", "ask/worker.js"]
# Those of a made page, but for the last, which shows what the page already has.
_SCRIPTS = [name for name in SCRIPTS if name != "shown.js"] + [
    "ask/%s.js" % name for name in ("runner", "inputs", "questions", "ask", "start")]
_STYLES = ["page.css", "ask/ask.css"]


def _joined(top: Path, names: List[str]) -> str:
    return "".join((top / "page" / name).read_text(encoding="utf-8") for name in names)


def _coded(data: bytes) -> str:
    """Bytes as lines of base64."""
    text = base64.b64encode(data).decode("ascii")
    return "\n".join(text[place:place + _LINE] for place in range(0, len(text), _LINE)) + "\n"


def _digest(text: str) -> str:
    """The digest of an element's text, which begins behind its tag, and so with a line feed."""
    return "sha256-" + base64.b64encode(hashlib.sha256(("\n" + text).encode("utf-8")).digest()).decode("ascii")


def _parts(top: Path, wasm: bytes) -> Dict[str, str]:
    """What stands for a line @NAME@ of page/ask/ask.html."""
    return {
        "style": _joined(top, _STYLES),
        "script": _joined(top, _SCRIPTS),
        "worker": _joined(top, _WORKER),
        "wasm": _coded(gzip.compress(wasm, 9, mtime=0)),
        "example": _coded((top / "examples" / "shop.json").read_bytes()),
    }


def page(top: Path, wasm: bytes) -> str:
    """The page with this module."""
    parts = _parts(top, wasm)
    text = (top / "page" / "ask" / "ask.html").read_text(encoding="utf-8")
    text = text.replace("@script-digest@", _digest(parts["script"])).replace("@style-digest@", _digest(parts["style"]))
    text = text.replace("@version@", (top / "VERSION").read_text(encoding="utf-8").strip())
    return re.sub(r"(?m)^@([a-z]+)@\n", lambda found: parts[found.group(1)], text)


def _unpacked(text: str) -> str:
    """The page with its module as it is, since other versions of zlib may pack it in other ways."""
    found = re.search(r'(<script type="application/octet-stream" id="wasm">\n)([^<]*)', text)
    if not found:
        return text
    module = hashlib.sha256(gzip.decompress(base64.b64decode(found.group(2)))).hexdigest()
    return text[:found.start(2)] + module + text[found.end(2):]


def is_current(top: Path) -> bool:
    """Whether dist/np.html is what its parts give."""
    try:
        kept = (top / "dist" / "np.html").read_text(encoding="utf-8")
        return _unpacked(kept) == _unpacked(page(top, (top / "dist" / "np.wasm").read_bytes()))
    except OSError:
        return False


def write(top: Path) -> None:
    """Writes dist/np.html."""
    (top / "dist" / "np.html").write_text(page(top, (top / "dist" / "np.wasm").read_bytes()), encoding="utf-8")


def main(words: List[str]) -> int:
    """Does what the words of the command line ask for, and returns the status."""
    if words == ["--check"]:
        if not is_current(TOP):
            print("dist/np.html is not current: run tools/wasm/ask_page.py", file=sys.stderr)
        return 0 if is_current(TOP) else 1
    if not words:
        write(TOP)
    elif len(words) == 2 and not words[0].startswith("-"):
        Path(words[0]).write_text(page(TOP, Path(words[1]).read_bytes()), encoding="utf-8")
    else:
        print(_USAGE, file=sys.stderr)
        return 2
    return 0


if __name__ == "__main__":
    sys.exit(main(sys.argv[1:]))
