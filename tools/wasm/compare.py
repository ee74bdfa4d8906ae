#!/usr/bin/env python3
"""Runs the stored cases and the transcripts through np.wasm, in a browser or in Node, and compares every byte with what is wanted.

tools/wasm/compare.py [--wasm FILE] chromium|firefox-esr|node|node-kept [CASE..]
tools/wasm/compare.py [--wasm FILE] chromium|firefox-esr|node-kept --lists N

The cases are those that run the program; of the others each is named below, with what it needs. All transcripts are one of them. `./test`
runs them, on another program in the place of dist/np:

chromium, firefox-esr  tools/wasm/through, which hands each run to workers of a page in the browser, by a server of this tool
node                   np-wasm, as users have it: each run begins a Node, which opens the files itself, and takes a fifth of a second
node-kept              tools/wasm/through, which hands each run to one Node, whose workers do what those of the page do: for thousands of
                       runs, which take a third of the time so; files and words are then read by Python, and not by np-wasm

With --lists np.wasm is compared with the second program (tools/second) instead, on so many random lists, without any stand-in.
"""
from __future__ import annotations

import binascii
import json
import os
import queue
import shutil
import subprocess
import sys
import tempfile
import threading
from contextlib import contextmanager
from http.server import BaseHTTPRequestHandler, ThreadingHTTPServer
from pathlib import Path
from typing import Any, Callable, ContextManager, Dict, Iterator, List, NamedTuple, Optional, Tuple

HERE = Path(os.path.abspath(__file__)).parent
TOP = HERE.parent.parent
_USAGE = "usage: tools/wasm/compare.py [--wasm FILE] chromium|firefox-esr|node|node-kept [CASE.. | --lists N]"

# What browsers are started with. The profile is a new folder, so that nothing of the machine's own is read.
_BROWSERS = {
    "chromium": ["chromium", "--headless=new", "--no-sandbox", "--disable-gpu", "--disable-dev-shm-usage", "--no-first-run",
                 "--user-data-dir=%s"],
    "firefox-esr": ["firefox-esr", "--headless", "--no-remote", "--profile", "%s"],
}

# Cases that run the program and are about what np.wasm has not; the first of them np-wasm alone has.
_BOUND_ON_FILES = "a-cut-report-is-its-beginning"
# It has a `node` of its own on the path, which np-wasm would take for Node, without end.
_ANOTHER_NODE = "np-on-another-system"
_NOT_HERE = {
    "case-that-needs-a-command": "./test itself",
    "fault-out-of-memory": "a bound of the system on memory",
    "short-memory-is-told": "bounds of the system on memory",
    "from-another-folder": "./np",
    "kept-program-has-no-symbols": "the file dist/np",
    "no-kit-on-the-path": "./np",
    "package-manual": "the package",
    "transcripts-that-are-false": "tools/transcripts.py itself",
}

_NODE, _NODE_KEPT = "node", "node-kept"
_WORKER = ["page/ask/host.js", "page/ask/given.js", "tools/wasm/loop.js"]
_PAGE = "<!DOCTYPE html><title>np.wasm</title><script>for (let i = 0; i < %d; i += 1) new Worker('/worker.js');</script>"


def coded(data: bytes) -> str:
    """Bytes as base64."""
    return binascii.b2a_base64(data, newline=False).decode("ascii")


class Runs:
    """Runs that wait for the browser, and what came of those that it made."""

    def __init__(self) -> None:
        self.waiting: "queue.Queue[Dict[str, Any]]" = queue.Queue()
        self._made: Dict[int, "queue.Queue[bytes]"] = {}
        self._lock = threading.Lock()
        self.count = 0

    def made(self, run: Dict[str, Any]) -> bytes:
        """What came of a run, once the browser has made it."""
        answer: "queue.Queue[bytes]" = queue.Queue()
        with self._lock:
            self.count += 1
            run["number"] = self.count
            self._made[self.count] = answer
        self.waiting.put(run)
        return answer.get()

    def ask(self, words: List[bytes], files: Dict[bytes, bytes], given: bytes) -> Tuple[int, bytes, bytes]:
        """The status and both outputs of a run on these files and this standard input."""
        made = json.loads(self.made({
            "words": [coded(word) for word in words], "files": {os.fsdecode(name): coded(data) for name, data in files.items()},
            "full": [], "input": coded(given)}))
        return made["status"], binascii.a2b_base64(made["out"]), binascii.a2b_base64(made["err"])

    def end(self, number: int, answer: bytes) -> None:
        """Tells what came of a run."""
        self._made.pop(number).put(answer)


def run_of(body: bytes) -> Dict[str, Any]:
    """A run as loop.js takes it, of what tools/wasm/through tells."""
    lines = [line.split(" ") for line in body.decode("ascii").split("\n")]
    of_kind = {kind: [line[1:] for line in lines if line[0] == kind] for kind in ("word", "file", "full", "input")}
    return {
        "words": [word for word, in of_kind["word"]],
        "files": {os.fsdecode(binascii.a2b_base64(name)): data for name, data in of_kind["file"]},
        "full": [int(output) for output, in of_kind["full"]],
        "input": of_kind["input"][0][0] if of_kind["input"] else None,
    }


def answer_of(made: bytes) -> bytes:
    """What came of a run, as tools/wasm/through reads it."""
    found = json.loads(made)
    return ("%(status)d\n%(out)s\n%(err)s" % found).encode("ascii")


def handler_of(runs: Runs, wasm: bytes) -> type:
    """What answers the browser and the stand-ins for the program."""
    files = {
        "/": ("text/html", (_PAGE % (os.cpu_count() or 2)).encode()),
        "/worker.js": ("text/javascript", b"".join((TOP / name).read_bytes() for name in _WORKER)),
        "/np.wasm": ("application/wasm", wasm),
    }

    class Handler(BaseHTTPRequestHandler):
        protocol_version = "HTTP/1.1"

        def _give(self, kind: str, data: bytes) -> None:
            self.send_response(200)
            self.send_header("Content-Type", kind)
            self.send_header("Content-Length", str(len(data)))
            self.end_headers()
            self.wfile.write(data)

        def _give_next(self) -> None:
            try:
                self._give("application/json", json.dumps(runs.waiting.get(timeout=20)).encode())
            except queue.Empty:
                self._give("application/json", b"{}")

        def do_GET(self) -> None:
            if self.path in files:
                self._give(*files[self.path])
            else:
                self.send_error(404)

        def do_POST(self) -> None:
            body = self.rfile.read(int(self.headers["Content-Length"] or 0))
            if self.path == "/run":
                self._give("text/plain", answer_of(runs.made(run_of(body))))
            elif self.path == "/next":
                self._give_next()
            else:
                runs.end(int(self.path.rpartition("/")[2]), body)
                self._give("text/plain", b"")

        def log_message(self, *_: Any) -> None:
            pass

    return Handler


class Server(ThreadingHTTPServer):
    """A server to which it is no fault that one who asked is gone, as a browser is in the end."""

    def handle_error(self, request: Any, client_address: Any) -> None:
        if not isinstance(sys.exc_info()[1], ConnectionError):
            super().handle_error(request, client_address)


def start_browser(name: str, profile: str, top: str) -> "subprocess.Popen[bytes]":
    """Starts a browser on the server's page."""
    words = [word % profile if "%s" in word else word for word in _BROWSERS[name]]
    quiet = dict(os.environ, DBUS_SESSION_BUS_ADDRESS="disabled:", MOZ_CRASHREPORTER_DISABLE="1")
    return subprocess.Popen([*words, top + "/"], stdin=subprocess.DEVNULL, stdout=subprocess.DEVNULL, stderr=subprocess.DEVNULL, env=quiet)


def start_node(top: str) -> "subprocess.Popen[bytes]":
    """Starts a Node with the workers that the server's page has. What it says is seen: it says nothing unless it fails."""
    words = [os.environ.get("NP_NODE", "node"), str(HERE / "workers.js"), top, str(os.cpu_count() or 2)]
    return subprocess.Popen(words, stdin=subprocess.DEVNULL)


class Tested(NamedTuple):
    """What `./test` runs in the place of the program, what it finds in its environment, and how many runs there were."""

    program: Path
    environment: Dict[str, str]
    count: Callable[[], int]
    runs: Optional[Runs] = None


@contextmanager
def in_workers(name: str, wasm: bytes) -> Iterator[Tested]:
    """A browser, or a Node, that takes runs."""
    runs = Runs()
    server = Server(("127.0.0.1", 0), handler_of(runs, wasm))
    threading.Thread(target=server.serve_forever, daemon=True).start()
    top = "http://127.0.0.1:%d" % server.server_address[1]
    with _folder() as profile:
        child = start_node(top) if name == _NODE_KEPT else start_browser(name, profile, top)
        try:
            yield Tested(HERE / "through", {"NP_WASM_SERVER": top, "NP_WASM_PYTHON": sys.executable}, lambda: runs.count, runs)
        finally:
            child.terminate()
            child.wait()


@contextmanager
def in_node(wasm: bytes) -> Iterator[Tested]:
    """np-wasm in a folder of its own, as it lies in the repository. Each run is counted by a byte that it writes to a pipe, since a case
    may bound how large files grow."""
    with _folder() as name:
        home = Path(name)
        (home / "dist").mkdir()
        (home / "dist" / "np.wasm").write_bytes(wasm)
        shutil.copy(TOP / "dist" / "np.mjs", home / "dist")
        shutil.copy(TOP / "np-wasm", home)
        counted, program = home / "counted", home / "np"
        os.mkfifo(counted)
        program.write_text("#!/bin/sh\nprintf . >'%s'\nexec '%s' \"$@\"\n" % (counted, home / "np-wasm"), encoding="utf-8")
        program.chmod(0o755)
        seen: List[int] = []
        pipe = os.open(counted, os.O_RDWR)
        threading.Thread(target=lambda: seen.extend(iter(lambda: len(os.read(pipe, 4096)), 0)), daemon=True).start()
        yield Tested(program, {}, lambda: sum(seen))


def _folder() -> ContextManager[str]:
    """A new folder; a browser may still write into it when it goes."""
    lenient = {"ignore_cleanup_errors": True} if sys.version_info >= (3, 10) else {}
    return tempfile.TemporaryDirectory(**lenient)


def cases(runtime: str) -> List[str]:
    """The cases that run the program, and nothing that np.wasm has not in a browser or in Node: first those that take long."""
    found = []
    for folder in sorted((TOP / "cases").iterdir()):
        script = folder / "run"
        runs_np = not script.exists() or "$NP" in script.read_text(encoding="utf-8")
        is_here = folder.name not in _NOT_HERE and folder.name != (_ANOTHER_NODE if runtime == _NODE else _BOUND_ON_FILES)
        if (folder / "words").exists() and runs_np and is_here:
            found.append(folder)
    return [folder.name for folder in sorted(found, key=lambda folder: not (folder / "early").exists())]


def compare(runtime: str, wasm: bytes, words: List[str]) -> int:
    """Runs the cases that are named, all of them without a name, or random lists, and returns the status."""
    with in_node(wasm) if runtime == _NODE else in_workers(runtime, wasm) as tested:
        if words[:1] == ["--lists"] and tested.runs:
            from random_lists import compare_lists
            status = compare_lists(tested.runs.ask, os.cpu_count() or 2, int(words[1]))
        else:
            environment = dict(os.environ, NP_TESTED=str(tested.program), **tested.environment)
            status = subprocess.run([str(TOP / "test"), *(words or cases(runtime))], env=environment, check=False).returncode
        print("%d runs of np.wasm in %s" % (tested.count(), runtime))
    return status


def main(words: List[str]) -> int:
    """Does what the words of the command line ask for, and returns the status."""
    wasm = TOP / "dist" / "np.wasm"
    if words[:1] == ["--wasm"] and len(words) > 1:
        wasm, words = Path(words[1]), words[2:]
    is_of_lists = words[1:2] == ["--lists"]
    if not words or words[0] not in [*_BROWSERS, _NODE, _NODE_KEPT] or is_of_lists and (words[0] == _NODE or len(words) != 3):
        print(_USAGE, file=sys.stderr)
        return 2
    return compare(words[0], wasm.read_bytes(), words[1:])


if __name__ == "__main__":
    sys.exit(main(sys.argv[1:]))
