"""What a signal that ends a tool takes along: the prover with all that it started, and temporary files.

A signal is looked at within a moment, whatever runs. The tool then ends by that signal, as it would without this module.
"""
from __future__ import annotations

import os
import shutil
import signal
import subprocess
import tempfile
import time
from contextlib import ExitStack, contextmanager
from pathlib import Path
from types import FrameType
from typing import Any, Callable, ContextManager, Iterator, List, Optional, Set

_SIGNALS = [signal.SIGINT, signal.SIGTERM, signal.SIGHUP, signal.SIGPIPE]

# How long what was asked to end may take for it, in seconds, before it is killed.
_PATIENCE = 2.0

_running: Set["subprocess.Popen[bytes]"] = set()
_temporary: List[Path] = []
_is_held = False
_ended_by: Optional[int] = None


def catch_signals() -> None:
    """Has signals take along what was started and made. One that is ignored when the tool begins stays ignored; a closed pipe is not
    among these, since Python ignores it in any case."""
    for number in _SIGNALS:
        if number == signal.SIGPIPE or signal.getsignal(number) is not signal.SIG_IGN:
            signal.signal(number, _on_signal)
    if signal.getsignal(signal.SIGTSTP) is signal.SIG_DFL:
        signal.signal(signal.SIGTSTP, _pause)


def _on_signal(number: int, _frame: Optional[FrameType]) -> None:
    global _ended_by
    _ended_by = _ended_by or number
    if not _is_held:
        _end()


def _end() -> None:
    for number in _SIGNALS:
        signal.signal(number, signal.SIG_IGN)
    for child in _running:
        _end_session(child.pid)
    for path in _temporary:
        _remove(path)
    last = _ended_by or signal.SIGTERM
    signal.signal(last, signal.SIG_DFL)
    os.kill(os.getpid(), last)


def _pause(_number: int, _frame: Optional[FrameType]) -> None:
    """Stops what was started too, which the terminal does not reach in sessions of their own."""
    for child in _running:
        _signal_all(child.pid, signal.SIGTSTP)
    os.kill(os.getpid(), signal.SIGSTOP)
    for child in _running:
        _signal_all(child.pid, signal.SIGCONT)


@contextmanager
def _held() -> Iterator[None]:
    """Signals wait for the end of the block, so that whatever it starts or makes is known by then."""
    global _is_held
    _is_held = True
    try:
        yield
    finally:
        _is_held = False
        if _ended_by is not None:
            _end()


def _signal_all(session: int, number: int) -> bool:
    """Sends a signal to the programs of a session. Returns whether there still are some; with the number 0 it does no more than that."""
    try:
        os.killpg(session, number)
    except OSError:
        return False
    return True


def _has_ended(session: int) -> bool:
    # Not by the methods of Popen: the wait that the signal interrupted may hold their lock.
    try:
        os.waitpid(session, os.WNOHANG)
    except ChildProcessError:
        pass  # its end was seen before
    return not _signal_all(session, 0)


def _end_session(session: int) -> None:
    """Ends a program and those that it started: it asks them to, and kills those that do not. An interrupt comes first, at which rt also
    removes its temporary files."""
    for number in (signal.SIGINT, signal.SIGTERM, signal.SIGKILL):
        _signal_all(session, number)
        begun = time.monotonic()
        while time.monotonic() - begun < _PATIENCE:
            if _has_ended(session):
                return
            time.sleep(0.02)


def start(words: List[str], **streams: Any) -> "subprocess.Popen[bytes]":
    """Starts a program in a session of its own, which a signal takes along, with all programs in it, until `wait` has seen its end."""
    with _held():
        child: "subprocess.Popen[bytes]" = subprocess.Popen(words, start_new_session=True, **streams)
        _running.add(child)
    return child


def wait(child: "subprocess.Popen[bytes]") -> int:
    """The status of a program when it has ended: 128 and the number of the signal where one ended it, as in a shell."""
    status = child.wait()
    _running.discard(child)
    return status if status >= 0 else 128 - status


@contextmanager
def temporary(path: Path) -> Iterator[Path]:
    """Whatever is at this path at the end of the block is removed, and so it is where a signal ends the tool."""
    _temporary.append(path)
    try:
        yield path
    finally:
        _remove(path)
        _temporary.remove(path)


def _remove(path: Path) -> None:
    try:
        path.unlink()
        return
    except OSError:
        pass  # it is a folder, or it was given another name, as is done with what is to stay
    begun = time.monotonic()
    while path.exists() and time.monotonic() - begun < _PATIENCE:
        shutil.rmtree(path, ignore_errors=True)  # this fails where a program that was just killed still writes there


@contextmanager
def _new(make: Callable[[], Path]) -> Iterator[Path]:
    with ExitStack() as stack:
        with _held():
            path = stack.enter_context(temporary(make()))
        yield path


def temporary_folder() -> ContextManager[Path]:
    """A new folder, which is there within a `with` block. Fails with OSError where none can be made."""
    return _new(lambda: Path(tempfile.mkdtemp()))


def temporary_file(folder: Path, prefix: str) -> ContextManager[Path]:
    """A new, empty file in a folder, which is there within a `with` block. Fails with OSError where none can be made."""
    return _new(lambda: _new_file(folder, prefix))


def _new_file(folder: Path, prefix: str) -> Path:
    number, path = tempfile.mkstemp(prefix=prefix, dir=folder)
    os.close(number)
    return Path(path)
