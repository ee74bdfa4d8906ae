"""How ./package says what it refuses, and how it runs the programs that it needs."""
from __future__ import annotations

import subprocess
from pathlib import Path
from typing import Any, List, NoReturn, Union


class Refusal(Exception):
    """Nothing can be packed; the text says why."""


def stop(text: str) -> NoReturn:
    """Refuses to pack, saying the text."""
    raise Refusal(text)


def run(words: List[Union[str, Path]], failure: str, **streams: Any) -> bytes:
    """Runs a program to its end and returns what it wrote; refuses with the text `failure` where it fails."""
    streams.setdefault("stdin", subprocess.DEVNULL)
    streams.setdefault("stdout", subprocess.PIPE)
    ran = subprocess.run([str(word) for word in words], check=False, **streams)
    if ran.returncode != 0:
        stop(failure)
    return ran.stdout or b""
