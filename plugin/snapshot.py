"""The list of objects that np is given, whole or not at all."""
from __future__ import annotations

import os
from pathlib import Path
from typing import Iterator, Optional

from plugin.caveats.beside import Beside
from plugin.room import Room
from plugin.said import say, step, stop, write

# How many bytes np reads, and how many objects.
MOST = 33554432
MOST_ITEMS = 20000
_CHUNK = 1 << 20


def fetch_file(name: str, room: Room, beside: Beside) -> Path:
    """The path of the list that --list names. It stays as it is, so that the numbers of items in faults are those of
    the file; where it is no file, or is too large for np, it is a copy in the room."""
    path = Path(os.path.abspath(name))
    if name == "-" or not path.is_file() or not os.access(path, os.R_OK):
        path = _copy(name, room)
    excess = _excess(path)
    if not excess:
        return path
    say("the list has more than %s, so only what np reads is kept of it" % excess)
    return filter_file(path, room, beside)


def _excess(path: Path) -> str:
    """What the list in the file has more of than np takes; empty where np takes it. Each object has metadata, and few have more
    in them, so hardly a list is read for that."""
    if path.stat().st_size > MOST:
        return "%d bytes" % MOST
    data = path.read_bytes()
    if data.count(b'"metadata"') <= MOST_ITEMS:
        return ""
    from plugin import jsontext
    try:
        count = len(jsontext.objects(data))
    except jsontext.NotTaken:
        return ""
    return "%d objects" % MOST_ITEMS if count > MOST_ITEMS else ""


def filter_input(room: Room, beside: Beside) -> Path:
    """The path of a list in the room with what np reads of the list on standard input."""
    return filter_file(_copy("-", room), room, beside)


def filter_file(path: Path, room: Room, beside: Beside) -> Path:
    """The path of a list in the room with what np reads of the list in the file."""
    from plugin.members import keep_of_text
    step("keeping what np reads")
    with path.open("rb") as text, room.writing(), room.create("list") as file:
        keep_of_text(text, file, room, beside)
    return room.path("list")


def name_item(path: Path, number: int) -> Optional[str]:
    """The object of the list in the file that np counts so, from 1, as a person names it."""
    from plugin import jsontext, objects
    try:
        items = jsontext.objects(path.read_bytes())
    except (OSError, jsontext.NotTaken):
        return None
    return objects.named(items[number - 1]) if number <= len(items) else None


def _copy(name: str, room: Room) -> Path:
    """The path of a copy of the file, or of standard input, in the room."""
    if name != "-" and Path(name).is_dir():
        stop(3, "'%s' is a folder" % name)
    with room.writing(), room.create("given") as file:
        for chunk in _chunks(name):
            file.write(chunk)
    return room.path("given")


def _chunks(name: str) -> Iterator[bytes]:
    """The bytes of the file, or of standard input, piece by piece."""
    try:
        with open(name, "rb") if name != "-" else open(0, "rb", closefd=False) as file:
            yield from iter(lambda: file.read(_CHUNK), b"")
    except (OSError, ValueError):
        stop(3, "standard input cannot be read" if name == "-" else "'%s' cannot be read" % name)


def print_list(path: Path) -> None:
    """Prints the list."""
    with path.open("rb") as file:
        for chunk in iter(lambda: file.read(_CHUNK), b""):
            write(chunk, "the list cannot be written")
