"""The changes as JSON: an array with an object for each, one a line, as np's own."""
from __future__ import annotations

from typing import Iterator

from plugin import jsontext
from plugin.changes.found import DIRECTIONS, Found
from plugin.changes.output import write_all
from plugin.said import decoded


def write(found: Found) -> None:
    """Prints the array. The members of each object: change (opened or closed), connections, destination, family (null where both
    changed alike, and for addresses), marks (of source and destination those that are new or gone), and source."""
    write_all(_lines(found))


def _lines(found: Found) -> Iterator[bytes]:
    before = b"["
    for line in _objects(found):
        yield before + line
        before = b",\n"
    yield b"[]\n" if before == b"[" else b"]\n"


def _objects(found: Found) -> Iterator[bytes]:
    marks = dict.fromkeys(found.new(), "new")
    marks.update(dict.fromkeys(found.gone(), "gone"))
    for direction in DIRECTIONS:
        for change in found.changes(direction):
            ends = {"destination": change.destination, "source": change.source}
            yield jsontext.write({
                "change": direction,
                "connections": decoded(change.connections),
                "destination": decoded(change.destination),
                "family": decoded(change.family).strip(" ()") or None,
                "marks": {end: marks[name] for end, name in ends.items() if name in marks},
                "source": decoded(change.source)})
