"""The changes as lines of text, and marks of what is new and gone."""
from __future__ import annotations

from typing import Dict, Iterator

from plugin.changes.found import DIRECTIONS, Found
from plugin.changes.output import write_all

_AT_ONCE = 1 << 20


def write(found: Found) -> None:
    """Prints a line for each change, as `opened: a/b[Pod] => c/d[Pod] (new) : TCP 80`: first what opened, and then what closed."""
    marks = dict.fromkeys(found.new(), b" (new)")
    marks.update(dict.fromkeys(found.gone(), b" (gone)"))
    for direction in DIRECTIONS:
        head = b"%s: " % direction.encode()
        write_all(_marked(found, direction, head, marks) if marks else _plain(found, direction, head))


def _plain(found: Found, direction: str, head: bytes) -> Iterator[bytes]:
    """The lines where no workload has a mark, in large blocks: there may be millions of them."""
    with found.rows(direction) as file:
        for rows in iter(lambda: file.readlines(_AT_ONCE), []):
            yield head + head.join(rows)


def _marked(found: Found, direction: str, head: bytes, marks: Dict[bytes, bytes]) -> Iterator[bytes]:
    for source, destination, family, connections in found.changes(direction):
        yield b"%s%s%s => %s%s%s : %s\n" % (head, source, marks.get(source, b""), destination, marks.get(destination, b""), family,
                                            connections)
