"""The rows of np, as it prints them in JSON: each on a line of its own."""
from __future__ import annotations

from typing import IO, Iterable, Iterator, Tuple

from plugin.said import decoded, stop

_MEMBERS = [b"connections", b"destination", b"source"]
_AT_ONCE = 1 << 20

# What passes, where to, and from where.
Row = Tuple[bytes, bytes, bytes]


def row_of(line: bytes) -> Row:
    """The row of a line; ends with status 3 where it has none. None of the texts has a quote in it."""
    fields = line.split(b'"')
    if len(fields) != 13 or fields[1::4] != _MEMBERS:
        stop(3, "a row that np-page does not know: %s" % decoded(line))
    return fields[3], fields[7], fields[11]


def rows(lines: Iterable[bytes]) -> Iterator[Row]:
    """The rows of a whole report."""
    return (row_of(line) for line in lines if line.strip() not in (b"", b"[]"))


class Lines:
    """The lines of a stream. Many of them can be passed at once where it is known what they would be."""

    def __init__(self, stream: IO[bytes]) -> None:
        self._stream = stream
        self._data = b""
        self._place = 0

    def __iter__(self) -> Iterator[bytes]:
        """The lines, with their ends."""
        while True:
            end = self._data.find(b"\n", self._place) + 1
            if end:
                line = self._data[self._place:end]
                self._place = end
                yield line
            elif not self._read():
                break
        if self._data[self._place:]:
            yield self._data[self._place:]

    def pass_over(self, expected: bytes) -> bool:
        """Passes these bytes, which are whole lines, if they come next; returns whether they do."""
        while len(self._data) - self._place < len(expected) and self._read():
            pass
        is_next = self._data.startswith(expected, self._place)
        self._place += len(expected) * is_next
        return is_next

    def _read(self) -> bool:
        more = self._stream.read(_AT_ONCE)
        self._data = self._data[self._place:] + more
        self._place = 0
        return bool(more)
