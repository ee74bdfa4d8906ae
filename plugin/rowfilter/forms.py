"""The rows of np in each of its formats: what each line says, and what is written around the lines that are kept."""
from __future__ import annotations

import csv
import json
from typing import Callable, Dict, Iterable, Iterator, List, Tuple

# From where, where to, and what passes.
Row = Tuple[str, str, str]

# What reading a line raises that is no row.
NO_ROW = (ValueError, TypeError, LookupError, csv.Error)

_MEMBERS = ["connections", "destination", "source"]


class Form:
    """A format in which each line is a row and stands for itself, as text. Lines have no line feed."""

    def begin(self, lines: List[str]) -> Tuple[str, List[str]]:
        """What stands before all rows, and the lines without it; asked once, with the first lines."""
        return "", lines

    def rows(self, lines: Iterable[str]) -> Iterator[Row]:
        """What the lines say."""
        for line in lines:
            source, arrow, rest = line.partition(" => ")
            destination, colon, connections = rest.partition(" : ")
            if not (arrow and colon):
                raise ValueError(line)
            yield source, destination, connections

    def join(self, lines: List[str], _is_first: bool) -> str:
        """The lines as they are written, where others may follow."""
        return "".join(line + "\n" for line in lines)

    def end(self) -> str:
        """What stands behind all rows."""
        return ""


class Csv(Form):
    """Comma-separated values, behind a line of names. No value has a line feed in it, and one may be long: it has all
    blocks of a range."""

    def __init__(self) -> None:
        csv.field_size_limit(1 << 30)

    def begin(self, lines: List[str]) -> Tuple[str, List[str]]:
        return lines[0] + "\n", lines[1:]

    def rows(self, lines: Iterable[str]) -> Iterator[Row]:
        for source, destination, connections in csv.reader(lines):
            yield source, destination, connections


class Json(Form):
    """An array of objects, each on a line with a comma or the bracket that ends the array behind it."""

    def begin(self, lines: List[str]) -> Tuple[str, List[str]]:
        return "[", [lines[0][1:], *lines[1:]] if lines[0] != "[]" else []

    def rows(self, lines: Iterable[str]) -> Iterator[Row]:
        for line in lines:
            texts = line.split('"')
            if "\\" not in line and texts[1::4] == _MEMBERS:
                yield texts[11], texts[7], texts[3]  # as json would, in a quarter of the time
            else:
                row = json.loads(line[:-1])
                yield row["source"], row["destination"], row["connections"]

    def join(self, lines: List[str], is_first: bool) -> str:
        comma = "" if is_first or not lines else ",\n"
        return comma + ",\n".join(line[:-1] for line in lines)

    def end(self) -> str:
        return "]\n"


FORMS: Dict[str, Callable[[], Form]] = {"text": Form, "csv": Csv, "json": Json}
