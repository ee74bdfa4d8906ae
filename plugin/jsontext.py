"""JSON as np takes it, read and written so that np says of the text that is written what it says of the one that was
read.

Python's reader takes more than np does: NaN and Infinity, numbers beyond what a double holds, texts that nest deeper
than np reads, halves of letters (lone surrogates). These are refused here. Of a member that stands twice the last
counts, as for np. Numbers keep their spelling, since np tells 80 from 80.0 and 0 from -0.
"""
from __future__ import annotations

import codecs
import json
import re
from typing import IO, Any, Dict, Iterator, List, NoReturn, Optional, Tuple

# How deep np reads.
_DEEPEST = 127
# How much of a file is read at once.
_BLOCK = 1 << 18

_BLANKS = re.compile(r"[ \t\n\r]*")
_IN_NUMBER = re.compile(r"[-+.eE0-9]*")
_HALF_LETTER = re.compile(r"\\u[dD][89a-fA-F]")


class NotTaken(ValueError):
    """The text is none that np takes."""


class Twins(ValueError):
    """A member stands twice in an object."""

    def __init__(self, name: str) -> None:
        super().__init__(name)
        self.name = name


class Literal:
    """A number as it was written, where Python would write it in another way."""

    def __init__(self, spelling: str) -> None:
        self.spelling = spelling


def _whole_number(spelling: str) -> Any:
    if spelling == "-0" or len(spelling) > 300:
        return _other_number(spelling)
    return int(spelling)


def _other_number(spelling: str) -> Literal:
    if abs(float(spelling)) == float("inf"):
        raise NotTaken("a number is too large")
    return Literal(spelling)


def _refuse_constant(name: str) -> NoReturn:
    raise NotTaken("%s is no number" % name)


def _without_twins(members: List[Tuple[str, Any]]) -> Dict[str, Any]:
    found = dict(members)
    if len(found) < len(members):
        names = [name for name, _ in members]
        raise Twins(next(name for name in names if names.count(name) > 1))
    return found


_DECODER = json.JSONDecoder(parse_int=_whole_number, parse_float=_other_number, parse_constant=_refuse_constant)
_STRICT = json.JSONDecoder(parse_int=_whole_number, parse_float=_other_number, parse_constant=_refuse_constant,
                           object_pairs_hook=_without_twins)


class _Cursor:
    """A place in a text, which stands behind blanks."""

    def __init__(self, text: str, decoder: json.JSONDecoder = _DECODER) -> None:
        self.text = text
        self.place = 0
        self._decoder = decoder
        self._pass_blanks()

    def _pass_blanks(self) -> None:
        found = _BLANKS.match(self.text, self.place)
        self.place = found.end() if found else self.place

    def is_at_end(self) -> bool:
        return self.place == len(self.text)

    def takes(self, sign: str) -> bool:
        """Whether the sign stands here; goes on behind it."""
        if not self.text.startswith(sign, self.place):
            return False
        self.place += 1
        self._pass_blanks()
        return True

    def value(self, depth: int) -> Any:
        """The value that stands here, which lies so deep; goes on behind it."""
        value = self._decoded()
        _check_depth(value, depth)
        self._pass_blanks()
        return value

    def _decoded(self) -> Any:
        try:
            value, self.place = self._decoder.raw_decode(self.text, self.place)
        except (NotTaken, Twins):
            raise
        except (ValueError, RecursionError) as error:
            raise NotTaken(str(error)) from None
        return value

    def parts(self, end: str) -> Iterator[None]:
        """Stands before each part of a list or an object, one after the other, and at last behind its end."""
        if self.takes(end):
            return
        while True:
            yield
            if self.takes(end):
                return
            if not self.takes(","):
                raise NotTaken("a comma is missing")

    def name(self) -> str:
        """The name of the member that stands here; goes on before its value."""
        name = self.value(1)
        if not isinstance(name, str) or not self.takes(":"):
            raise NotTaken("a member has no name")
        return name

    def check_end(self) -> None:
        if not self.is_at_end():
            raise NotTaken("it goes on behind its end")


class _Stream(_Cursor):
    """A place in a text that is read from a file as far as it is needed, since it may be very long: what lies behind is let
    go."""

    def __init__(self, file: IO[bytes]) -> None:
        self._file = file
        self._decode = codecs.getincrementaldecoder("utf-8")().decode
        self._is_whole = False
        super().__init__("")

    def _read_on(self) -> None:
        """Reads the next part of the text: as much as there is, so that a long value is not begun too often."""
        block = self._file.read(max(_BLOCK, len(self.text)))
        try:
            more = self._decode(block, not block)
        except UnicodeDecodeError:
            raise NotTaken("it is no UTF-8") from None
        self.text, self.place = self.text[self.place:] + more, 0
        self._is_whole = not block

    def _pass_blanks(self) -> None:
        super()._pass_blanks()
        while self.is_at_end() and not self._is_whole:
            self._read_on()
            super()._pass_blanks()

    def _decoded(self) -> Any:
        """The value that stands here, once all of it has been read. A number may go on behind the text, as 1 in 1.5."""
        while True:
            start = self.place
            try:
                value = super()._decoded()
            except NotTaken:
                if self._is_whole:
                    raise
            else:
                if self._is_whole or not _IN_NUMBER.fullmatch(self.text, self.place):
                    _check_letters(self.text, start, self.place)
                    return value
            self.place = start
            self._read_on()


def _check_depth(value: Any, depth: int) -> None:
    level = [value] if isinstance(value, (dict, list)) else []
    while level:
        depth += 1
        if depth > _DEEPEST:
            raise NotTaken("it nests too deep")
        level = [inner for outer in level for inner in (outer.values() if type(outer) is dict else outer)
                 if type(inner) is dict or type(inner) is list]


def text_of(data: bytes) -> str:
    """The text of the bytes of a JSON text."""
    try:
        text = data.decode("utf-8")
    except UnicodeDecodeError:
        raise NotTaken("it is no UTF-8") from None
    _check_letters(text, 0, len(text))
    return text


def _check_letters(text: str, start: int, end: int) -> None:
    """Refuses halves of letters between the two places."""
    if _HALF_LETTER.search(text, start, end) and _has_half_letters(text[start:end]):
        raise NotTaken("it has half a letter")


def _has_half_letters(text: str) -> bool:
    try:
        json.dumps(json.loads(text), ensure_ascii=False).encode("utf-8")
    except UnicodeEncodeError:
        return True
    except (ValueError, RecursionError):
        return False  # what else is wrong with it is said where it is read
    return False


def read(data: bytes) -> Any:
    """The value of a JSON text."""
    cursor = _Cursor(text_of(data))
    value = cursor.value(0)
    cursor.check_end()
    return value


def read_all(data: bytes) -> List[Any]:
    """The values of JSON texts that stand one behind the other."""
    cursor = _Cursor(text_of(data))
    values = []
    while not cursor.is_at_end():
        values.append(cursor.value(0))
    return values


def read_once(data: bytes) -> List[Tuple[int, Any]]:
    """The values of JSON texts that stand one behind the other, each with the line at which it begins, from 1. A member that
    stands twice is refused."""
    cursor = _Cursor(text_of(data), _STRICT)
    values = []
    line, seen = 1, 0
    while not cursor.is_at_end():
        line, seen = line + cursor.text.count("\n", seen, cursor.place), cursor.place
        values.append((line, cursor.value(0)))
    return values


def members(file: IO[bytes]) -> Iterator[Tuple[Optional[str], Any]]:
    """The members of the object that the text in the file is, in order.

    The items of a list `items` come one by one, behind ("items", []) and without a name, and the file is read meanwhile, so that
    a long list need not be in memory at once. Where the text is no object it has the one member ("", value).
    """
    cursor = _Stream(file)
    if not cursor.takes("{"):
        yield "", cursor.value(0)
    else:
        for _ in cursor.parts("}"):
            name = cursor.name()
            if name == "items" and cursor.takes("["):
                yield name, []
                yield from ((None, cursor.value(2)) for _ in cursor.parts("]"))
            else:
                yield name, cursor.value(1)
    cursor.check_end()


def objects(data: bytes) -> List[Any]:
    """The items of a list, or the one object that the text is."""
    value = read(data)
    if isinstance(value, dict) and value.get("kind") == "List":
        items = value.get("items")
        return items if isinstance(items, list) else []
    return [value]


def _refuse(value: Any) -> NoReturn:
    raise TypeError(value)


_PLAIN = json.JSONEncoder(ensure_ascii=False, separators=(",", ":"), default=_refuse)


def write(value: Any) -> bytes:
    """The value as a JSON text on one line, in UTF-8."""
    try:
        return _PLAIN.encode(value).encode("utf-8")
    except TypeError:
        return _text_with_literals(value).encode("utf-8")


def _text_with_literals(value: Any) -> str:
    if isinstance(value, Literal):
        return value.spelling
    if isinstance(value, dict):
        return "{%s}" % ",".join("%s:%s" % (_PLAIN.encode(name), _text_with_literals(inner)) for name, inner in value.items())
    if isinstance(value, list):
        return "[%s]" % ",".join(map(_text_with_literals, value))
    return _PLAIN.encode(value)
