"""What the plugin says, and how it ends."""
from __future__ import annotations

import os
import re
import sys
from typing import Callable, List, Mapping, NoReturn, Optional

# What would end a line, move the cursor or turn around the letters that follow, wherever a name has it.
_CONTROL = re.compile("[\x00-\x1f\x7f-\x9f\u2028\u2029\u202a-\u202e\u2066-\u2069]")
_CONTROL_IN_LINES = re.compile("[\x00-\x09\x0b-\x1f\x7f-\x9f\u2028\u2029\u202a-\u202e\u2066-\u2069]")
_ESCAPES = {"\n": "\\n", "\r": "\\r", "\t": "\\t"}

# Who speaks, at the head of each line.
speaker = "kubectl np"

# What an item of the list is, by its number from 1, where that is known; and whether those of notes are named as those of faults are.
name_item: Optional[Callable[[int], Optional[str]]] = None
names_items_of_notes = False
_ITEMS = re.compile(rb"^(error|note): items? ([0-9]{1,9})(?: and ([0-9]{1,9}))?: ", re.MULTILINE)

# How many pods np was not given, by the note of np that counts such pods: the note is repeated with all of them.
not_given: Mapping[str, int] = {}
_COUNTS = re.compile(rb"^(note: ([^:\n]*): )([0-9]+)$", re.MULTILINE)

# Whether notes are left out.
is_quiet = False

# The last fault of np that was repeated, by its name; empty where there is none. It stands first, or behind the item or input and the path.
fault = ""
_FAULT = re.compile(rb"^error: (?:(?:items?|input) .*: )?([A-Z][A-Za-z]+)(?: .*)?$", re.MULTILINE)


class Stop(Exception):
    """Ends the plugin with a status: what another program said is repeated, and a line says why where there is a
    text."""

    def __init__(self, status: int, text: Optional[str] = None, said: bytes = b"") -> None:
        super().__init__(status, text)
        self.status = status
        self.text = text
        self.said = said

    def tell(self) -> None:
        """Says why the plugin ends."""
        relay(self.said)
        if self.text is not None:
            say(self.text)


def stop(status: int, text: str, said: bytes = b"") -> NoReturn:
    """Ends the plugin with the status, repeating what another program said, and saying the text."""
    raise Stop(status, text, said)


def _escape(found: re.Match[str]) -> str:
    letter = found.group()
    return _ESCAPES.get(letter, "\\u{%x}" % ord(letter))


def shown(text: str) -> str:
    """The text on one line: control characters are escaped as in a Rust string."""
    return _CONTROL.sub(_escape, text)


def encoded(text: str) -> bytes:
    """The bytes of a text. Those that were no UTF-8 where it was read are as they were."""
    return text.encode("utf-8", "surrogateescape") if _is_encodable(text) else text.encode("utf-8", "backslashreplace")


def _is_encodable(text: str) -> bool:
    try:
        text.encode("utf-8", "surrogateescape")
    except UnicodeEncodeError:
        return False
    return True


def decoded(data: bytes) -> str:
    """The text of bytes. Those that are no UTF-8 are kept, for `encoded`."""
    return data.decode("utf-8", "surrogateescape")


def _write_error(data: bytes) -> None:
    if sys.stderr is None:
        return
    try:
        sys.stderr.buffer.write(data)
        sys.stderr.buffer.flush()
    except OSError:
        pass  # there is no other place to say it


def say(text: str) -> None:
    """Says a text on a line of standard error."""
    _write_error(encoded("%s: %s\n" % (speaker, shown(text))))


def note(text: str) -> None:
    """Says what is good to know and changes no answer, where that is wanted."""
    if not is_quiet:
        say(text)


def relay(data: bytes, label: str = "") -> None:
    """Repeats on standard error what another program said there, line by line, each behind the label. Where np names an
    item of the list by its number, it is said which object that is."""
    global fault
    data = with_all_pods(data)
    lines = _CONTROL_IN_LINES.sub(_escape, decoded(data)).splitlines(keepends=True)
    _write_error(encoded("".join(label + line for line in lines)))
    fault = "".join(name.decode() for name in _FAULT.findall(data)[:1]) or fault
    for number in _items_of(data):
        name = name_item(number) if name_item is not None else None
        if name is not None:
            say("item %d is %s" % (number, name))


def with_all_pods(data: bytes) -> bytes:
    """What np said, with the counts of all pods in its notes, also of those that it was not given."""
    if not not_given:
        return data
    return _COUNTS.sub(lambda found: b"%s%d" % (found.group(1), int(found.group(3)) + not_given.get(found.group(2).decode(), 0)), data)


def _items_of(data: bytes) -> List[int]:
    """The numbers of the items that np named, each once."""
    is_note_told = names_items_of_notes and not is_quiet
    found = [each for each in _ITEMS.findall(data) if each[0] == b"error" or is_note_told]
    return list(dict.fromkeys(int(number) for each in found for number in each[1:] if number))


def step(text: str) -> None:
    """Says what is being done, since a large cluster takes a while: on a terminal alone, so that logs and pipes stay
    clean."""
    if is_on_terminal():
        say(text)


def is_on_terminal() -> bool:
    """Whether standard error is a terminal."""
    return sys.stderr is not None and sys.stderr.isatty()


def write(data: bytes, failure: str = "the answer cannot be written") -> None:
    """Writes to standard output; ends with status 3 where that is not possible."""
    try:
        if sys.stdout is None:
            raise OSError
        sys.stdout.buffer.write(data)
        sys.stdout.buffer.flush()
    except OSError:
        _drop_output()
        raise Stop(3, failure) from None


def _drop_output() -> None:
    """What is left in the buffer could not be written, and is not tried again at the end."""
    try:
        null = os.open(os.devnull, os.O_WRONLY)
        os.dup2(null, 1)
        os.close(null)
    except OSError:
        pass
