"""The words of the gate's command line."""
from __future__ import annotations

from dataclasses import dataclass
from typing import List

from plugin.said import stop

# The options that stand alone, and those that have a value, with what that names.
_ALONE = {"--allow-empty": "allow_empty", "--allow-unsure": "allow_unsure", "--github": "github"}
_VALUED = {"--junit": ("junit", "file"), "--sarif": ("sarif", "file"), "--controller": ("controller", "workload")}
_NO_FILE = "gate needs a file of statements, or - for standard input"


@dataclass
class GateWords:
    """What the gate is asked to do. `file` is `-` for standard input; `junit`, `sarif` and `controller` are empty where
    they are not given."""

    file: str = ""
    allow_empty: bool = False
    allow_unsure: bool = False
    github: bool = False
    junit: str = ""
    sarif: str = ""
    controller: str = ""
    takes_addresses_of_pods: bool = False


def read_words(words: List[str]) -> GateWords:
    """Reads the words behind `gate`; ends with status 2 where they are wrong."""
    read = GateWords()
    left = iter(words)
    for word in left:
        option, equals, value = word.partition("=")
        if word in _ALONE:
            setattr(read, _ALONE[word], True)
        elif option in _VALUED:
            _take_value(read, option, value if equals else next(left, ""))
        elif word.startswith("-") and word != "-":
            stop(2, "gate has no option '%s'" % word)
        else:
            _take_file(read, word)
    if not read.file:
        stop(2, _NO_FILE)
    return read


def _take_value(read: GateWords, option: str, value: str) -> None:
    name, what = _VALUED[option]
    if not value or value.startswith("-"):
        stop(2, "%s needs the name of a %s" % (option, what))
    if getattr(read, name):
        stop(2, "%s is given twice" % option)
    setattr(read, name, value)


def _take_file(read: GateWords, name: str) -> None:
    if not name:
        stop(2, _NO_FILE)
    if read.file:
        stop(2, "gate takes one file of statements, and '%s' is a second one" % name)
    read.file = name
