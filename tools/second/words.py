"""The command line: what its words ask for (np_args)."""
import re
from functools import partial
from typing import Callable, Dict, List, NamedTuple, Optional, Sequence, Tuple, Union

from .addresses import Address, address_of
from .model import LAST_PORT, PROTOCOL_NAMES

# An end as a word names it: an address, or a name with a `/`.
EndWord = Union[Address, str]

USAGE = """usage: np list [--format text|csv|json] [--report 1|2] [--controller NAME] [--focus NAME] [--side either|from|to] [FILE]...
       np explain --from END --to END [FILE]...
       np exposure [--workload NAME] [--format text|csv|json] [FILE]...
       np evaluate --from END --to END --protocol P --port N [FILE]...
       np unused [FILE]...
       np check --statement FILE [FILE]...
       np flatten [FILE]...
       np sample N
"""

# The options of each command, the values of those that need not be given, and those that must be.
COMMANDS: Dict[str, Tuple[str, ...]] = {
    "list": ("format", "report", "controller", "focus", "side"),
    "explain": ("from", "to"),
    "exposure": ("workload", "format"),
    "evaluate": ("from", "to", "protocol", "port"),
    "unused": (),
    "check": ("statement",),
    "flatten": (),
    "sample": (),
}
DEFAULTS = {"format": "text", "report": "2", "side": "either"}
REQUIRED = ("from", "to", "protocol", "port", "statement")


class Job(NamedTuple):
    """What the words ask for: the values of options, and the names of inputs in order; of `check` the statement file stands first."""
    command: str
    options: Dict[str, str]
    files: List[str]

    def ends(self) -> List[EndWord]:
        """The ends that `from` and `to` name."""
        return [address_of(self.options[name]) or self.options[name] for name in ("from", "to")]


# ---- values

def is_end(word: str) -> bool:
    """Whether a word names an end."""
    return "/" in word or address_of(word) is not None


def is_number_to(most: int, word: str) -> bool:
    """Whether a word is a number from 1 to `most` in decimal, without a sign or a leading zero."""
    return re.fullmatch("[1-9][0-9]{0,8}", word) is not None and int(word) <= most


VALUES: Dict[str, Callable[[str], bool]] = {
    "format": ("text", "csv", "json").__contains__,
    "report": ("1", "2").__contains__,
    "side": ("either", "from", "to").__contains__,
    "from": is_end,
    "to": is_end,
    "protocol": PROTOCOL_NAMES.__contains__,
    "port": partial(is_number_to, LAST_PORT),
}


# ---- words

def options_in(names: Sequence[str], words: Sequence[str]) -> Optional[Tuple[Dict[str, str], List[str]]]:
    """The options of these names that are given, each once, and the words that are none; nothing where a word is out of place."""
    given: Dict[str, str] = {}
    files: List[str] = []
    rest = list(words)
    while rest:
        word = rest.pop(0)
        if word == "--":
            return given, files + rest
        if not word.startswith("-") or word == "-":
            files.append(word)
            continue
        name, equals, value = word[2:].partition("=")
        if not word.startswith("--") or name not in names or name in given:
            return None
        if not equals:
            if not rest or (rest[0].startswith("-") and rest[0] != "-"):
                return None
            value = rest.pop(0)
        given[name] = value
    return given, files


def job_of(words: Sequence[str]) -> Optional[Job]:
    """What words ask for; the first is the command."""
    names = COMMANDS.get(words[0]) if words else None
    found = None if names is None else options_in(names, words[1:])
    if names is None or found is None:
        return None
    given, files = found
    if words[0] == "sample":
        return Job("sample", {}, files) if len(files) == 1 and is_number_to(1000, files[0]) else None
    if any(name in REQUIRED and name not in given for name in names):
        return None
    if not all(VALUES[name](value) for name, value in given.items() if name in VALUES):
        return None
    files = [given[name] for name in names if name == "statement"] + (files or ["-"])
    return Job(words[0], {**DEFAULTS, **given}, files) if files.count("-") < 2 else None
