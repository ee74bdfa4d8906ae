"""Which word of a command line np refuses, and the right one. np says of wrong words the usage alone, and of which it is
nothing; what is right is its to decide, so it is asked first."""
from __future__ import annotations

import difflib
import re
from typing import Dict, List, Optional, Sequence, Tuple

from plugin.words import GENERAL

# What the value of an option may be; nothing where it may be any word.
_CHOICES: Dict[str, Tuple[str, ...]] = {
    "--format": ("text", "csv", "json"),
    "--report": ("1", "2"),
    "--side": ("either", "from", "to"),
    "--protocol": ("TCP", "UDP", "SCTP"),
}
_OPTIONS: Dict[str, Tuple[str, ...]] = {
    "list": ("--focus", "--namespace-focus", "--side", "--port", "--format", "--report", "--controller"),
    "explain": ("--from", "--to"),
    "exposure": ("--workload", "--format"),
    "evaluate": ("--from", "--to", "--protocol", "--port"),
    "unused": (),
    "check": ("--statement",),
    "flatten": (),
}
_REQUIRED = ("--from", "--to", "--protocol", "--port", "--statement")
# What kubectl and other commands of np call it.
_OTHER_NAMES: Dict[str, Tuple[str, ...]] = {
    "-o": ("--format",),
    "--output": ("--format",),
    "--name": ("--focus", "--workload"),
    "--workload": ("--focus",),
    "--focus": ("--workload",),
    "--direction": ("--side",),
    "--source": ("--from",),
    "--destination": ("--to",),
    "-p": ("--port",),
}
# What other words for a value mean.
_OTHER_VALUES = {"in": "to", "ingress": "to", "out": "from", "egress": "from", "both": "either", "yaml": "json", "wide": "text"}
_END = "a name with its namespace, or an address"


def wrong_word(command: str, words: Sequence[str]) -> Optional[str]:
    """What is wrong with the words of a command of np, in a line, or None where that is not seen."""
    options = _OPTIONS[command]
    seen: List[str] = []
    left = list(words)
    while left:
        option, equals, value = left.pop(0).partition("=")
        if option not in options:
            return _unknown(command, option, options)
        if option in seen:
            return "%s is given twice" % option
        seen.append(option)
        if not equals and (not left or left[0].startswith("-") and left[0] != "-"):
            return "%s lacks its value" % option
        problem = _wrong_value(option, value if equals else left.pop(0))
        if problem:
            return problem
    missing = [option for option in options if option in _REQUIRED and option not in seen]
    return "%s needs %s" % (command, " and ".join(missing)) if missing else None


def _unknown(command: str, option: str, options: Sequence[str]) -> str:
    others = {other: [name for name in names if name in options] for other, names in _OTHER_NAMES.items()}
    known = {**dict.fromkeys(GENERAL), **{other: names[0] for other, names in others.items() if names}, **dict.fromkeys(options)}
    near = [option] if option in known else difflib.get_close_matches(option, [name for name in known if name[1] == "-"], 1, 0.75)
    return "%s has no option '%s'%s" % (command, option, "; it is %s" % (known[near[0]] or near[0]) if near else "")


def _wrong_value(option: str, value: str) -> Optional[str]:
    """What is wrong with the value of an option."""
    choices = _CHOICES.get(option)
    if choices and value not in choices:
        meant = _OTHER_VALUES.get(value.lower(), value)
        near = [each for each in choices if each.lower() == meant.lower()]
        return "%s takes %s: '%s'%s" % (option, _listed(choices), value, "; it is %s" % near[0] if near else "")
    if option == "--port" and not (re.fullmatch(r"[1-9][0-9]{0,4}", value) and int(value) <= 65535):
        return "--port takes a number from 1 to 65535: '%s'" % value
    if option in ("--from", "--to") and "/" not in value and not re.search(r"[0-9][.]|:", value):
        return "%s takes %s, and '%s' is neither; kubectl np names prints the names" % (option, _END, value)
    return None


def _listed(choices: Sequence[str]) -> str:
    return "%s or %s" % (", ".join(choices[:-1]), choices[-1])
