"""The words of `kubectl np list` that np does not know: several --focus, --namespace-focus, --port."""
from __future__ import annotations

import re
from typing import List, NoReturn, Tuple

from plugin.said import stop

_VALUED = ("--focus", "--namespace-focus", "--port")
_PROTOCOLS = ("TCP", "UDP", "SCTP")
_LAST_PORT = 65535

_PORT = re.compile(r"(TCP|UDP|SCTP)/([1-9][0-9]{0,4})")
# A port as it may be meant: with another separator, in small letters, the number first, or without a protocol.
_MEANT = re.compile(r"(?:([A-Za-z]+)[/: ])?0*([0-9]{1,9})(?:[/: ]([A-Za-z]+))?")

# A protocol and one of its ports.
Port = Tuple[str, int]


class Filters:
    """Which rows are asked for. `own` are the words of np, without a focus, and `given` the options of the filters as
    they were typed."""

    def __init__(self) -> None:
        self.own: List[str] = []
        self.given: List[Tuple[str, str]] = []
        self.focus: List[str] = []
        self.namespaces: List[str] = []
        self.ports: List[Port] = []

    @property
    def is_any(self) -> bool:
        """Whether there is a filter that np does not have."""
        return bool(self.ports) or self.has_focus_of_plugin

    @property
    def has_focus_of_plugin(self) -> bool:
        """Whether there is a focus to which np itself cannot keep."""
        return bool(self.namespaces or len(self.focus) > 1)

    @property
    def words_of_np(self) -> List[str]:
        """The words that np is asked with."""
        return self.own + ["--focus=" + name for name in self.focus if not self.has_focus_of_plugin]

    def value(self, option: str, default: str) -> str:
        """The value of one of np's options."""
        for word, behind in zip(self.own, [*self.own[1:], ""]):
            name, equals, value = word.partition("=")
            if name == option:
                return value if equals else behind
        return default

    @property
    def side(self) -> str:
        """Which end of a row has to be in focus."""
        return self.value("--side", "either")

    def text(self) -> str:
        """The filters as a shell reads them back."""
        from plugin.page.words import shell_word
        side = [("--side", self.side)] if self.value("--side", "") and (self.focus or self.namespaces) else []
        return " ".join("%s %s" % (option, shell_word(value)) for option, value in self.given + side)


def read(own: List[str]) -> Filters:
    """Sorts the words of `list`; ends with status 2 where one of a filter is wrong."""
    filters = Filters()
    left = list(own)
    while left:
        word = left.pop(0)
        option, equals, value = word.partition("=")
        if option not in _VALUED:
            filters.own.append(word)
            continue
        if not equals:
            if not left or (left[0].startswith("-") and left[0] != "-"):
                _refuse("%s lacks its value" % option)
            value = left.pop(0)
        _take(filters, option, value)
    return filters


def _take(filters: Filters, option: str, value: str) -> None:
    if not value and option != "--focus":
        _refuse("%s has an empty value" % option)
    filters.given.append((option, value))
    if option == "--focus":
        filters.focus.append(value)
    elif option == "--port":
        filters.ports.append(_port(value))
    else:
        filters.namespaces.append(value)


def _port(value: str) -> Port:
    found = _PORT.fullmatch(value)
    if found is None or int(found.group(2)) > _LAST_PORT:
        _refuse("--port takes a protocol and a port, as TCP/5432: '%s'%s" % (value, _what_is_meant(value)))
    return found.group(1), int(found.group(2))


def _what_is_meant(value: str) -> str:
    found = _MEANT.fullmatch(value)
    if found is None:
        return "; it is one port, and --port may be repeated" if re.search("[0-9][-,][0-9]", value) else "; a port is a number"
    protocol, number = found.group(1) or found.group(3), int(found.group(2))
    if protocol and protocol.upper() not in _PROTOCOLS:
        return "; the protocols are TCP, UDP and SCTP"
    if not 1 <= number <= _LAST_PORT:
        return "; ports are 1 to %d" % _LAST_PORT
    return "; it is %s/%d" % (protocol.upper(), number) if protocol else "; it is TCP/%d, or another protocol" % number


def _refuse(text: str) -> NoReturn:
    stop(2, text + " (kubectl np help list)")
