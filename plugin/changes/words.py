"""The words of `changes`: the two states that are compared, and how the answer is wanted."""
from __future__ import annotations

from typing import List

from plugin.changes.sides import Side, side_of
from plugin.said import stop
from plugin.words import Words, check_sources

FORMS = ("text", "markdown", "json")
# What --fail-on takes.
FAULTS = ("opened", "closed", "any")

_VALUED = ("--fail-on", "--controller")
_USAGE = "changes compares two states, A and B: kubectl np changes A B (kubectl np help changes says what they may be)"


class ChangesWords:
    """What `changes` is asked to do. `fail_on` and `controller` are empty where they are not given."""

    def __init__(self) -> None:
        self.names: List[str] = []
        self.sides: List[Side] = []
        self.form = ""
        self.fail_on = ""
        self.controller = ""


def read_words(words: Words) -> ChangesWords:
    """Reads the words of the command line; ends with status 2 where they are wrong."""
    read = ChangesWords()
    left = list(words.own)
    while left:
        option, equals, value = left.pop(0).partition("=")
        if option in _VALUED:
            if not equals and not left:
                stop(2, "%s lacks its value" % option)
            _take_value(read, option, value if equals else left.pop(0))
        elif option[2:] in FORMS[1:] and option.startswith("--") and not equals:
            _take_form(read, option[2:])
        elif option.startswith("-") and option != "-":
            stop(2, "changes has no option '%s' (kubectl np help changes)" % option)
        else:
            read.names.append(option + equals + value)
    read.form = read.form or "text"
    _read_sides(read, words)
    return read


def _take_form(read: ChangesWords, form: str) -> None:
    if read.form and read.form != form:
        stop(2, "choose one of --markdown and --json")
    read.form = form


def _take_value(read: ChangesWords, option: str, value: str) -> None:
    place = option[2:].replace("-", "_")
    if not value:
        stop(2, "%s has an empty value" % option)
    if getattr(read, place):
        stop(2, "%s is given twice" % option)
    if option == "--fail-on" and value not in FAULTS:
        stop(2, "--fail-on takes %s: '%s'" % (", ".join(FAULTS[:-1]) + " or " + FAULTS[-1], value))
    setattr(read, place, value)


def _read_sides(read: ChangesWords, words: Words) -> None:
    if not words.has_cluster:
        stop(2, "changes takes no -f, -k or --list: type what they name behind it, as kubectl np changes main/manifests manifests")
    if words.wants_all_namespaces:
        stop(2, "all namespaces are read, since policies reach across them; leave out -A")
    if len(read.names) > 2:
        stop(2, "%s; '%s' is a third one" % (_USAGE, read.names[2]))
    if len(read.names) < 2:
        stop(2, _USAGE)
    read.sides = [side_of(label, name, words) for label, name in zip("AB", read.names)]
    _check_options(read.sides, words)
    for side in read.sides:
        check_sources(side.words)


def _check_options(sides: List[Side], words: Words) -> None:
    """Refuses options that neither state has a use for, and standard input that is named twice."""
    of = [side.words for side in sides]
    if sum(each.list_file == "-" or "-" in each.paths for each in of) > 1:
        stop(2, "standard input (-) is named twice")
    for is_given, option, is_used, what in (
            (words.is_recursive, "-R", any(each.paths for each in of), "folders of manifests"),
            (words.allows_urls, "--allow-urls", any(each.overlay for each in of), "overlays"),
            (words.namespace, "--namespace", any(each.has_manifests for each in of), "manifests"),
            (words.ignored, "--ignore", not all(each.list_file for each in of), "manifests and clusters")):
        if is_given and not is_used:
            stop(2, "%s goes with %s, and neither A nor B is one" % (option, what))
    if words.kubectl and not any(each.has_cluster for each in of):
        stop(2, "'%s' is about a cluster, and neither A nor B is one" % words.kubectl[0])
