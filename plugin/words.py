"""The words of the command line: which command, of which objects, with which options.

Options of kubectl, of the plugin and of the command come before or behind the command. Those of np's commands are not
read here but handed on: np says what is wrong with them.
"""
from __future__ import annotations

import re
from typing import List, Sequence

from plugin.said import stop

# np's commands that ask about objects, and the plugin's own.
QUESTIONS = ("list", "explain", "exposure", "evaluate", "unused", "check", "flatten")
COMMANDS = QUESTIONS + ("sample", "caveats", "snapshot", "names", "gate", "changes", "page", "filter", "version", "help")
_WITH_ENDS = ("explain", "evaluate", "check", "gate")

# Options of kubectl that say which cluster, and as whom: those that stand alone, and those that have a value.
_ALONE = re.compile(r"--(disable-compression|insecure-skip-tls-verify|match-server-version)(=.*)?", re.DOTALL)
_VALUED = (r"(-s|-v|--(as|as-group|as-uid|as-user-extra|cache-dir|certificate-authority|client-certificate|client-key|cluster|context"
           r"|kubeconfig|kuberc|password|request-timeout|server|tls-server-name|token|user|username|v))")
_WITH_VALUE = re.compile(_VALUED + r"=.*|-v[0-9]+", re.DOTALL)
_BEFORE_VALUE = re.compile(_VALUED)

_NAMESPACE = re.compile(r"[a-z0-9]([a-z0-9-]*[a-z0-9])?")
_LONG = {"-f": "--filename", "-k": "--kustomize", "-n": "--namespace"}
_PLUGIN_VALUED = ("--filename", "--kustomize", "--namespace", "--list", "--ignore")
# What may be meant by an option that is not known.
GENERAL = (*_PLUGIN_VALUED, "--recursive", "--allow-urls", "--as-address", "--quiet", "--help", "--context", "--kubeconfig", "--cluster",
           "--user", "--server", "--token", "--as", "--as-group", "--request-timeout")


class Words:
    """What the command line says."""

    def __init__(self) -> None:
        self.command = ""
        self.own: List[str] = []  # the words of the command itself
        self.kubectl: List[str] = []  # the options of kubectl
        self.paths: List[str] = []  # of -f
        self.overlay = ""  # of -k
        self.list_file = ""  # of --list
        self.namespace = ""
        self.ignored: List[str] = []  # of --ignore
        self.is_recursive = False
        self.allows_urls = False  # whether -k may fetch
        self.takes_addresses_of_pods = False
        self.is_quiet = False
        self.wants_help = False
        self.wants_all_namespaces = False

    @property
    def is_question(self) -> bool:
        """Whether the command is one of np's that asks about objects."""
        return self.command in QUESTIONS

    @property
    def has_manifests(self) -> bool:
        """Whether the objects are those of manifests."""
        return bool(self.paths or self.overlay)

    @property
    def has_cluster(self) -> bool:
        """Whether the objects are those of a cluster."""
        return not (self.has_manifests or self.list_file)


def read(given: List[str]) -> Words:
    """Sorts the words. The gate and the page read their own words themselves."""
    words = Words()
    left = list(given)
    while left:
        if left[0] == "--":
            for word in left[1:]:
                _take_bare_word(words, word)
            break
        taken = _take_option(words, left) if _is_option(left[0]) else 0
        del left[:taken or _take_word_of_command(words, left)]
    return words


def nearest_of(word: str, names: Sequence[str]) -> str:
    """What is said of the name that is nearest to a wrong word, if one is near."""
    import difflib
    near = difflib.get_close_matches(word.lower(), names, 1, 0.7)
    return "; the nearest is %s" % near[0] if near else ""


def _is_option(word: str) -> bool:
    """Whether the word begins as an option does. A hyphen alone stands for standard input."""
    return len(word) > 1 and word[0] == "-"


def _take_option(words: Words, left: List[str]) -> int:
    """Reads an option of the plugin or of kubectl from the front of the words: how many words it is, and 0 where it
    is neither."""
    word = left[0]
    if word in ("-h", "--help"):
        words.wants_help = True
    elif word in ("-R", "--recursive"):
        words.is_recursive = True
    elif word == "--allow-urls":
        words.allows_urls = True
    elif word == "--as-address":
        words.takes_addresses_of_pods = True
    elif word == "--quiet":
        words.is_quiet = True
    elif word in ("-A", "--all-namespaces") or word.startswith("--all-namespaces="):
        words.wants_all_namespaces = True
    elif word in _LONG or word in _PLUGIN_VALUED:
        _take_value(words, word, _value_behind(left))
        return 2
    elif word.split("=")[0] in _PLUGIN_VALUED:
        _take_value(words, *word.split("=", 1))
    elif word[:2] in _LONG:
        _take_value(words, word[:2], word[3:] if word[2] == "=" else word[2:])
    else:
        return _take_option_of_kubectl(words, left)
    return 1


def _value_behind(left: List[str]) -> str:
    if len(left) < 2:
        stop(2, "%s lacks its value" % left[0])
    return left[1]


def _take_value(words: Words, option: str, value: str) -> None:
    name = _LONG.get(option, option)
    if name == "--filename":
        words.paths.append(value)
    elif name == "--ignore":
        words.ignored.append(value)
    else:
        place = {"--kustomize": "overlay", "--list": "list_file", "--namespace": "namespace"}[name]
        if getattr(words, place):
            stop(2, "%s is given twice" % option)
        setattr(words, place, value)
    if not value:
        stop(2, "%s has an empty value" % option)


def _take_option_of_kubectl(words: Words, left: List[str]) -> int:
    if _ALONE.fullmatch(left[0]) or _WITH_VALUE.fullmatch(left[0]):
        words.kubectl.append(left[0])
        return 1
    if _BEFORE_VALUE.fullmatch(left[0]):
        words.kubectl += [left[0], _value_behind(left)]
        return 2
    return 0


def _take_word_of_command(words: Words, left: List[str]) -> int:
    """Takes what is an option of the command, or a word of it. Each of np's options has a value, which may stand
    behind it."""
    word = left[0]
    if not _is_option(word):
        _take_bare_word(words, word)
        return 1
    if not words.command:
        stop(2, "unknown option '%s'%s (kubectl np help lists them)" % (word, nearest_of(word.partition("=")[0], GENERAL)))
    has_value = words.is_question and "=" not in word and len(left) > 1 and not _is_option(left[1])
    taken = 2 if has_value else 1
    words.own += left[:taken]
    return taken


def _take_bare_word(words: Words, word: str) -> None:
    """Takes a word that is no option: the command first, and behind it what that has."""
    if not words.command:
        if word not in COMMANDS:
            stop(2, "there is no command '%s'%s (kubectl np help lists them)" % (word, nearest_of(word, COMMANDS)))
        words.command = word
    elif words.is_question:
        stop(2, "unexpected word '%s': name a list with --list, and manifests with -f" % word)
    else:
        words.own.append(word)


def option(own: List[str], name: str) -> str:
    """The value of an option of np's command; empty where it is not given."""
    for place, word in enumerate(own):
        if word == name:
            return own[place + 1] if place + 1 < len(own) else ""
        if word.startswith(name + "="):
            return word[len(name) + 1:]
    return ""


def check_sources(words: Words) -> None:
    """Refuses words that do not go together."""
    if words.command == "changes":
        return  # it has the words of each state that it compares looked at by themselves
    if words.command in ("sample", "version") and not words.has_cluster:
        stop(2, "%s reads no objects" % words.command)
    if sum(map(bool, (words.paths, words.overlay, words.list_file))) > 1:
        stop(2, "choose one of -f, -k and --list")
    if words.is_recursive and not words.paths:
        stop(2, "-R goes with -f")
    if words.allows_urls and not words.overlay:
        stop(2, "--allow-urls goes with -k")
    if words.takes_addresses_of_pods and words.command not in _WITH_ENDS:
        stop(2, "--as-address goes with explain, evaluate, check and gate")
    _check_namespace(words)
    if not words.has_cluster and words.kubectl:
        stop(2, "'%s' is about a cluster, but with -f, -k or --list no cluster is asked" % words.kubectl[0])
    if words.ignored and words.list_file:
        stop(2, "--ignore does not go with --list, which is read as it is")
    for path in words.paths:
        if path.startswith(("http://", "https://")):
            stop(2, "URLs are not fetched: '%s'" % path)
    _check_standard_input(words)


def _check_namespace(words: Words) -> None:
    if words.wants_all_namespaces or (words.namespace and not words.has_manifests):
        stop(2, "all namespaces are read, since policies reach across them; leave out -n and -A, and choose rows with "
                "list --namespace-focus")
    if words.namespace and not _NAMESPACE.fullmatch(words.namespace):
        stop(2, "'%s' is no name of a namespace" % words.namespace)


def _check_standard_input(words: Words) -> None:
    """Standard input can be read once: as a manifest, as the list, or as the statements of the gate."""
    places = words.paths + [words.list_file] + (words.own if words.command == "gate" else [])
    if places.count("-") > 1:
        stop(2, "standard input (-) is named twice")


def check_own(words: Words) -> None:
    """Refuses words that a command of the plugin does not take. Those of the gate and of the page are read where they
    are needed."""
    own = words.own
    if words.command in ("caveats", "snapshot", "filter", "version") and own:
        stop(2, "%s takes no further words: '%s'" % (words.command, own[0]))
    if words.command == "names" and own not in ([], ["pods"]):
        stop(2, "names takes no word but pods: '%s'" % " ".join(own))
