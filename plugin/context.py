"""Which cluster kubectl asks, by the names that its configuration has for it. Nothing else of the configuration is looked at:
it has keys and tokens."""
from __future__ import annotations

import json
from functools import lru_cache
from typing import List, NamedTuple, Optional, Sequence, Tuple

from plugin import kubectl, said
from plugin.objects import member

_SERVER = ("--server", "-s")


class Context(NamedTuple):
    """The context that kubectl takes with the options that are given, and its cluster."""

    name: str
    cluster: str


def tell(options: List[str]) -> None:
    """Says which cluster is read: on a terminal alone, where somebody may see that it is the wrong one."""
    if said.is_on_terminal() and not said.is_quiet:
        said.say("reading " + named(options, "a cluster without a context"))


def named(options: List[str], unknown: str) -> str:
    """The cluster as a person names it, on one line; or this text where kubectl has no context."""
    context = _read(tuple(options))
    if context is None:
        return unknown
    cluster = "the server of --server" if any(_is_given(options, name) for name in _SERVER) else "cluster " + context.cluster
    return said.shown("%s (context %s)" % (cluster, context.name))


@lru_cache(maxsize=None)
def _read(options: Tuple[str, ...]) -> Optional[Context]:
    ended = kubectl.run([*options, "config", "view", "--minify", "--output", "json"])
    try:
        config = json.loads(ended.out) if ended.status == 0 else None
    except ValueError:
        return None
    name = member(config, "current-context")
    contexts = member(config, "contexts")
    clusters = [member(each, "context", "cluster") for each in contexts or [] if member(each, "name") == name]
    cluster = _value(options, "--cluster") or (clusters[0] if clusters else None)
    return Context(name, cluster) if isinstance(name, str) and isinstance(cluster, str) else None


def _is_given(options: Sequence[str], name: str) -> bool:
    return any(word == name or word.startswith(name + "=") for word in options)


def _value(options: Sequence[str], name: str) -> str:
    """The value of an option; of one that is given twice the last one counts, as for kubectl."""
    found = ""
    for word, behind in zip(options, [*options[1:], ""]):
        if word == name:
            found = behind
        elif word.startswith(name + "="):
            found = word[len(name) + 1:]
    return found
