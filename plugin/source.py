"""Where the objects come from, as a person reads it and as a shell does."""
from __future__ import annotations

import os
from typing import List

from plugin.page.words import shell_word
from plugin.words import Words

_STANDARD_INPUT = "standard input"
_SECRETS = ("--token", "--password")


def title(words: Words) -> str:
    """What the objects are, for the title of a page."""
    if words.has_cluster:
        from plugin import context
        name = context.named(words.kubectl, "the cluster")
        return name[0].upper() + name[1:]
    named = [os.path.basename(words.list_file)] if words.list_file else [words.overlay] if words.overlay else words.paths
    return " ".join(_STANDARD_INPUT if name == "-" else name for name in named)


def command(words: Words, name: str) -> str:
    """The command of this name about the same objects, as a shell reads it back, but for secrets: who types it has to add
    them."""
    parts: List[str] = ["kubectl", "np", *_without_secrets(words.kubectl)]
    for option, values in (("--list", [words.list_file]), ("-k", [words.overlay]), ("-f", words.paths)):
        parts += [part for value in values if value for part in (option, value)]
    parts += ["-R"] if words.is_recursive else []
    parts += ["--namespace", words.namespace] if words.namespace else []
    return " ".join(map(shell_word, parts + [name]))


def _without_secrets(options: List[str]) -> List[str]:
    is_secret = [word in _SECRETS or before in _SECRETS or word.startswith(tuple(name + "=" for name in _SECRETS))
                 for before, word in zip(["", *options], options)]
    return [word for word, is_left_out in zip(options, is_secret) if not is_left_out]
