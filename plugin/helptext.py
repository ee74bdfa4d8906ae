"""What is printed about the plugin itself: the texts of help.txt, in which a line `== COMMAND` stands before each,
and first that of all."""
from __future__ import annotations

from typing import Dict, List

from plugin import parts, said


def _texts() -> Dict[str, bytes]:
    found = (text.split(b"\n", 1) for text in (b"\n" + parts.part("plugin/help.txt")).split(b"\n== ")[1:])
    return {name.decode().strip(): text + b"\n" for name, text in found}


def of(command: str) -> bytes:
    """The help of the command, or of all."""
    return _texts()["" if command == "help" else command]


def about(words: List[str]) -> bytes:
    """What is asked for behind `help`: of a command its help, and of a fault, a note or a caveat what it means."""
    texts, name = _texts(), " ".join(words)
    if name in texts or name == "help":
        return of(name)
    if words[0] in texts:
        said.stop(2, "help takes one command")
    from plugin import meanings
    meaning = meanings.all_meanings().get(meanings.compared(name))
    if meaning is not None:
        return said.encoded(meaning.text())
    near = meanings.nearest(name, [*filter(None, texts), "help"])
    said.stop(2, "there is no command, fault, note or caveat '%s'%s (kubectl np help lists the commands)" % (
        name, "; the nearest is %s" % near[0] if near else ""))


def name_help(fault: str) -> None:
    """Says how to read what the fault means, if it is one of np."""
    from plugin import meanings
    if meanings.is_fault(fault):
        said.say("what %s means, and what to do: kubectl np help %s" % (fault, fault))


def print_usage_error() -> None:
    """Without a command: the usage on standard error."""
    said.relay(of(""))
