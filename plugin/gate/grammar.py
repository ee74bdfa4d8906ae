"""The grammar of the gate: how a statement is cut into its parts, and which ends there are.

It is np's grammar with more kinds of ends, and with `only`. Whether the parts are right is np's to say: it is shown
`stand_ins`, which have an end of np for each of the gate's own. A further kind of end is entered in `EndKind`, in one
of the two tables below it, and in `_end_of_np`.
"""
from __future__ import annotations

import re
from enum import Enum
from typing import List, NamedTuple, Optional, Tuple

from plugin.gate import label_selectors
from plugin.selectors import EVERYTHING, Selector

NO_CONNECTIONS = "No Connections"
ONLY = "only"


class EndKind(Enum):
    """What an end of a statement names."""

    ANY_POD = "all listed pods"
    NAMESPACE = "the listed pods of a namespace"
    WORKLOAD = "the pods of a workload, or of all workloads of an owner"
    PODS = "the listed pods of a namespace whose labels meet a selector"
    ADDRESSES = "addresses, or what np does not know either"
    OUTSIDE_NAMESPACE = "all pods of other namespaces, and all addresses"
    INGRESS_CONTROLLER = "what comes in through Ingresses"
    OTHERS = "all listed pods and addresses that are in none of some ends"


# The ends that are words alone, and those that are a word, a space and a name.
_WORDS = {"any pod": EndKind.ANY_POD, "ingress-controller": EndKind.INGRESS_CONTROLLER}
_NAMED = {"namespace": EndKind.NAMESPACE, "workload": EndKind.WORKLOAD, "pods": EndKind.PODS,
          "outside-namespace": EndKind.OUTSIDE_NAMESPACE}
_BLOCK = re.compile(r"[0-9a-fA-F]*[.:][0-9a-fA-F.:]*/[0-9]+")

# The ends that are pods alone.
ARE_PODS = (EndKind.ANY_POD, EndKind.NAMESPACE, EndKind.WORKLOAD, EndKind.PODS)


class End(NamedTuple):
    """Who sends or receives. The name is empty where the kind has none; PODS have a selector beside that of their
    namespace, or a fault where there is none to be read, and OTHERS the ends that they are not in."""

    kind: EndKind
    name: str
    text: str
    selector: Selector = EVERYTHING
    fault: str = ""
    ends: Tuple[End, ...] = ()


def read_end(text: str) -> End:
    """The end that is written so."""
    if text in _WORDS:
        return End(_WORDS[text], "", text)
    word, space, name = text.partition(" ")
    if not (space and word in _NAMED):
        return End(EndKind.ADDRESSES, "", text)
    return _read_pods(name, text) if word == "pods" else End(_NAMED[word], name, text)


def _read_pods(name: str, text: str) -> End:
    name, _, selector = name.partition(" ")
    if not selector.strip(" "):
        return End(EndKind.PODS, name, text, fault="pods needs a namespace and a selector of labels, as in pods shop tier=web")
    try:
        return End(EndKind.PODS, name, text, label_selectors.read(selector))
    except label_selectors.BadSelector as error:
        return End(EndKind.PODS, name, text, fault="'%s' asks nothing of labels; write key=value, key!=value, key in (a,b), "
                                                   "key notin (a,b), key or !key, joined by commas" % error)


def _read_others(text: str) -> End:
    """The ends that are separated by a comma and a space. Behind `pods` a piece that is no end goes on with the
    selector."""
    found: List[str] = []
    for piece in label_selectors.pieces(text, ", "):
        if found and found[-1].startswith("pods ") and not _is_like_end(piece):
            found[-1] += ", " + piece
        else:
            found.append(piece)
    return End(EndKind.OTHERS, "", text, ends=tuple(map(read_end, found)))


def _is_like_end(text: str) -> bool:
    return text == "any address" or bool(_BLOCK.fullmatch(text)) or read_end(text).kind != EndKind.ADDRESSES


ANY_POD = read_end("any pod")
ANY_ADDRESS = read_end("any address")


def namespace(name: str) -> End:
    """The pods of the namespace of that name."""
    return read_end("namespace " + name)


def workload(name: str) -> End:
    """The pods of the workload of that name."""
    return read_end("workload " + name)


class Parts(NamedTuple):
    """The parts of a statement. The source of one with `only` are the others."""

    verdict: str
    source: End
    destination: End
    connections: str

    def line(self) -> str:
        """The statement as a file has it."""
        return "%s %s => %s : %s" % (self.verdict, self.source.text, self.destination.text, self.connections)

    def ends(self) -> Tuple[End, ...]:
        """All ends that are written in it."""
        return (*self.source.ends, self.destination) if self.verdict == ONLY else (self.source, self.destination)


# The parts of a line that has none.
NO_PARTS = Parts("", read_end(""), read_end(""), "")


def cut(text: str) -> Optional[Parts]:
    """The parts of a statement, or None where the text cannot be one. No other place cuts statements."""
    verdict, _, rest = text.partition(" ")
    source, arrow, rest = rest.partition(" => ")
    destination, colon, connections = rest.partition(" : ")
    if not (arrow and colon):
        return None
    return Parts(verdict, _read_others(source) if verdict == ONLY else read_end(source), read_end(destination), connections)


def opposite(parts: Parts) -> Parts:
    """The statement that denies what this one allows, and the other way around."""
    return parts._replace(verdict="deny" if parts.verdict == "allow" else "allow")


def stand_ins(parts: Parts) -> List[Parts]:
    """Statements that are in np's grammar exactly where this one is in the gate's."""
    destination = _end_of_np(parts.destination)
    if parts.verdict == ONLY:
        return [Parts("deny", _end_of_np(end), destination, parts.connections) for end in parts.source.ends]
    return [parts._replace(source=_end_of_np(parts.source), destination=destination)]


def _end_of_np(end: End) -> End:
    if end.kind in (EndKind.OUTSIDE_NAMESPACE, EndKind.PODS):
        return namespace(end.name)
    return ANY_POD if end.kind == EndKind.INGRESS_CONTROLLER else end


def misuse(parts: Parts) -> Optional[str]:
    """Why an end may not stand where it does, or is none, or None where all are right."""
    if parts.source.kind == EndKind.INGRESS_CONTROLLER and parts.destination.kind not in ARE_PODS:
        return "with ingress-controller the destination is workload NAME, namespace NAME or any pod"
    # Also behind a second arrow: then the line is no statement, and this is the more helpful thing to say of it.
    if (" => " + parts.destination.text).endswith(" => ingress-controller"):
        return "ingress-controller can only be the source"
    if parts.verdict == ONLY and parts.destination.kind == EndKind.ADDRESSES:
        if any(end.kind not in (*ARE_PODS, EndKind.OUTSIDE_NAMESPACE) for end in parts.source.ends):
            return "where the right end of only is addresses, its left ends are pods: np judges no packet between two addresses"
    return next((end.fault for end in parts.ends() if end.fault), None)


def slip(text: str) -> str:
    """What may be wrong with a text that is no statement."""
    if "\t" in text:
        return "it has a tab; the parts of a statement are separated by single spaces"
    if text.endswith(" "):
        return "it ends with a space"
    if "  " in text:
        return "it has two spaces in a row; the parts of a statement are separated by single spaces"
    form = "only END, END => END" if text.startswith(ONLY + " ") else "allow|deny ENDS => ENDS"
    return "it is not of the form '%s : CONNECTIONS' (connections as np prints them: TCP 80,443-445; UDP 53)" % form
