"""Which caveats bear on the answer to a question, and the addresses of pods among its words."""
from __future__ import annotations

from typing import TYPE_CHECKING, Dict, Iterable, List, Optional

from plugin.caveats.caveat import ANY_POD, ANYONE, CONTROLLER, Caveat, Ends, Pair
from plugin.caveats.whole import Caveats
from plugin.said import stop
from plugin.words import Words, option

if TYPE_CHECKING:
    from plugin.caveats.objects import Address
    from plugin.program import Program

_ENDS = ("--from", "--to")


def bearing(words: Words, caveats: Caveats) -> List[Caveat]:
    """The caveats that bear on the answer. Those that a note of np says too are left out where it does."""
    if words.command in ("explain", "evaluate"):
        return _between(words, caveats)
    if words.command == "list":
        return _of_list(words, caveats)
    focus = option(words.own, "--workload")
    found = [caveat for caveat in caveats.all if not is_of_ingresses(caveat)]
    if not focus:
        return found
    from plugin.caveats.statements import owner_of
    return of_focus(found, frozenset([owner_of(focus)]), "")


def _of_list(words: Words, caveats: Caveats) -> List[Caveat]:
    """The caveats that touch what the rows of `list` are about, by its filters."""
    from plugin.rowfilter.words import read
    filters = read(words.own)
    is_named = bool(option(words.own, "--controller"))
    found = [caveat for caveat in caveats.all if not caveat.is_noted and not (is_named and caveat.key == "controller-not-named")]
    if filters.ports:
        from plugin.caveats.statements import at_ports
        from plugin.ports import Ports
        found = at_ports(found, [(protocol, Ports([(number, number)])) for protocol, number in filters.ports])
    if not (filters.focus or filters.namespaces):
        return found
    from plugin.caveats.statements import owner_of
    ends = frozenset(map(owner_of, filters.focus)).union(*map(caveats.listed.ends_of, filters.namespaces))
    return of_focus(found, ends, filters.side)


def is_of_ingresses(caveat: Caveat) -> bool:
    """Whether the caveat bears on nothing but what comes in through Ingresses."""
    return all(pair.senders == CONTROLLER for pair in caveat.touched)


def of_focus(caveats: Iterable[Caveat], focus: Ends, side: str) -> List[Caveat]:
    """The caveats that touch one of the workloads at this side."""
    return [caveat for caveat in caveats if any(_is_about(pair, focus, side) for pair in caveat.touched)]


def _is_about(pair: Pair, focus: Ends, side: str) -> bool:
    """Whether the pair names one of the workloads at the side, or is about all pods."""
    is_named = side != "to" and not focus.isdisjoint(pair.senders) or side != "from" and not focus.isdisjoint(pair.receivers)
    return is_named or pair.senders | pair.receivers <= ANYONE | ANY_POD


def _between(words: Words, caveats: Caveats) -> List[Caveat]:
    """The caveats that touch the two ends of explain and evaluate."""
    from plugin.caveats.statements import at_ports, ports_of
    source_end, destination = [_end(words, caveats, option(words.own, name)) for name in _ENDS]
    asked = Pair(source_end, destination)
    packet = "%s %s" % (option(words.own, "--protocol"), option(words.own, "--port"))
    ports = ports_of("All Connections" if words.command == "explain" else packet)
    touching = [caveat for caveat in caveats.all if any(pair.touches(asked) for pair in caveat.touched)]
    return at_ports([caveat for caveat in touching if not is_of_ingresses(caveat)], ports)


def _end(words: Words, caveats: Caveats, word: str) -> Ends:
    if "/" not in word:
        return ANYONE
    from plugin.caveats.statements import ends_of_workload
    return ends_of_workload(caveats.listed.workload_of(word) if words.command == "evaluate" else word)


def refuse_addresses(words: Words, caveats: Caveats, program: Program) -> None:
    """Refuses an address that is that of a listed pod: np takes each for an end outside the cluster, where nothing is
    decided."""
    found = {name: _pod_at(option(words.own, name), caveats) for name in _ENDS}
    for name in _ENDS:
        address = found[name]
        if address is not None:
            asked = {each: _name_of(words, pod, program, caveats) for each, pod in found.items() if pod is not None}
            stop(2, "%s is the address of pod %s, and np takes an address for an end outside the cluster; ask about the pod: %s; "
                    "--as-address goes on" % (option(words.own, name), address.pod, _line(words, asked)))


def _pod_at(word: str, caveats: Caveats) -> Optional[Address]:
    return caveats.addresses.pod_at(word) if word and "/" not in word else None


def _name_of(words: Words, address: Address, program: Program, caveats: Caveats) -> str:
    """What the command takes for the pod."""
    if words.command == "evaluate":
        return address.pod
    from plugin import names
    from plugin.caveats.statements import names_of_workload
    try:
        return names_of_workload(address.pods.workload, names.workloads(program, caveats.path))[0]
    except (names.NoNames, IndexError):
        return address.pods.workload


def _line(words: Words, ends: Dict[str, str]) -> str:
    """The line to type, with these ends in the place of the addresses."""
    from plugin import source
    from plugin.page.words import shell_word
    parts: List[str] = []
    for word in words.own:
        name = word.partition("=")[0]
        if name in ends and "=" in word:
            parts.append("%s=%s" % (name, shell_word(ends[name])))
        elif parts and parts[-1] in ends:
            parts.append(shell_word(ends[parts[-1]]))
        else:
            parts.append(shell_word(word))
    return " ".join([source.command(words, words.command), *parts])
