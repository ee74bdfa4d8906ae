"""`check`: whether the statements of a file hold (np_statements, np_check)."""
import re
from itertools import product
from typing import List, NamedTuple, Optional, Sequence, Tuple

from .addresses import Address, Cidr, address_text, cidr_of
from .cluster import Cluster, Place, Workload, mark
from .model import LAST_PORT, PROTOCOL_NAMES, Estate, Span, is_name
from .reading import Refused
from .spots import WHOLE, Conns, Runs, conns_text

RUN = re.compile(r"([0-9]{1,5})(?:-([0-9]{1,5}))?")


class Form(NamedTuple):
    """How a line names the ends on one side: `pods`, `namespace` or `workload`, or `addresses`, which may be those of a block."""
    kind: str
    name: str = ""
    block: Optional[Cidr] = None


class Statement(NamedTuple):
    """A statement at its line, whose number is from 1."""
    line: int
    wanted: str
    source: Form
    destination: Form
    conns: Conns


# ---- the grammar of lines

def have_gaps(runs: Runs) -> bool:
    """Whether runs of ports ascend with a gap between neighbours."""
    return all(before + 2 <= lo <= hi <= LAST_PORT for before, (lo, hi) in zip([-1] + [hi for _, hi in runs], runs))


def conns_read(text: str) -> Optional[Conns]:
    """The set of connections whose text it is; whether all is spelled as it must be is seen of the whole text."""
    parts = {part.partition(" ")[0]: RUN.findall(part) for part in text.split("; ")}
    conns = tuple(tuple((int(lo), int(hi or lo)) for lo, hi in parts.get(name, ())) for name in PROTOCOL_NAMES)
    if text == "All Connections":
        conns = (WHOLE,) * len(PROTOCOL_NAMES)
    return conns if all(have_gaps(runs) for runs in conns) and conns_text(conns) == text else None


def end_read(text: str) -> Optional[Form]:
    """The ends that a text names."""
    if text in ("any pod", "any address"):
        return Form("pods" if text == "any pod" else "addresses")
    kind, _, name = text.partition(" ")
    is_workload = kind == "workload" and "/" in name and " => " not in name and " : " not in name
    if is_workload or (kind == "namespace" and is_name(name)):
        return Form(kind, name)
    block = cidr_of(text)
    return None if block is None else Form("addresses", block=block)


def cuts(mark_text: str, text: str) -> List[Tuple[str, str]]:
    """A text in two parts round a mark, at each of its places."""
    places = [place for place in range(len(text)) if text.startswith(mark_text, place)]
    return [(text[:place], text[place + len(mark_text):]) for place in places]


def statement_read(number: int, text: str) -> Optional[Statement]:
    """The statement of a line: `allow` or `deny`, a space, ends, ` => `, ends, ` : `, and connections. One side has no addresses."""
    wanted, _, sides = text.partition(" ")
    texts = [(one, *others) for one, rest in cuts(" => ", sides) for others in cuts(" : ", rest)]
    for one, other, said in texts if wanted in ("allow", "deny") else ():
        source, destination, conns = end_read(one), end_read(other), conns_read(said)
        if source and destination and conns and (source.kind, destination.kind) != ("addresses", "addresses"):
            return Statement(number, wanted, source, destination, conns)
    return None


def statements_of(data: bytes) -> List[Statement]:
    """The statements of a file, one of each line but the empty ones, or the fault of the first line that is none."""
    found = []
    for number, line in [(number, line) for number, line in enumerate(data.split(b"\n"), 1) if line]:
        try:
            statement = statement_read(number, line.decode("utf-8"))
        except UnicodeDecodeError:
            statement = None
        if statement is None:
            raise Refused("BadStatement line %d" % number)
        found.append(statement)
    return found


def spans_in(statements: List[Statement]) -> List[Span]:
    """The ports that statements speak of."""
    return [Span(proto, *run) for statement in statements for proto, runs in enumerate(statement.conns) for run in runs]


# ---- the first packet that breaks a statement

def places_of(cluster: Cluster, form: Form) -> Sequence[Place]:
    """The ends that a form names: workloads in the order of their numbers, or the first addresses of stretches."""
    if form.kind == "addresses":
        return [address for address, _ in cluster.stretches if form.block is None or form.block.has(address)]
    if form.kind == "workload":
        return [cluster.number_named(form.name)]
    return [number for number in cluster.numbers if form.kind == "pods" or cluster.pod(number).namespace == form.name]


def place_text(cluster: Cluster, place: Place) -> str:
    """The name of a workload, or the canonical text of an address."""
    return address_text(place) if isinstance(place, Address) else cluster.workloads[place].name


def broken(cluster: Cluster, statement: Statement, sources: Sequence[Place], destinations: Sequence[Place]) -> Optional[str]:
    """The line that says how a statement is broken, if it is: by the first packet that does not comply."""
    conns = sum(cluster.space.span(*span) for span in spans_in([statement]))
    pairs = (pair for pair in product(sources, destinations) if cluster.ends(*pair) is not None)
    for one, other, family in ((*pair, family) for pair in pairs for family in cluster.families_of(*pair)):
        allowed = cluster.allows(one, other, family)
        wrong = conns & (~allowed if statement.wanted == "allow" else allowed)
        if wrong:
            proto, port = cluster.space.least(wrong)
            told = mark(family) if len(cluster.families_of(one, other)) > 1 else ""
            ends = "%s => %s%s" % (place_text(cluster, one), place_text(cluster, other), told)
            verdict = "Deny" if statement.wanted == "allow" else "Allow"
            return "line %d: %s : %s %d : %s\n" % (statement.line, ends, PROTOCOL_NAMES[proto], port, verdict)
    return None


def check_reply(estate: Estate, workloads: List[Workload], data: bytes) -> Tuple[str, bool]:
    """What is found of a statement file, and whether all its statements hold."""
    statements = statements_of(data)
    blocks = [form.block for one in statements for form in (one.source, one.destination) if form.block is not None]
    cluster = Cluster(estate, workloads, spans_in(statements), blocks)
    asked = [(one, places_of(cluster, one.source), places_of(cluster, one.destination)) for one in statements]
    for one in asked:
        found = broken(cluster, *one)
        if found is not None:
            return found, False
    return "holds: %d\n" % len(statements), True
