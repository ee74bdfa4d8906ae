"""The cases that compare.py runs both programs on: words, files and standard input, by kinds of cases and numbers."""
import copy
import json
import random
from typing import Any, Callable, Dict, List, NamedTuple, Sequence, Tuple

from second.program import small_estate
from second.reading import Refused

Rng = random.Random
Place = Tuple[Any, ...]


class Case(NamedTuple):
    """A run: the words behind the program's name, the files that are there, and what standard input holds."""
    words: List[str]
    files: Dict[str, bytes]
    stdin: bytes


class Raw:
    """A value that stands in the JSON text as it is spelled here."""

    def __init__(self, text: str) -> None:
        self.text = text


NUMBERS = [0, 1, -1, 80, 443, 65535, 65536, 1000, 1001, 2 ** 63 - 1, 2 ** 63, -2 ** 63, -2 ** 63 - 1, 2 ** 64, Raw("80.0"), Raw("8e1"),
           Raw("-0"), Raw("0.0"), Raw("1e400"), Raw("-1E+400"), Raw("0e999"), Raw("1e-999"), Raw("1" + "0" * 400), Raw("080"), Raw("+80"),
           Raw(".5"), Raw("5."), Raw("NaN"), Raw("-"), Raw("0x10")]
TEXTS = ["", "a", "A.b-c_d", "a/b", "a b", "a:b", "\u00e9", "\n", "\"", "a\u0000", "\U0001f600", "None", "-", "_", ".", "80", "http",
         "default", "List", "x" * 300, Raw('"\\u0061"'), Raw('"\\ud83d\\ude00"'), Raw('"\\ud83d"'), Raw('"\\ude00"'), Raw('"\\ud83dx"'),
         Raw('"a\tb"'), Raw('"\\/"'), Raw('"\\x"'), Raw("'a'"), Raw('"\x7f"')]
ADDRESSES = ["10.0.0.1", "010.000.000.001", "10.0.0.02", "00.0.0.0", "10.0.0", "10.0.0.256", "10.0.0.1.", "1e1.0.0.1", "::", "::1", "1::",
             "fd00::0:1", "FD00::1", "1:2:3:4:5:6:7:8", "1:2:3:4:5:6:7", "1::2::3", ":1::2", "::ffff:10.0.0.1", "1:2:3:4:5:6:10.0.0.1",
             "10.0.0.1::", "1:2:3:4:5:6:7::", "::2:3:4:5:6:7:8", "1::3:4:5:6:7:8", "1:2:3:4::5:6:7:8", "00001::", "fe80::1%eth0",
             " 10.0.0.1", "10.0.0.1 ", "\u0661.0.0.1", "10.0.0.-1", "10.0.0.+1", "0x0a.0.0.1", ":::", "1:::2", "::1.2.3.4.5", "::1.2.3",
             "1.2.3.4:5::"]
BASES = ["10.0.0.1", "010.0.0.00", "0.0.0.0", "fd00::1", "::", "fd00::10.0.0.1"]
LENGTHS = ["0", "8", "08", "00", "31", "32", "33", "64", "128", "129", "", "-1", "+8", "8 ", "1e1", "256", "0032"]
CIDRS = [base + "/" + length for base in BASES for length in LENGTHS]
OTHERS = [None, True, False, [], {}, [[]], [{}], {"a": None}, {"": "x"}, {"app": "x"}, {"a b": "x"}, {"app": "a b"}, {"app": 1},
          {"app": None}, ["x", "x"], [1], ["a b"], [None]]
KNOWN = ["In", "NotIn", "Exists", "DoesNotExist", "in", "TCP", "UDP", "SCTP", "tcp", "Ingress", "Egress", "ingress", "Allow", "Deny",
         "Pass", "pass", "v1", "apps/v1", "batch/v1", "networking.k8s.io/v1", "policy.networking.k8s.io/v1alpha1",
         "policy.networking.k8s.io/v1alpha2", "Pod", "Node", "Deployment", "PodList", "NetworkPolicy", "CiliumNetworkPolicy",
         "AdminNetworkPolicy", "Succeeded", "Failed", "ExternalName"]
GONE = object()
POOL: Sequence[Any] = [GONE, *NUMBERS, *TEXTS, *ADDRESSES, *CIDRS, *OTHERS, *KNOWN]
MEMBERS = ["nodes", "domainNames", "matchFields", "ipBlock", "podSelector", "namespaceSelector", "namespaces", "pods", "networks",
           "portNumber", "portRange", "namedPort", "endPort", "port", "number", "name", "resource", "service", "except", "values", "except",
           "items", "metadata", "spec", "namespace", "labels", "hostNetwork", "replicas", "controller"]


# ---- JSON texts

def text_of(value: Any, indent: Any = None) -> bytes:
    """The JSON text of a value, in which raw values stand as they are spelled."""
    raws: List[str] = []

    def hole(raw: Raw) -> str:
        raws.append(raw.text)
        return "@@%d@@" % (len(raws) - 1)

    text = json.dumps(value, indent=indent, ensure_ascii=False, default=hole)
    for number, raw in enumerate(raws):
        text = text.replace('"@@%d@@"' % number, raw)
    return text.encode("utf-8", "surrogatepass")


def list_of(items: List[Any]) -> Any:
    """A `v1` List of items."""
    return {"apiVersion": "v1", "kind": "List", "items": items}


def places_in(value: Any) -> List[Place]:
    """The places of all parts of a value."""
    places: List[Place] = []
    inside: List[Tuple[Place, Any]] = [((), value)]
    while inside:
        place, part = inside.pop()
        steps = list(part) if isinstance(part, dict) else range(len(part)) if isinstance(part, list) else ()
        inside += [(place + (step,), part[step]) for step in steps]
        places += [place + (step,) for step in steps]
    return places


def mixed(rng: Rng, value: Any) -> Any:
    """A value with the members of all objects in another order."""
    if isinstance(value, list):
        return [mixed(rng, part) for part in value]
    if not isinstance(value, dict):
        return value
    return {name: mixed(rng, value[name]) for name in rng.sample(list(value), len(value))}


def at(value: Any, place: Place) -> Any:
    """The part of a value at a place."""
    for step in place:
        value = value[step]
    return value


def put(value: Any, place: Place, part: Any) -> None:
    """Puts a part at a place, or takes away what is there."""
    inside = at(value, place[:-1])
    if part is GONE:
        del inside[place[-1]]
    else:
        inside[place[-1]] = copy.deepcopy(part)


def spoil(rng: Rng, items: List[Any]) -> None:
    """One change of some items at some place."""
    place = rng.choice(places_in(items))
    kind = rng.random()
    if kind < 0.75:
        put(items, place, rng.choice(POOL))
    elif kind < 0.85 and isinstance(at(items, place), dict):
        at(items, place)[rng.choice(MEMBERS)] = copy.deepcopy(rng.choice(POOL[1:]))
    else:
        put(items, place, copy.deepcopy(at(items, rng.choice(places_in(items)))))


# ---- words

def names_in(texts: Tuple[bytes, ...]) -> Tuple[List[str], List[str]]:
    """The names of workloads, and of listed pods."""
    try:
        estate, workloads = small_estate(texts)
    except Refused:
        return ["nsone/p0[Pod]"], ["nsone/p0"]
    return [one.name for one in workloads] or ["a/b"], [pod.name.path() for pod in estate.pods] or ["a/b"]


def end(rng: Rng, names: List[str]) -> str:
    """An end as words name it, mostly one that is there."""
    kind = rng.random()
    if kind < 0.7:
        return rng.choice(names)
    if kind < 0.95:
        return rng.choice(["10.0.0.1", "10.1.0.2", "fd00::2", "255.255.255.255", "::1"])
    return rng.choice(["no/such", "a/", "no/\r\n\t\x1b\x85\\n", *ADDRESSES])


def options(rng: Rng, command: str, names: Tuple[List[str], List[str]]) -> List[str]:
    """Random options of a command."""
    workloads, pods = names
    formats, ports = ["text", "csv", "json"], ["53", "80", "8080", "81", "1", "65535"]
    chances: Dict[str, List[Tuple[str, float, Callable[[], str]]]] = {
        "list": [("format", 0.3, lambda: rng.choice(formats)), ("report", 0.3, lambda: rng.choice("12")),
                 ("controller", 0.35, lambda: end(rng, workloads)), ("focus", 0.2, lambda: end(rng, workloads)),
                 ("side", 0.3, lambda: rng.choice(["either", "from", "to"]))],
        "explain": [("from", 1, lambda: end(rng, workloads)), ("to", 1, lambda: end(rng, workloads))],
        "exposure": [("workload", 0.4, lambda: end(rng, workloads)), ("format", 0.3, lambda: rng.choice(formats))],
        "evaluate": [("from", 1, lambda: end(rng, pods)), ("to", 1, lambda: end(rng, pods)),
                     ("protocol", 1, lambda: rng.choice(["TCP", "TCP", "UDP", "SCTP"])), ("port", 1, lambda: rng.choice(ports))],
    }
    words: List[str] = []
    for name, chance, value in chances.get(command, []):
        if rng.random() < chance:
            words += ["--" + name, value()]
    return words


COMMANDS = ["list"] * 3 + ["explain"] * 2 + ["evaluate"] + ["exposure"] * 2 + ["unused"] + ["flatten"] * 2 + ["check"] * 2


def asked(rng: Rng, texts: List[bytes], command: str = "") -> Case:
    """A random question about some inputs, the last of which may be standard input."""
    command = command or rng.choice(COMMANDS)
    names = names_in(tuple(texts))
    files = {"%d.json" % number: text for number, text in enumerate(texts)}
    words = [command] + options(rng, command, names)
    if command == "check":
        files["statements"] = statements(rng, names[0])
        words += ["--statement", "statements"]
    if len(texts) == 1 and rng.random() < 0.5:
        return Case(words, {name: text for name, text in files.items() if name == "statements"}, texts[0])
    return Case(words + sorted(name for name in files if name != "statements"), files, b"")


# ---- statements

def form(rng: Rng, names: List[str], addresses: bool) -> str:
    """The ends on one side of a statement."""
    if addresses and rng.random() < 0.4:
        return rng.choice(["any address", "10.0.0.0/8", "10.0.0.2/32", "fd00::/64", "0.0.0.0/0", "::/0", "10.0.0.1/9"])
    return rng.choice(["any pod", "namespace nsone", "namespace nstwo", "workload " + rng.choice(names), "workload " + rng.choice(names)])


def conns(rng: Rng) -> str:
    """The connections of a statement."""
    runs = ["53", "80", "80-90", "1-65535", "443", "8080", "50-60,80", "53,80,8080", "1-52,54-65535"]
    parts = [name + " " + rng.choice(runs) for name in ("TCP", "UDP", "SCTP") if rng.random() < 0.5]
    if rng.random() < 0.03:
        return "TCP 1-65535; UDP 1-65535; SCTP 1-65535"
    return rng.choice(["All Connections", "No Connections", "; ".join(parts) or "TCP 80", "; ".join(parts) or "UDP 53"])


def statement(rng: Rng, names: List[str]) -> str:
    """The line of a statement."""
    addresses = rng.random() < 0.5
    ends = form(rng, names, addresses), form(rng, names, not addresses or rng.random() < 0.05)
    return "%s %s => %s : %s" % (rng.choice(["allow", "deny"]), *ends, conns(rng))


def statements(rng: Rng, names: List[str]) -> bytes:
    """A file of statements."""
    lines = [statement(rng, names) if rng.random() < 0.95 else "" for _ in range(rng.randrange(0, 5))]
    return ("\n".join(lines) + rng.choice(["", "\n", "\n\n"])).encode()


PIECES = [" => ", " : ", " ", "  ", "workload ", "namespace ", "any pod", "any address", "allow ", "deny ", "TCP ", "UDP 53", "; ", ",",
          "-", "80", "080", "0", "65536", "53-53", "80,81", "80-79", "All Connections", "No Connections", "/", "a/b => c/d", "\r", "\t",
          "#", "nsone", "NSONE", "10.0.0.0/8", "::/0", "\u00e9", "10.0.0.0/33", "65535", "1-65535", "99999999999999999999"]


def spoilt_line(rng: Rng, line: str) -> bytes:
    """A line with one change."""
    place, other = rng.randrange(len(line) + 1), rng.randrange(len(line) + 1)
    kind = rng.randrange(5)
    if kind == 0:
        return (line[:min(place, other)] + line[max(place, other):]).encode()
    if kind == 1:
        return (line[:place] + rng.choice(PIECES) + line[place:]).encode()
    if kind == 2:
        piece = rng.choice(PIECES)
        return line.replace(rng.choice(PIECES), piece, 1).encode()
    if kind == 3:
        return line.encode()[:place] + bytes([rng.randrange(256)]) + line.encode()[place:]
    return (line[:place] + line[place + 1:]).encode()
