"""The kinds of cases, each made of a random number generator and a number."""
import copy
from typing import Any, Callable, Dict, List

import clusters
from cases import (ADDRESSES, CIDRS, COMMANDS, KNOWN, NUMBERS, OTHERS, POOL, TEXTS, Case, Place, Rng, asked, at, list_of,
                   mixed, names_in, options, places_in, put, spoil, spoilt_line, statement, statements, text_of)


def cut(rng: Rng, items: List[Any]) -> List[bytes]:
    """The texts of one input of these items, or of several, of which each is a list or one object."""
    if rng.random() < 0.75:
        return [text_of(list_of(items), 1 if rng.random() < 0.1 else None)]
    if rng.random() < 0.3:
        return [text_of(item) for item in items]
    places = sorted(rng.randrange(len(items) + 1) for _ in range(rng.randrange(1, 3)))
    return [text_of(list_of(items[one:other])) for one, other in zip([0] + places, places + [len(items)])]


def lists(rng: Rng, number: int) -> List[Case]:
    """A random list, which in one case of six has a few changes, and a question about it."""
    items = clusters.random_items(rng)
    for _ in range(rng.randrange(1, 4) if rng.random() < 0.17 else 0):
        if items:
            spoil(rng, items)
    return [asked(rng, cut(rng, mixed(rng, items) if rng.random() < 0.15 else items))]


def large(rng: Rng, number: int) -> List[Case]:
    """A list of a few dozen objects."""
    return [asked(rng, cut(rng, clusters.many_items(rng)))]


FULL = clusters.full_items()
FULL_PLACES = places_in(FULL)


def faults(rng: Rng, number: int) -> List[Case]:
    """The list that has all members, with one value put at one place of all of these, or two at two: each pair in its turn."""
    items = copy.deepcopy(FULL)
    turn = number * 7919 % (len(FULL_PLACES) * len(POOL))
    second = rng.choice(FULL_PLACES) if rng.random() < 0.4 else None
    put(items, FULL_PLACES[turn % len(FULL_PLACES)], POOL[turn // len(FULL_PLACES)])
    if second is not None:
        try:
            put(items, second, rng.choice(POOL))
        except (LookupError, TypeError, AttributeError):  # the first change took the second place away
            pass
    return [asked(rng, [text_of(list_of(items))])]


NUMBERED = ("port", "number", "containerPort", "endPort", "start", "end", "replicas", "priority", "targetPort", "controller", "hostNetwork")
POOLS: Dict[str, List[Any]] = {name: NUMBERS + ["80", "http", True, None] for name in NUMBERED}
POOLS.update({name: [*CIDRS, *ADDRESSES, *TEXTS] for name in ("cidr", "except", "networks")})
POOLS.update({name: [*ADDRESSES, *TEXTS, *CIDRS[:6], None] for name in ("podIP", "ip")})
POOLS.update({name: [*TEXTS, *KNOWN] for name in ("name", "namespace", "key", "kind", "app", "tier", "env", "values", "protocol",
                                                  "operator", "action", "policyTypes", "apiVersion", "phase", "namedPort")})
POOLS.update({name: [*OTHERS] for name in ("labels", "matchLabels", "matchExpressions", "selector", "podSelector", "namespaceSelector",
                                           "subject", "from", "to", "ports", "ingress", "egress", "spec", "metadata")})


def pool_of(place: Place) -> List[Any]:
    """The values that are tried at a place, by the last member that it names."""
    named = [step for step in place if isinstance(step, str)]
    return POOLS.get(named[-1], []) if named else []


def spellings(rng: Rng, number: int) -> List[Case]:
    """A random list in which some values are spelled otherwise."""
    items = clusters.random_items(rng)
    places = [place for place in places_in(items) if pool_of(place)]
    for place in rng.sample(places, min(len(places), rng.choice([1, 1, 2]))):
        try:
            if not isinstance(at(items, place), (dict, list)) or rng.random() < 0.2:
                put(items, place, rng.choice(pool_of(place)))
        except (LookupError, TypeError):  # an earlier change took the place away
            pass
    return [asked(rng, cut(rng, items))]


ODD_WORDS = ["--", "-", "-x", "--help", "-h", "--version", "help", "", "=", "--=", "--format", "--format=", "--format=csv",
             "--format=json=", "--report=1", "--report", "3", "csv", "TEXT", "--from", "--to", "--from=10.0.0.1", "--to=nsone/p0", "--to=",
             "--focus=", "--focus=nsone/p0[Pod]", "--side=to", "--side", "both", "--port=80", "--port=080", "--port=+80", "--port=0",
             "--port=65536", "--protocol=TCP", "--protocol=tcp", "--workload", "--workload=a/b", "--statement=statements", "--statement=-",
             "--statement", "0.json", "none.json", ".", "statements", "--controller=--format", "--controller", "-1", "--forma=csv",
             "--FORMAT=csv", "10.0.0.1", "list", "1", "1000", "7", "01", "5\u0661", "./0.json", "\u00e9", "--\u00e9", "a b", "--from=::1",
             "--from=010.0.0.1", "--port", "80", "--protocol", "UDP", "nsone/p1", "nsone/p0[Pod]", "\udcff", "a\udcc3/b"]


def words(rng: Rng, number: int) -> List[Case]:
    """A random list, and words that are out of place here and there."""
    text = text_of(list_of(clusters.random_items(rng)))
    command = rng.choice(COMMANDS + ["sample", "sample"])
    own = [command] + (options(rng, command, names_in((text,))) if rng.random() < 0.8 else [])
    own += ["--statement", "statements"] if command == "check" else []
    own += options(rng, command, names_in((text,))) if rng.random() < 0.1 else []
    own += [str(rng.choice([1, 2, 5, 9, 30, 0, 1001]))] if command == "sample" else [] if rng.random() < 0.5 else ["0.json"]
    for _ in range(rng.choice([0, 1, 1, 2, 3])):
        place = rng.randrange(len(own) + 1)
        if rng.random() < 0.2:
            del own[place:place + 1]
        elif rng.random() < 0.2 and own:
            own.insert(place, rng.choice(own))
        else:
            own[place:place + (rng.random() < 0.3)] = [rng.choice(ODD_WORDS)]
    return [Case(own, {"0.json": text, "statements": statements(rng, names_in((text,))[0])}, text)]


def statement_files(rng: Rng, number: int) -> List[Case]:
    """A random list, and a file of statements of which one or two lines may be spoilt."""
    text = text_of(list_of(clusters.random_items(rng)))
    names = names_in((text,))[0] + (["no/such"] if rng.random() < 0.1 else [])
    lines = [statement(rng, names).encode() for _ in range(rng.randrange(1, 4))]
    for _ in range(rng.choice([0, 0, 0, 1, 1, 2])):
        place = rng.randrange(len(lines))
        lines[place] = spoilt_line(rng, lines[place].decode("utf-8", "replace"))
    return [Case(["check", "--statement", "statements"], {"statements": b"\n".join(lines) + b"\n"}, text)]


BYTES = [b"{", b"}", b"[", b"]", b",", b":", b'"', b"\\", b"\\u", b"\\ud800", b"0", b"-", b".", b"e", b"\xff", b"\xc3\xa9", b"\xed\xa0\x80",
         b"\xef\xbb\xbf", b"\x00", b"\x0b", b"\xa0", b" ", b"\n", b"\t", b"\r", b"null", b"true", b"NaN", b"Infinity", b"//", b'"a":1,',
         b'"kind":"List",', b'"items":[],', b'"metadata":{},', b'"spec":null,', b"\xf4\x90\x80\x80", b"\xc0\x80", b"1E5", b"[[[[", b"{}"]


def json_texts(rng: Rng, number: int) -> List[Case]:
    """The text of a random list with a few bytes put in, left out or doubled."""
    items = clusters.random_items(rng)[:4]
    text = text_of(list_of(items), 2 if rng.random() < 0.1 else None)
    if number % 20 == 7:  # half of a surrogate pair, in a member that another one of its name replaces
        text = b'{"kind":"\\ud800",' + text[1:]
    for _ in range(rng.choice([1, 1, 2])):
        place, length = rng.randrange(len(text) + 1), rng.choice([0, 0, 1, 1, 2, 30])
        text = text[:place] + rng.choice([rng.choice(BYTES), b"", text[place:place + length] * 2]) + text[place + length:]
    return [asked(rng, [text], rng.choice(["list", "flatten"]))]


# ---- limits

def nested(depth: int, opens: str = "[", inside: str = "") -> bytes:
    """A List, of which a member nests as deep as `depth` says with it."""
    closes = {"[": "]", '{"a":': "}"}[opens]
    inside = inside or ("" if opens == "[" else "1")
    return ('{"apiVersion":"v1","kind":"List","items":[],"x":%s%s%s}' % (opens * (depth - 1), inside, closes * (depth - 1))).encode()


def many(count: int, kind: str = "ConfigMap") -> bytes:
    """A List of so many objects."""
    pods = [{"apiVersion": "v1", "kind": kind, "metadata": {"name": "p%d" % n}, "spec": {}} for n in range(count)]
    return text_of(list_of(pods))


def mentioned(keys: int, values: int) -> bytes:
    """A List with a policy that mentions so many keys with so many values each."""
    wanted = [{"key": "k%d" % key, "operator": "In", "values": ["v%d" % value for value in range(values)]} for key in range(keys)]
    peers = [{"podSelector": {"matchExpressions": [one]}} for one in wanted]
    net = {"apiVersion": "networking.k8s.io/v1", "kind": "NetworkPolicy", "metadata": {"name": "n"}, "spec": {"ingress": [{"from": peers}]}}
    return text_of(list_of([{"apiVersion": "v1", "kind": "Pod", "metadata": {"name": "p"}, "spec": {}}, net]))


def sized(size: int) -> bytes:
    """A List of so many bytes."""
    text = b'{"apiVersion":"v1","kind":"List","items":[]}'
    return text + b" " * (size - len(text))


HALF = 33554432 // 2
DEPTHS = [(depth, opens) for depth in (2, 126, 127, 128, 129, 2000) for opens in ("[", '{"a":')]
LIMITS: List[Callable[[], Case]] = [
    *[lambda one=one: Case(["list"], {}, nested(*one)) for one in DEPTHS],
    *[lambda depth=depth: Case(["list"], {}, nested(depth, "[", '"]}[{\\""')) for depth in (127, 128)],
    lambda: Case(["list"], {}, b"[" * 100000),
    lambda: Case(["unused"], {}, many(20000)),
    lambda: Case(["unused"], {}, many(20001)),
    lambda: Case(["list", "a", "-"], {"a": many(1)}, many(20000)),
    lambda: Case(["unused"], {}, many(2001, "Pod")),
    lambda: Case(["unused"], {}, many(2000, "Pod")),
    lambda: Case(["list", "a", "b"], {"a": sized(HALF), "b": sized(HALF)}, b""),
    lambda: Case(["list", "a", "b"], {"a": sized(HALF), "b": sized(HALF + 1)}, b""),
    lambda: Case(["list", "a", "b", "none"], {"a": sized(HALF), "b": sized(HALF + 1)}, b""),
    lambda: Case(["list", "a", "none", "b"], {"a": sized(HALF), "b": sized(HALF + 1)}, b""),
    *[lambda one=one: Case(["exposure"], {}, mentioned(*one)) for one in ((4, 14), (4, 15), (16, 1), (100, 1), (3, 2), (6, 2))],
    lambda: Case(["sample", "100"], {}, b""),
    lambda: Case(["list"], {}, b""),
    lambda: Case(["check", "--statement", "empty"], {"empty": b""}, many(3, "Pod")),
    lambda: Case(["sample", "1000"], {}, b""),
]


def limits(rng: Rng, number: int) -> List[Case]:
    """The case of a limit; there are as many as LIMITS has."""
    return [LIMITS[number]()] if number < len(LIMITS) else []


KINDS: Dict[str, Callable[[Rng, int], List[Case]]] = {
    "lists": lists, "faults": faults, "spellings": spellings, "words": words, "statements": statement_files, "texts": json_texts,
    "large": large, "limits": limits,
}
