"""JSON values, their members, and the shapes that read them, or refuse them with the flaw that stands first (np_json)."""
import json
import math
import re
from functools import partial
from itertools import accumulate
from typing import Any, Callable, Dict, Optional, Tuple, TypeVar, Union

from .model import LAST_PORT, PROTOCOLS, TCP, ObjectName, is_name, is_word

# A JSON value as Python has it. A number that is no whole one of 64 bits is a float.
Data = Any
A = TypeVar("A")
Shape = Callable[[Data], A]
Step = Union[str, int]

MOST_DEPTH = 127
SURROGATE = re.compile("[\ud800-\udfff]")
STRING = re.compile(r'"[^"\\]*(?:\\.[^"\\]*)*"', re.DOTALL)
BRACKET = re.compile(r"[\[\]{}]")


class Flaw(Exception):
    """What is wrong in a value, and where in it: the steps to the place, the outermost first."""

    def __init__(self, kind: str, *path: Step) -> None:
        super().__init__(kind, *path)
        self.kind = kind
        self.path = path

    def __str__(self) -> str:
        """`spec.ingress[0].from[0]: BadField`; the path of no step is `(whole)`."""
        steps = ["[%d]" % step if isinstance(step, int) else "." + step for step in self.path]
        return "%s: %s" % ("".join(steps).lstrip(".") or "(whole)", self.kind)


# ---- JSON texts

def real(text: str) -> float:
    """A number with a fraction or an exponent, or one that is too large for 64 bits. What no float holds is no JSON."""
    number = float(text)
    if not math.isfinite(number):
        raise ValueError(text)
    return number


def whole_number(text: str) -> Union[int, float]:
    """A number of digits alone: whole where it fits 64 bits with a sign, but for -0."""
    if len(text) > 20 or text == "-0":
        return real(text)
    number = int(text)
    return number if -2 ** 63 <= number < 2 ** 63 else real(text)


def depth_of(text: str) -> int:
    """How deep a JSON text nests."""
    return max(accumulate(1 if bracket in "[{" else -1 for bracket in BRACKET.findall(STRING.sub("", text))), default=0)


def json_of(data: bytes) -> Data:
    """The JSON value of a text in UTF-8, else ValueError. Where an object has a member twice, the last one counts."""
    text = data.decode("utf-8")
    if depth_of(text) > MOST_DEPTH:
        raise ValueError("too deep")
    value = json.loads(text, parse_int=whole_number, parse_float=real, parse_constant=real)
    if any(SURROGATE.search(json.loads(string)) for string in STRING.findall(text) if "\\u" in string):
        raise ValueError("half of a surrogate pair")
    return value


# ---- members

def refuse_if(broken: bool, kind: str, *path: Step) -> None:
    """A rule on a value: where it is broken, a flaw of the part at the end of the path."""
    if broken:
        raise Flaw(kind, *path)


def member(name: str, value: Data) -> Data:
    """The member of that name of what must be an object, and None where it is absent or null."""
    refuse_if(not isinstance(value, dict), "BadField")
    return value.get(name)


def under(step: Step, shape: Shape[A], value: Data) -> A:
    """What a shape reads of the part of a value at one step."""
    try:
        return shape(value)
    except Flaw as flaw:
        raise Flaw(flaw.kind, step, *flaw.path) from None


def optional_or(missing: A, name: str, shape: Shape[A], value: Data) -> A:
    """A member that stands for this value where it is missing."""
    found = member(name, value)
    return missing if found is None else under(name, shape, found)


def optional(name: str, shape: Shape[A], value: Data) -> Optional[A]:
    """A member that may be missing."""
    return optional_or(None, name, shape, value)


def required(name: str, shape: Shape[A], value: Data) -> A:
    """A member that must be there."""
    found = member(name, value)
    refuse_if(found is None, "BadField", name)
    return under(name, shape, found)


def one_of(kind: str, shapes: Dict[str, Shape[A]], value: Data) -> A:
    """The one of these members that is there; a flaw of that kind where none is, or several."""
    there = [name for name in shapes if member(name, value) is not None]
    refuse_if(len(there) != 1, kind)
    return required(there[0], shapes[there[0]], value)


def items_of(shape: Shape[A], value: Data) -> Tuple[A, ...]:
    """The items of a list by the shape, each under its place."""
    refuse_if(not isinstance(value, list), "BadField")
    return tuple([under(place, shape, item) for place, item in enumerate(value)])


def listed(name: str, shape: Shape[A], value: Data) -> Tuple[A, ...]:
    """A member that is a list, and empty where it is missing."""
    return optional_or((), name, partial(items_of, shape), value)


# ---- single values

def passing(passes: Callable[[Any], object], kind: str, shape: Shape[A]) -> Shape[A]:
    """The shape of what another one reads, where it passes a test, else a flaw of the whole value."""
    def read(value: Data) -> A:
        found = shape(value)
        refuse_if(not passes(found), kind)
        return found
    return read


def written(reads: Callable[[str], Optional[A]], kind: str) -> Shape[A]:
    """The shape of a text that stands for something, else a flaw of the whole value."""
    def read(value: Data) -> A:
        found = reads(text(value))
        if found is None:
            raise Flaw(kind)
        return found
    return read


# Values of one type, else BadField; names, else BadName; words, else BadField; ports, else BadPort.
text: Shape[str] = passing(lambda value: isinstance(value, str), "BadField", lambda value: value)
whole: Shape[int] = passing(lambda value: type(value) is int, "BadField", lambda value: value)
flag: Shape[bool] = passing(lambda value: isinstance(value, bool), "BadField", lambda value: value)
name = passing(is_name, "BadName", text)
word = passing(is_word, "BadField", text)
port = passing(lambda number: 1 <= number <= LAST_PORT, "BadPort", whole)
# The member `protocol`, which is TCP where it is missing, and another name than those of protocols BadProtocol.
protocol = partial(optional_or, TCP, "protocol", written(PROTOCOLS.get, "BadProtocol"))
# A namespace: a text that is empty, which stands for `default`, or a name.
namespace = passing(is_name, "BadName", lambda value: text(value) or "default")


def labels(value: Data) -> Dict[str, str]:
    """An object from texts to texts that are labels, in the order of their keys, else BadField."""
    refuse_if(not isinstance(value, dict) or not all(isinstance(one, str) for one in value.values()), "BadField")
    refuse_if(not all(key and is_word(key) and is_word(one) for key, one in value.items()), "BadField")
    return dict(sorted(value.items()))


# ---- what every object says of itself

def type_meta(value: Data) -> Tuple[str, str]:
    """The API version and the kind of an object."""
    return required("apiVersion", text, value), required("kind", text, value)


def namespaced_name(kind: str, value: Data) -> ObjectName:
    """The name of an object of a kind that is in a namespace, by its metadata."""
    called = required("name", name, value)
    return ObjectName(kind, optional_or("default", "namespace", namespace, value), called)
