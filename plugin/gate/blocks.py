"""Blocks of addresses."""
from __future__ import annotations

import ipaddress
import re
from typing import Any, Iterable, Iterator, List, Union

from plugin import values

Network = Union[ipaddress.IPv4Network, ipaddress.IPv6Network]

EVERYTHING = ("0.0.0.0/0", "::/0")

# np takes them, and newer Pythons do not.
_LEADING_ZEROS = re.compile(r"(?<![0-9])0+(?=[0-9])")


def read(text: str) -> Network:
    """The block that is written so, or the one of a single address, as np reads it: bits beyond the length are
    dropped."""
    address, slash, length = text.partition("/")
    return ipaddress.ip_network((_LEADING_ZEROS.sub("", address) if "." in address else address) + slash + length, strict=False)


def of_networks(value: Any) -> Iterator[str]:
    """The blocks of the `networks` peers in an admin policy."""
    if isinstance(value, list):
        for inner in value:
            yield from of_networks(inner)
    elif isinstance(value, dict):
        for name, inner in value.items():
            yield from values.texts(inner) if name == "networks" else of_networks(inner)


def outside_of(texts: Iterable[str]) -> List[str]:
    """The fewest blocks of both families that hold the addresses which are in none of these blocks, in ascending
    order."""
    blocks = [read(text) for text in texts]
    return [str(left) for text in EVERYTHING for left in _without(ipaddress.ip_network(text), blocks)]


def _without(whole: Network, blocks: Iterable[Network]) -> Iterator[Network]:
    """What is left of a block, in ascending order."""
    inner = [block for block in blocks if block.version == whole.version and block.overlaps(whole)]
    if not inner:
        yield whole
    elif not any(block.prefixlen <= whole.prefixlen for block in inner):
        for half in whole.subnets():
            yield from _without(half, inner)
