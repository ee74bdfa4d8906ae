"""Addresses of listed pods: which pod has one, which blocks hold some, and the caveats of ipBlocks.

np takes an address for an end outside the cluster. Addresses are compared as numbers in ascending order, so that pods
are not gone through for each block.
"""
from __future__ import annotations

import ipaddress
from bisect import bisect_left, bisect_right
from typing import Dict, Iterator, List, NamedTuple, Optional, Sequence, Tuple, Union

from plugin.caveats.caveat import ANY_POD, Caveat, Ends, of_direction
from plugin.caveats.objects import Address, Listed
from plugin.caveats.policies import Block, Policy, Rule

Network = Union[ipaddress.IPv4Network, ipaddress.IPv6Network]

# RFC 1918, RFC 6598 and RFC 4193: what pods have in nearly all clusters.
_PRIVATE = ("10.0.0.0/8", "172.16.0.0/12", "192.168.0.0/16", "100.64.0.0/10", "fc00::/7")


class Held(NamedTuple):
    """How many pods have an address in a block, the workloads of these pods, and the first of them."""

    pods: int
    workloads: Ends
    first: str


class Addresses:
    """The addresses of the pods of a list."""

    def __init__(self, listed: Listed) -> None:
        found = sorted(((number, family, place) for place, address in enumerate(listed.addresses)
                        for family, number in _number(address.text)), key=lambda each: each[:2])
        self._listed = listed.addresses
        self._numbers = {wanted: [number for number, family, _ in found if family == wanted] for wanted in (4, 6)}
        self._places = {wanted: [place for _, family, place in found if family == wanted] for wanted in (4, 6)}
        self._held: Dict[Block, Held] = {}

    def pod_at(self, text: str) -> Optional[Address]:
        """The pod that has the address, where some pod does; the text may be a block of one address."""
        block = network(text)
        if block is None or block.prefixlen != block.max_prefixlen:
            return None
        held = self._places_in(block)
        return self._listed[held[0]] if held else None

    def held_by(self, block: Block) -> Held:
        """The pods with an address in the block."""
        if block not in self._held:
            places = set(self._places_in(network(block.cidr)))
            for text in block.without:
                places.difference_update(self._places_in(network(text)))
            found = [self._listed[place] for place in sorted(places)]
            self._held[block] = Held(len({address.pod for address in found}), frozenset(address.pods.workload for address in found),
                                     found[0].pod if found else "")
        return self._held[block]

    def find(self, policies: List[Policy]) -> Iterator[Caveat]:
        """The caveats of the ipBlocks. Where no pod of the list has an address they are about private ranges."""
        for policy in policies:
            if policy.pods:
                yield from _once_for_all_addresses(self._of_policy(policy))

    def _of_policy(self, policy: Policy) -> Iterator[Tuple[bool, Caveat]]:
        """The caveats of a policy, and of each whether its block is that of all addresses of a family."""
        for rule in policy.rules:
            for peer in rule.peers:
                if peer.block is not None:
                    caveat = self._of_block(policy, rule, peer.place, peer.block)
                    if caveat is not None:
                        yield peer.block.cidr.endswith("/0"), caveat

    def _of_block(self, policy: Policy, rule: Rule, place: str, block: Block) -> Optional[Caveat]:
        text = "%s: %s" % (place, block.cidr + (" except " + ",".join(block.without) if block.without else ""))
        if not self._listed:
            ranges = private_ranges(block)
            return Caveat("ipblock-holds-private", policy.text, "%s holds addresses of %s" % (text, ", ".join(ranges)),
                          (of_direction(rule.is_ingress, policy.ends, ANY_POD),), rule.spans, opens=True) if ranges else None
        held = self.held_by(block)
        pods = "the address of pod %s" % held.first if held.pods == 1 else "addresses of %d pods, as %s" % (held.pods, held.first)
        return Caveat("ipblock-holds-pods", policy.text, "%s holds %s" % (text, pods),
                      (of_direction(rule.is_ingress, policy.ends, held.workloads),), rule.spans, opens=True) if held.pods else None

    def _places_in(self, block: Optional[Network]) -> Sequence[int]:
        if block is None:
            return []
        numbers = self._numbers[block.version]
        first, last = int(block.network_address), int(block.broadcast_address)
        return self._places[block.version][bisect_left(numbers, first):bisect_right(numbers, last)]


def _once_for_all_addresses(found: Iterator[Tuple[bool, Caveat]]) -> Iterator[Caveat]:
    """The caveats, with one for all blocks that hold every address: what there is about these is clear."""
    whole: Optional[Caveat] = None
    for is_whole, caveat in found:
        if not is_whole:
            yield caveat
        elif whole is None:
            whole = caveat
        else:
            spans = whole.ports + caveat.ports if whole.ports and caveat.ports else ()
            whole = whole._replace(touched=tuple(dict.fromkeys(whole.touched + caveat.touched)), ports=spans)
    if whole is not None:
        yield whole


def network(text: str) -> Optional[Network]:
    """The block that the text is, or the one address; None where it is neither."""
    try:
        return None if "%" in text else ipaddress.ip_network(text, strict=False)
    except ValueError:
        return None


def _number(text: str) -> Iterator[Tuple[int, int]]:
    """The family of an address and its number; nothing where the text is no address."""
    found = network(text)
    if found is not None:
        yield found.version, int(found.network_address)


def private_ranges(block: Block) -> List[str]:
    """The private ranges of which the block has an address."""
    cidr = network(block.cidr)
    without = [found for found in map(network, block.without) if found is not None]
    return [text for text in _PRIVATE if cidr is not None and _is_left(cidr, ipaddress.ip_network(text), without)]


def _is_left(cidr: Network, private: Network, without: List[Network]) -> bool:
    """Whether an address of the private range is in the block and in none of those that are left out."""
    if cidr.version != private.version or not cidr.overlaps(private):
        return False
    common = private if cidr.prefixlen <= private.prefixlen else cidr
    first, last = int(common.network_address), int(common.broadcast_address)
    for start, end in sorted((int(each.network_address), int(each.broadcast_address)) for each in without if each.version == cidr.version):
        if start > first:
            break
        first = max(first, end + 1)
    return first <= last
