"""IP addresses and blocks of them: their texts and their numbers (np_addr in the text)."""
import re
from typing import Iterator, NamedTuple, Optional

WIDTHS = {4: 32, 6: 128}
IPV4 = re.compile(r"[0-9]{1,3}(\.[0-9]{1,3}){3}")
GROUPS = re.compile(r"([0-9A-Fa-f]{1,4}(:[0-9A-Fa-f]{1,4})*)?")
LENGTH = re.compile(r"0|[1-9][0-9]{0,2}")


class Address(NamedTuple):
    """An address: its family, 4 or 6, and its number. They sort as the text orders them."""
    family: int
    number: int


class Cidr(NamedTuple):
    """A block: the addresses of a family whose first `length` bits are those of `base`."""
    family: int
    base: int
    length: int

    def end(self) -> int:
        """The number behind the last address."""
        return self.base + (1 << (WIDTHS[self.family] - self.length))

    def has(self, address: Address) -> bool:
        """Whether the address is in the block."""
        return address.family == self.family and self.base <= address.number < self.end()


def ipv4_of(text: str) -> Optional[int]:
    """The number of an IPv4 address: four parts, in which leading zeros may stand."""
    if not IPV4.fullmatch(text):
        return None
    parts = [int(part) for part in text.split(".")]
    return None if max(parts) > 255 else int.from_bytes(parts, "big")


def with_groups_alone(text: str) -> str:
    """A text in which two groups stand for an IPv4 address behind its last colon."""
    before, colon, last = text.rpartition(":")
    number = ipv4_of(last) if colon else None
    return text if number is None else "%s:%x:%x" % (before, number >> 16, number & 0xFFFF)


def ipv6_of(text: str) -> Optional[int]:
    """The number of an IPv6 address, in which `::` may stand once for one zero group or more."""
    head, gap, tail = with_groups_alone(text).partition("::")
    if not GROUPS.fullmatch(head) or not GROUPS.fullmatch(tail):
        return None
    before, after = [part.split(":") if part else [] for part in (head, tail)]
    zeros = 8 - len(before) - len(after)
    if zeros < 0 or (zeros > 0) != bool(gap):
        return None
    return int("".join(group.zfill(4) for group in before + ["0"] * zeros + after), 16)


def address_of(text: str) -> Optional[Address]:
    """The address that a text writes, of one family or the other."""
    found = [Address(family, number) for family, number in ((4, ipv4_of(text)), (6, ipv6_of(text))) if number is not None]
    return found[0] if found else None


def cidr_of(text: str) -> Optional[Cidr]:
    """The block that a text writes, its host bits cleared."""
    first, _, length = text.partition("/")
    address = address_of(first)
    if address is None or not LENGTH.fullmatch(length) or int(length) > WIDTHS[address.family]:
        return None
    free = WIDTHS[address.family] - int(length)
    return Cidr(address.family, address.number >> free << free, int(length))


def is_strict_part(block: Cidr, part: Cidr) -> bool:
    """Whether the second block is a part of the first, and not all of it."""
    return block.length < part.length and block.has(Address(part.family, part.base))


def ipv6_text(number: int) -> str:
    """The canonical text of an IPv6 address: `::` stands for the longest run of two zero groups or more, and of several for the first."""
    groups = ["%x" % (number >> (16 * below) & 0xFFFF) for below in range(7, -1, -1)]
    runs = [(start, start + count) for count in range(8, 1, -1) for start in range(9 - count)]
    for start, end in runs:
        if set(groups[start:end]) == {"0"}:
            return ":".join(groups[:start]) + "::" + ":".join(groups[end:])
    return ":".join(groups)


def address_text(address: Address) -> str:
    """The canonical text of an address."""
    if address.family == 4:
        return ".".join(str(byte) for byte in address.number.to_bytes(4, "big"))
    return ipv6_text(address.number)


def cidr_text(block: Cidr) -> str:
    """The text of a block: its first address, and how many first bits its addresses have in common."""
    return "%s/%d" % (address_text(Address(block.family, block.base)), block.length)


def range_prefixes(family: int, lo: int, hi: int) -> Iterator[Cidr]:
    """The fewest blocks that have exactly the addresses from `lo` to `hi`, in ascending order."""
    width = WIDTHS[family]
    while lo <= hi:
        free = (lo & -lo).bit_length() - 1 if lo else width
        while lo + (1 << free) > hi + 1:
            free -= 1
        yield Cidr(family, lo, width - free)
        lo += 1 << free
