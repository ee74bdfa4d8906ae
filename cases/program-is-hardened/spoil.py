"""Writes copies of a program for Linux, each with one protection less or more, beside one another: spoil.py PROGRAM"""
from __future__ import annotations

import struct
import sys
from pathlib import Path
from typing import Callable, Dict

_DYNAMIC, _RELRO, _STACK = 2, 0x6474E552, 0x6474E551
_FLAGS, _FLAGS_1 = 30, 0x6FFFFFFB


def _segment(data: bytes, kind: int) -> int:
    """Where the segment of this type stands in the table of segments, which are 56 bytes each."""
    count = struct.unpack_from("<H", data, 56)[0]
    return next(place for place in range(64, 64 + 56 * count, 56) if struct.unpack_from("<I", data, place)[0] == kind)


def _entry(data: bytes, tag: int) -> int:
    """Where the dynamic entry of this tag stands in the file, in 16 bytes."""
    begin, _, _, size = struct.unpack_from("<4Q", data, _segment(data, _DYNAMIC) + 8)
    return next(place for place in range(begin, begin + size, 16) if struct.unpack_from("<Q", data, place)[0] == tag)


def _put(data: bytes, place: int, form: str, value: int) -> bytes:
    made = bytearray(data)
    struct.pack_into(form, made, place, value)
    return bytes(made)


def _renamed(data: bytes, old: bytes, new: bytes) -> bytes:
    """Another name for a function that is called from a library."""
    assert data.count(b"\0" + old + b"\0") == 1
    return data.replace(b"\0" + old + b"\0", b"\0" + new.ljust(len(old), b"\0") + b"\0")


def _writable_code(data: bytes) -> bytes:
    """The first segment that is executed can be written, too."""
    count = struct.unpack_from("<H", data, 56)[0]
    places = (place for place in range(64, 64 + 56 * count, 56) if struct.unpack_from("<II", data, place) == (1, 5))
    return _put(data, next(places) + 4, "<I", 7)


_SPOILT: Dict[str, Callable[[bytes], bytes]] = {
    "fixed-place": lambda data: _put(data, _entry(data, _FLAGS_1) + 8, "<Q", 1),
    "late-binding": lambda data: _put(_put(data, _entry(data, _FLAGS) + 8, "<Q", 0), _entry(data, _FLAGS_1) + 8, "<Q", 0x8000000),
    "writable-table": lambda data: _put(data, _segment(data, _RELRO) + 40, "<Q", 16),
    "executable-stack": lambda data: _put(data, _segment(data, _STACK) + 4, "<I", 7),
    "writable-code": _writable_code,
    "guarded-stack": lambda data: _renamed(data, b"__x86_get_cpuid_feature_leaf", b"__stack_chk_fail"),
    "checked-lengths": lambda data: _renamed(data, b"__sysv_signal", b"__memcpy_chk"),
}


def main(program: Path) -> None:
    """Writes a copy for each."""
    for name, spoil in _SPOILT.items():
        Path(name).write_bytes(spoil(program.read_bytes()))


if __name__ == "__main__":
    main(Path(sys.argv[1]))
