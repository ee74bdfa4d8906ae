"""Standard output, a lot of it at once."""
from __future__ import annotations

from typing import Iterable, List

from plugin.said import write

_MOST = 1 << 18


def write_all(parts: Iterable[bytes]) -> None:
    """Prints the parts, one behind the other."""
    kept: List[bytes] = []
    length = 0
    for part in parts:
        kept.append(part)
        length += len(part)
        if length > _MOST:
            write(b"".join(kept))
            kept.clear()
            length = 0
    write(b"".join(kept))
