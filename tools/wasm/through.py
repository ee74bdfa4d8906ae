"""What the script `through` beside this file does: a run of np.wasm by the server of tools/wasm/compare.py, in the place of one of np.

Each word that names a file is an input that np may open, and so is what stands behind the `=` of an option; of each at most as many bytes
are read as np reads, and one more. There may be thousands of such runs, so that little is loaded: json, socket and typing would take longer
than all the rest.
"""
from __future__ import annotations

import _socket
import binascii
import os
import stat
import sys

_MOST_READ = 33_554_433
_STANDARD_INPUT = 3
_FULL = os.makedev(1, 7)  # /dev/full


def coded(data: bytes) -> bytes:
    """Bytes as base64."""
    return binascii.b2a_base64(data, newline=False)


def read_all(number: int) -> bytes | None:
    """What a descriptor gives, as far as np would read it; None where it cannot be read."""
    pieces: list[bytes] = []
    left = _MOST_READ
    try:
        while left:
            piece = os.read(number, min(left, 1 << 20))
            if not piece:
                break
            pieces.append(piece)
            left -= len(piece)
    except OSError:
        return None
    return b"".join(pieces)


def read_file(name: bytes) -> bytes | None:
    """The bytes of what has this name; None where there is nothing, or it cannot be read, as a folder."""
    try:
        if stat.S_ISDIR(os.stat(name).st_mode):
            return None
        number = os.open(name, os.O_RDONLY)
    except (OSError, ValueError):
        return None
    try:
        return read_all(number)
    finally:
        os.close(number)


def files_of(words: list[bytes]) -> dict[bytes, bytes]:
    """The files that the words name, by their names."""
    found = {}
    for name in [*words, *(word.partition(b"=")[2] for word in words if word.startswith(b"--"))]:
        data = read_file(name) if name else None
        if data is not None:
            found[name] = data
    return found


def refused() -> list[int]:
    """The outputs that take nothing: those that are closed, and those that are the device which is always full."""
    found = []
    for output in (1, 2):
        try:
            kind = os.fstat(output)
            is_full = stat.S_ISCHR(kind.st_mode) and kind.st_rdev == _FULL
        except OSError:
            is_full = True
        if is_full:
            found.append(output)
    return found


def write_all(output: int, data: bytes) -> None:
    """Writes all of the bytes to a descriptor."""
    while data:
        data = data[os.write(output, data):]


def told(words: list[bytes], full: list[int]) -> bytes:
    """A run, as the server reads it: lines, each of a word that says what it is, and of what it is, bytes in base64."""
    lines = [b"word " + coded(word) for word in words]
    lines += [b"file %s %s" % (coded(name), coded(data)) for name, data in files_of(words).items()]
    lines += [b"full %d" % output for output in full]
    given = read_all(_STANDARD_INPUT)
    lines += [] if given is None else [b"input " + coded(given)]
    return b"\n".join(lines)


def asked(body: bytes) -> list[bytes]:
    """What the server answers to a run: the status and both outputs."""
    host, _, port = os.environ["NP_WASM_SERVER"].rpartition("/")[2].partition(":")
    server = _socket.socket(_socket.AF_INET, _socket.SOCK_STREAM)
    server.connect((host, int(port)))
    server.sendall(b"POST /run HTTP/1.0\r\nContent-Length: %d\r\n\r\n%s" % (len(body), body))
    answer = b"".join(iter(lambda: server.recv(1 << 20), b""))
    return answer.partition(b"\r\n\r\n")[2].split(b"\n")


def main() -> int:
    """Has the run made, writes what came of it, and returns its status."""
    full = refused()
    status, *outputs = asked(told([os.fsencode(word) for word in sys.argv[1:]], full))
    for output, text in enumerate(outputs, 1):
        if output not in full:
            write_all(output, binascii.a2b_base64(text))
    return int(status)


if __name__ == "__main__":
    sys.exit(main())
