#!/usr/bin/env python3
"""For ./test: prints what `kubectl np filter` keeps of each of the files that are named, a line for each: tools/filtered.py FILE..

It runs the modules of kubectl-np once for all files, since a run for each of some hundreds of them takes a while.
"""
from __future__ import annotations

import io
import sys
from pathlib import Path

sys.path.insert(0, str(Path(__file__).resolve().parent.parent / "kubectl-np"))

from plugin.caveats.beside import Beside  # noqa: E402
from plugin.members import keep_of_text  # noqa: E402
from plugin.room import Room  # noqa: E402

with Room() as room:
    for name in sys.argv[1:]:
        kept = io.BytesIO()
        keep_of_text(io.BytesIO(Path(name).read_bytes()), kept, room, Beside())
        sys.stdout.buffer.write(kept.getvalue().rstrip(b"\n").replace(b"\n", b" ") + b"\n")
