"""Compares np.wasm with the second program (tools/second) over random lists, for tools/wasm/compare.py --lists: the cases of
tools/second/compare.py, handed straight to the browser or to the Node that is kept, since a process for each takes longer than its run."""
from __future__ import annotations

import os
import sys
from collections import deque
from concurrent.futures import Future, ThreadPoolExecutor
from pathlib import Path
from typing import Any, Callable, Deque, Dict, List, Optional, Tuple

SECOND = Path(os.path.abspath(__file__)).parent.parent / "second"
sys.path[:0] = [str(SECOND), str(SECOND.parent)]

import second.compare as by_process  # noqa: E402
from second import program  # noqa: E402

# The seed of tools/second/compare.py, and after how many cases it is told how many there were.
_SEED, _TOLD = 1, 500

Answer = Tuple[int, bytes, bytes]
Ask = Callable[[List[bytes], Dict[bytes, bytes], bytes], Answer]


def _answer(ask: Ask, case: Any) -> Answer:
    """What np.wasm answers to a case, whose files a word names as they are or behind `./`."""
    files = {place + os.fsencode(name): data for name, data in case.files.items() for place in (b"", b"./")}
    return ask([os.fsencode(word) for word in case.words], files, case.stdin)


def _difference(case: Any, found: Answer) -> Optional[str]:
    """What both programs answer, where that differs."""
    wanted = tuple(by_process.second_answer(program, case))
    return None if wanted == found else "np %r\nnp.wasm: %r\nthe second program: %r" % (case.words, found, wanted)


def compare_lists(ask: Ask, at_once: int, count: int) -> int:
    """Compares so many random lists, and answers the status: 1 at the first that differs, which is told by its number."""
    waiting: Deque[Tuple[int, Any, "Future[Answer]"]] = deque()

    def differs() -> bool:
        number, case, answer = waiting.popleft()
        told = _difference(case, answer.result())
        if told is not None:
            print("they differ at list %d of tools/second/compare.py, seed %d: %s" % (number, _SEED, told))
        elif (number + 1) % _TOLD == 0:
            print("%d lists, no difference" % (number + 1), flush=True)
        return told is not None

    with ThreadPoolExecutor(at_once) as pool:
        for _, number, case in by_process.cases_of(["lists"], count, 0, _SEED):
            waiting.append((number, case, pool.submit(_answer, ask, case)))
            if len(waiting) > at_once and differs():
                return 1
        return 1 if any(differs() for _ in list(waiting)) else 0
