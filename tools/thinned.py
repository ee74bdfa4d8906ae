#!/usr/bin/env python3
"""Holds what np says of lists against what it says of them once the plugin has left pods out, as it does where a list is too large:

    tools/thinned.py [--program dist/np] FILE..

Each FILE that is a list is looked at as it is, with three more pods for each, all of one owner, and with another one that stands twice or
that np refuses. The rows of `list` and of `exposure`, the rules of `unused` and the policies of `flatten` have to be the same. So have the
status, the notes and the faults, once the plugin has added to the counts of pods those that were left out; only the numbers of objects may
differ, and have to name the same objects. It prints how many lists were looked at and how many pods were left out of them, and ends with
status 1 at the first that differs.
"""
from __future__ import annotations

import argparse
import copy
import itertools
import json
import os
import re
import subprocess
import sys
from concurrent.futures import ThreadPoolExecutor
from pathlib import Path
from typing import Any, Dict, Iterator, List, Optional, Sequence, Tuple

TOP = Path(os.path.abspath(__file__)).parent.parent
sys.path.insert(0, str(TOP / "tools" / "relations"))
from replicas import Thinned  # noqa: E402

from plugin import said  # noqa: E402
from plugin.replicas import JOB_INDEX  # noqa: E402

COMMANDS = ("list", "exposure", "unused", "flatten")
# What makes np refuse a pod: where a value stands, and the value. Each list has another one.
FAULTS: "Iterator[Tuple[Sequence[str], Any]]" = itertools.cycle([
    (("metadata", "name"), "a b"), (("metadata", "labels", JOB_INDEX), "a b"), (("metadata", "labels"), []),
    (("metadata", "ownerReferences"), [None]), (("status", "podIP"), "10.0.0.256"), (("status", "podIPs"), [None]),
    (("status", "podIPs"), [{"ip": 1}]), (("status",), []), (("status", "phase"), 1)])
MOST = 300_000  # bytes of a file
_ITEMS = re.compile(r"^(?:error|note): items? [0-9]+(?: and [0-9]+)?: ", re.MULTILINE)
Item = Dict[str, Any]


def lists(path: Path) -> Iterator[List[Any]]:
    """The items of the list in the file, and those with more pods, of which one may stand twice or be refused; nothing where the file is
    no list."""
    try:
        whole = json.loads(path.read_bytes()) if path.stat().st_size <= MOST else None
    except (ValueError, RecursionError):
        return
    items = whole.get("items") if isinstance(whole, dict) and whole.get("kind") == "List" else None
    if isinstance(items, list):
        yield items
        more = [each for item in items for each in more_pods(item)]
        if len(more) > len(items):
            last = next(item for item in reversed(more) if is_pod(item))
            yield more
            yield [*more, last]
            yield [*more, spoilt(last, *next(FAULTS))]


def spoilt(pod: Item, where: Sequence[str], value: Any) -> Item:
    """A pod like this one, which np refuses."""
    found = copy.deepcopy(pod)
    found["metadata"]["name"] += "-spoilt"
    part = found
    for name in where[:-1]:
        part[name] = part[name] if isinstance(part.get(name), dict) else {}
        part = part[name]
    part[where[-1]] = value
    return found


def is_pod(item: Any) -> bool:
    """Whether the item is a pod that has a name."""
    metadata = item.get("metadata") if isinstance(item, dict) and item.get("kind") == "Pod" else None
    return isinstance(metadata, dict) and isinstance(metadata.get("name"), str)


def more_pods(item: Any) -> List[Any]:
    """The item, and three more where it is a pod. One without an owner gets one."""
    if not is_pod(item):
        return [item]
    metadata = item["metadata"]
    owner = {"apiVersion": "apps/v1", "kind": "ReplicaSet", "name": metadata["name"], "controller": True}
    owners = metadata.get("ownerReferences") or [owner]
    return [dict(copy.deepcopy(item), metadata=dict(metadata, name=metadata["name"] + more, ownerReferences=owners))
            for more in ("", "-more-0", "-more-1", "-more-2")]


def asked(program: str, command: str, items: List[Any]) -> Tuple[int, str, str]:
    """How np ends, and what it writes and says, of a list of these items."""
    text = json.dumps({"apiVersion": "v1", "kind": "List", "items": items})
    done = subprocess.run([program, command], input=text.encode(), capture_output=True, check=False)
    return done.returncode, done.stdout.decode(), done.stderr.decode()


def whole_answer(answer: Tuple[int, str, str], thinned: Thinned) -> Tuple[int, str, str]:
    """The answer about a list of which pods were left out as it would be about the whole one."""
    status, out, err = answer
    said.not_given = thinned.left_out
    err = said.with_all_pods(err.encode()).decode()
    return status, out, _ITEMS.sub(lambda head: renumbered(head.group(), thinned.places), err)


def renumbered(text: str, places: List[int]) -> str:
    """The text with the numbers that the objects have in the whole list."""
    return re.sub("[0-9]+", lambda number: str(places[int(number.group()) - 1] + 1), text)


def difference(pool: ThreadPoolExecutor, program: str, thinned: Thinned) -> Optional[str]:
    """The first command that says something else after pods were left out, and what it says; None where there is none. All commands are
    asked at once: there are thousands of runs, of which each is short."""
    both = thinned.whole, thinned.items
    answers = [[pool.submit(asked, program, command, items) for items in both] for command in COMMANDS]
    for command, (whole, rest) in zip(COMMANDS, answers):
        one, other = whole.result(), whole_answer(rest.result(), thinned)
        if one != other:
            return "%s says %s of all pods, and %s after some were left out" % (command, one, other)
    return None


def main() -> None:
    words = argparse.ArgumentParser(description=__doc__, formatter_class=argparse.RawDescriptionHelpFormatter)
    words.add_argument("--program", default=str(TOP / "dist" / "np"))
    words.add_argument("files", nargs="+", type=Path, metavar="FILE")
    given = words.parse_args()
    count = left_out = 0
    with ThreadPoolExecutor(os.cpu_count()) as pool:
        for path, items in ((path, items) for path in given.files for items in lists(path)):
            thinned = Thinned(items)
            found = difference(pool, given.program, thinned) if thinned.left_out else None
            if found is not None:
                sys.exit("%s: %s" % (path, found))
            count += 1
            left_out += sum(thinned.left_out.values())
    print("%d lists, %d pods left out" % (count, left_out))


if __name__ == "__main__":
    main()
