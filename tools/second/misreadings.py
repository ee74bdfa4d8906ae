#!/usr/bin/env python3
"""Spoils the second program in one place, as one may misread the text, and asks whether compare.py notices:
tools/second/misreadings.py [--program dist/np] [--lists 2000] [--seed 1] [NUMBER..]

For each misreading (all of them without a number) it prints after how many cases the comparison ends, and it ends with status 1 where one
is not noticed, or where a place that is to be spoilt is not there once.
"""
import argparse
import os
import re
import shutil
import subprocess
import sys
import tempfile
from typing import List, NamedTuple, Optional

HERE = os.path.dirname(os.path.abspath(__file__))


class Misreading(NamedTuple):
    """What is misread, in which file, and what stands there in place of what."""
    what: str
    file: str
    right: str
    wrong: str


MISREADINGS: List[Misreading] = [
    Misreading("a range of ports ends before its last port", "policies.py",
               "first if last is None else last)", "first if last is None else max(first, last - 1))"),
    Misreading("Pass is Allow", "sides.py",
               "made += [(last.after(one.decider), own & spots) for last, own in below]",
               'made.append((Decider("Allow by " + one.name, True, (one.name,)), spots))'),
    Misreading("the baseline is asked before NetworkPolicies", "sides.py", "if isolating:", "if isolating and not self.base:"),
    Misreading("NotIn wants the key", "model.py", "found is None or found not in values", "found is not None and found not in values"),
    Misreading("a named port of a NetworkPolicy is one of any protocol", "sides.py", " and entry.proto in (None, port.proto):", ":"),
    Misreading("a policy that lists no types is of Ingress alone", "policies.py",
               "((INGRESS, EGRESS) if rules[EGRESS] else (INGRESS,))", "(INGRESS,)"),
    Misreading("except is ignored", "sides.py", " and not any(part.has(far) for part in peer.excepts)", ""),
    Misreading("a policy of Egress alone isolates in ingress too", "policies.py",
               "for direction in has}", "for direction in {INGRESS, *has}}"),
    Misreading("a rule of a NetworkPolicy without peers matches nothing", "sides.py",
               "if peers and not any(", "if not any("),
    Misreading("a pod selector alone stands for pods of all namespaces", "sides.py",
               "pods_match(namespace, peer, far)", "pods_match(far.namespace, peer, far)"),
    Misreading("a block stands for the pods that have its addresses", "sides.py",
               "return not namespace and any(", "return any("),
    Misreading("networks stand for pods by addresses of any family", "sides.py",
               "for one in far.addresses if one.family == family)", "for one in far.addresses)"),
    Misreading("the greatest priority goes first", "reading.py",
               "key=lambda policy: policy.priority", "key=lambda policy: -policy.priority"),
    Misreading("a namespace's own label says its name", "reading.py", "{**own, NAME_KEY: space}", "{NAME_KEY: space, **own}"),
    Misreading("a finished pod on the network of its node counts for both", "reading.py",
               "sum(item.finished and not item.host_network for", "sum(item.finished for"),
    Misreading("a template stands for a pod where no replicas are wanted", "objects.py", "None if replicas == 0 else found", "found"),
    Misreading("the top owner is the nearest one", "reading.py",
               "owners_of(item, controllers).values()][-1]", "owners_of(item, controllers).values()][:2][-1]"),
    Misreading("a headless service leads to its target", "table.py",
               "port.port if service.headless else port.target", "port.target"),
    Misreading("a UDP port of a service is one for backends", "table.py", "port.proto == TCP and backend.port ==", "backend.port =="),
    Misreading("the controller that is named is reached through itself", "table.py",
               "if workload == controller:", "if workload is None:"),
    Misreading("of rules that pass on only those count that decide", "explain.py",
               "for name in decider.rules)", 'for name in decider.rules if "Pass by " + name not in decider.text)'),
    Misreading("a namespace may have no name", "exposure.py", 
               'found if place == ("namespace", NAME_KEY) else found + [None]', "found + [None]"),
    Misreading("a requirement is asked where it can only be met", "exposure.py", "if len(rows) == 1 or rows[0] == rows[1]:",
               "if met is None or unmet and rows[0] == rows[1]:\n            return rows[0]\n        rows.append([])\n        if False:"),
    Misreading("what passes within a workload makes no difference to `flatten`", "flatten.py",
               "if len({self.set_of(*pair) for pair in own}) > 1:", "if len(own) > 9:"),
    Misreading("`evaluate` knows the pods of templates", "explain.py", 'if pod.name.kind == "Pod" and ', "if "),
    Misreading("-0 is a whole number", "values.py", ' or text == "-0"', ""),
    Misreading("parts of an IPv4 address have no leading zeros", "addresses.py",
               r'IPV4 = re.compile(r"[0-9]{1,3}(\.[0-9]{1,3}){3}")',
               r'IPV4 = re.compile(r"(0|[1-9][0-9]{0,2})(\.(0|[1-9][0-9]{0,2})){3}")'),
    Misreading("an exception may be its whole block", "addresses.py", "block.length < part.length and", "block.length <= part.length and"),
    Misreading("the least port of a broken statement is of any protocol", "spots.py",
               "return self.starts[(spots & -spots).bit_length() - 1]",
               "return min((start for n, start in enumerate(self.starts) if spots >> n & 1), key=lambda one: one[1])"),
    Misreading("an option may be given twice", "words.py", " or name in given:", ":"),
]


def noticed(one: Misreading, words: List[str]) -> Optional[int]:
    """After how many cases the comparison notices a misreading, if it does."""
    with tempfile.TemporaryDirectory() as room:
        second = os.path.join(room, "second")
        shutil.copytree(HERE, second, ignore=shutil.ignore_patterns("__pycache__"))
        path = os.path.join(second, one.file)
        with open(path, encoding="utf-8") as file:
            text = file.read()
        if text.count(one.right) != 1:
            sys.exit("misreadings: %s has not once: %s" % (one.file, one.right))
        with open(path, "w", encoding="utf-8") as file:
            file.write(text.replace(one.right, one.wrong))
        ran = subprocess.run([sys.executable, os.path.join(HERE, "compare.py"), "--second", second, *words], stdout=subprocess.PIPE,
                             check=False, encoding="utf-8")
        found = re.match(r"they differ at case (\d+):", ran.stdout)
        if ran.returncode != (1 if found else 0):
            sys.exit("misreadings: the comparison itself broke down")
        forget(ran.stdout)
        return int(found.group(1)) if found else None


def forget(told: str) -> None:
    """Removes the folder with the files of a difference."""
    folder = re.search(r"^cd (\S+) &&", told, re.MULTILINE)
    if folder:
        shutil.rmtree(folder.group(1), ignore_errors=True)


def main() -> int:
    """Does what the words of the command line ask for, and returns the status."""
    words = argparse.ArgumentParser(description=__doc__, formatter_class=argparse.RawDescriptionHelpFormatter)
    words.add_argument("--program", default=os.path.join(HERE, "..", "..", "dist", "np"))
    words.add_argument("--lists", default="2000")
    words.add_argument("--seed", default="1")
    words.add_argument("numbers", nargs="*", type=int, metavar="NUMBER")
    given = words.parse_args()
    missed = 0
    for number, one in enumerate(MISREADINGS, 1):
        if given.numbers and number not in given.numbers:
            continue
        cases = noticed(one, ["--program", given.program, "--lists", given.lists, "--seed", given.seed])
        print("%2d. %s: %s" % (number, one.what, "NOT noticed" if cases is None else "noticed at case %d" % cases), flush=True)
        missed += cases is None
    return 1 if missed else 0


if __name__ == "__main__":
    sys.exit(main())
