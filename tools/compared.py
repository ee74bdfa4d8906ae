#!/usr/bin/env python3
"""Holds `kubectl np changes` against the tables that np prints of the two states, over random pairs of lists:

    tools/compared.py [--program dist/np] [--pairs 300] [--seed 1]

The second list of a pair is the first one with some objects changed, added or taken away, or another one. From both tables, as np
prints them with addresses as CIDRs, it makes what passes between every two ends: workloads, the controller of Ingresses, and of the
addresses the first and the last of each block of either table, and those beside them. What passes are ports as bits. For each two
ends what the plugin says has to be what one table has and the other one has not, no more and no less. What it says has to be in the
order of np's rows, each once, with neighbours joined, and with the marks of new and gone workloads. It prints how many pairs
it tried, and ends with status 1 at the first that is not as it should be, which it prints.
"""
from __future__ import annotations

import argparse
import copy
import ipaddress
import json
import os
import random
import subprocess
import sys
import tempfile
from pathlib import Path
from typing import Any, Dict, List, Tuple

TOP = Path(os.path.abspath(__file__)).parent.parent
sys.path.insert(0, str(TOP / "tools" / "relations"))
import answers  # noqa: E402
import lists  # noqa: E402
from answers import Broken, demand  # noqa: E402

CONTROLLER = "{ingress-controller}"
FAMILIES = ("IPv4", "IPv6")
NOTHING = (0, 0, 0)
Item = Dict[str, Any]
Ports = Tuple[int, ...]


class Table:
    """What passes in one state, by two ends and the family."""

    def __init__(self, lines: List[str]) -> None:
        self.pairs: Dict[Tuple[str, str, str], Ports] = {}
        self.blocks: Dict[Tuple[str, bool], List[Tuple[Any, Ports]]] = {}  # by workload, and whether it comes from there
        self.workloads: List[str] = []
        for line in lines:
            source, destination, text = answers.row(line)
            self._add(source, destination, answers.connections(text))

    def _add(self, source: str, destination: str, ports: Ports) -> None:
        name, _, mark = destination.partition(" (")
        if "[" in name and ("[" in source or source == CONTROLLER):
            for family in [mark.rstrip(")")] if mark else FAMILIES:
                self.pairs[source, name, family] = ports
        else:
            comes = "[" not in source
            workload, text = (name, source) if comes else (source, name)
            if workload not in self.workloads:
                self.workloads.append(workload)
            for part in text.split(","):
                self.blocks.setdefault((workload, comes), []).append((ipaddress.ip_network(part), ports))

    def at(self, workload: str, comes: bool, address: Any) -> Ports:
        """What passes between the workload and the address."""
        return next((ports for block, ports in self.blocks.get((workload, comes), []) if address in block), NOTHING)

    def cuts(self) -> List[Any]:
        """The addresses at which what passes may change, and those beside them."""
        found = set()
        for blocks in self.blocks.values():
            for block, _ in blocks:
                for number, least in ((int(block[0]), 0), (int(block[-1]), 0)):
                    most = 2 ** block.max_prefixlen - 1
                    kind = type(block[0])
                    found.update(kind(each) for each in (number - 1, number, number + 1) if least <= each <= most)
        return sorted(found, key=lambda address: (address.version, int(address)))


class Said:
    """What the plugin says of one direction."""

    def __init__(self, lines: List[str], direction: str) -> None:
        self.lines = [line[len(direction) + 2:] for line in lines if line.startswith(direction + ": ")]
        self.pairs: Dict[Tuple[str, str, str], Ports] = {}
        self.ranges: Dict[Tuple[str, bool], List[Tuple[Any, Any, str]]] = {}
        self.marks: Dict[str, str] = {}
        self.order: List[Tuple[Any, ...]] = []
        for line in self.lines:
            source, destination, text = answers.row(line)
            demand(answers.written(answers.connections(text)) == text and text != "No Connections", "connections: " + text)
            self._add(self._unmarked(source), self._unmarked(destination), text)
        demand(self.order == sorted(set(self.order)), "the lines are not in order, or one stands twice")

    def _unmarked(self, end: str) -> str:
        for mark in ("new", "gone"):
            if " (%s)" % mark in end:
                end = end.replace(" (%s)" % mark, "")
                self.marks[end.partition(" ")[0]] = mark
            elif "[" in end:
                self.marks.setdefault(end.partition(" ")[0], "")
        return end

    def _add(self, source: str, destination: str, text: str) -> None:
        name, _, mark = destination.partition(" (")
        families = [mark.rstrip(")")] if mark else FAMILIES
        if "[" in name and ("[" in source or source == CONTROLLER):
            self.order.append((2, name) if source == CONTROLLER else (0, source, name, mark))
            for family in families:
                demand((source, name, family) not in self.pairs, "two lines about the same")
                self.pairs[source, name, family] = answers.connections(text)
        else:
            comes = "[" not in source
            workload, written = (name, source) if comes else (source, name)
            low, _, high = written.partition("-")
            first, last = ipaddress.ip_address(low), ipaddress.ip_address(high or low)
            demand(first <= last and (str(first), str(last)) == (low, high or low) and (not high or first < last), "a range: " + written)
            self.order.append((1, workload, not comes, first.version, int(first)))
            self.ranges.setdefault((workload, comes), []).append((first, last, text))

    def at(self, workload: str, comes: bool, address: Any) -> Ports:
        """What changed between the workload and the address."""
        found = [text for first, last, text in self.ranges.get((workload, comes), [])
                 if first.version == address.version and first <= address <= last]
        demand(len(found) < 2, "two ranges have the same address")
        return answers.connections(found[0]) if found else NOTHING

    def check_joined(self) -> None:
        """Neighbours say different things, and a pair that changed alike in both families has one line."""
        for ranges in self.ranges.values():
            for (_, last, text), (first, _, other) in zip(ranges, ranges[1:]):
                demand(last.version != first.version or int(last) + 1 != int(first) or text != other, "neighbours are not joined")
        for (source, name, _), ports in self.pairs.items():
            alike = self.pairs.get((source, name, "IPv4")) == self.pairs.get((source, name, "IPv6")) == ports
            demand(alike == any(line.startswith(head) for line in self.lines for head in self._heads(source, name)), "families")

    def _heads(self, source: str, name: str) -> List[str]:
        """What a line about the two without a family begins with."""
        ends = [end + (" (%s)" % self.marks[end] if self.marks.get(end) else "") for end in (source, name)]
        return ["%s => %s : " % tuple(ends)]


def minus(some: Ports, others: Ports) -> Ports:
    return tuple(mine & ~theirs for mine, theirs in zip(some, others))


def differing(some: Dict[Any, Ports], others: Dict[Any, Ports]) -> List[Any]:
    return [key for key in {**some, **others} if some.get(key) != others.get(key)]


def compare(was: Table, now: Table, lines: List[str]) -> None:
    """Demands that the lines are the differences of the tables."""
    demand(all(line.startswith(("opened: ", "closed: ")) for line in lines), "another line")
    demand(lines == sorted(lines, key=lambda line: line.startswith("closed: ")), "opened does not stand before closed")
    addresses = sorted({*was.cuts(), *now.cuts()}, key=lambda address: (address.version, int(address)))
    for direction, to, away, mark in (("opened", now, was, "new"), ("closed", was, now, "gone")):
        said = Said(lines, direction)
        wanted = {key: minus(ports, away.pairs.get(key, NOTHING)) for key, ports in to.pairs.items()}
        wanted = {key: ports for key, ports in wanted.items() if ports != NOTHING}
        demand(said.pairs == wanted, "%s between: %s" % (direction, differing(said.pairs, wanted)))
        for key in {*was.blocks, *now.blocks, *said.ranges}:
            for address in addresses:
                right = minus(to.at(*key, address), away.at(*key, address))
                demand(said.at(*key, address) == right, "%s: %s %s" % (direction, key, address))
        said.check_joined()
        for name, found in said.marks.items():
            demand(found == (mark if name not in away.workloads else ""), "%s has the mark %s" % (name, found))


def add_blocks(policy: Item, rng: random.Random) -> None:
    """Gives a NetworkPolicy more rules, which name addresses, so that what changes at addresses goes beyond where they are cut."""
    for direction, peers in (("ingress", "from"), ("egress", "to")):
        for _ in range(rng.randrange(1, 3)):
            policy["spec"][direction].append({peers: [{"ipBlock": lists.block(rng)}], "ports": [lists.net_port(rng)]})


def changed(items: List[Item], rng: random.Random) -> List[Item]:
    """The list as it may be later."""
    kind = rng.random()
    if kind < 0.1:
        return lists.random_items(rng)
    if kind < 0.15:
        return items
    later = copy.deepcopy(items)
    for _ in range(rng.randrange(1, 4)):
        place = rng.randrange(len(later))
        item = later[place]
        metadata = item["metadata"]
        if item["kind"] == "NetworkPolicy" and rng.random() < 0.5:
            add_blocks(item, rng)
        elif item["kind"] == "NetworkPolicy":
            later[place] = lists.net_policy(metadata["namespace"], metadata["name"], rng)
        elif item["kind"] == "Pod":
            later[place] = lists.pod(metadata["namespace"], rng.choice([metadata["name"], "later"]), rng)
        elif rng.random() < 0.5 and len(later) > 1:
            del later[place]
        if rng.random() < 0.3:
            later = [each for each in later if each["metadata"]["name"] != "more"]
            later.append(lists.net_policy(rng.choice(lists.SPACES), "more", rng))
    names = set()
    return [each for each in later if (key := (each["kind"], each["metadata"].get("namespace"), each["metadata"]["name"])) not in names
            and not names.add(key)]


def with_ingresses(items: List[Item], rng: random.Random) -> List[Item]:
    """The list with a Service for a label, and an Ingress that leads there."""
    space, port = rng.choice(lists.SPACES), rng.choice([80, 8080])
    spec = {"selector": {"app": rng.choice("xyz")}, "ports": [{"port": port, "targetPort": rng.choice([80, 8080, "http"])}]}
    service = {"apiVersion": "v1", "kind": "Service", "metadata": {"name": "s", "namespace": space}, "spec": spec}
    backend = {"service": {"name": "s", "port": {"number": port}}}
    return [*items, service, {"apiVersion": "networking.k8s.io/v1", "kind": "Ingress", "metadata": {"name": "i", "namespace": space},
                              "spec": {"defaultBackend": backend}}]


class Asked:
    """np and the plugin, asked over a pair of lists in a folder."""

    def __init__(self, program: str) -> None:
        self._np = answers.Program(program)
        self._environment = dict(os.environ, KUBECTL_NP_PROGRAM=program)
        self._folder = tempfile.TemporaryDirectory()
        self._paths = [os.path.join(self._folder.name, name) for name in ("before.json", "after.json")]

    def check(self, pair: List[List[Item]]) -> None:
        """Demands that the plugin says of the pair what np's tables say."""
        for path, items in zip(self._paths, pair):
            Path(path).write_text(json.dumps({"apiVersion": "v1", "kind": "List", "items": items}), encoding="utf-8")
        was, now = (Table(self._np.rows(["list"], items)) for items in pair)
        done = subprocess.run([str(TOP / "kubectl-np"), "changes", *self._paths, "--fail-on=any"], env=self._environment,
                              capture_output=True, text=True, check=False)
        lines = done.stdout.splitlines()
        demand(done.returncode == (5 if lines else 0), "status %d: %s" % (done.returncode, done.stderr))
        compare(was, now, lines)


def main() -> int:
    parser = argparse.ArgumentParser()
    parser.add_argument("--program", default=str(TOP / "dist" / "np"))
    parser.add_argument("--pairs", type=int, default=300)
    parser.add_argument("--seed", type=int, default=1)
    given = parser.parse_args()
    asked = Asked(given.program)
    for seed in range(given.seed, given.seed + given.pairs):
        rng = random.Random(seed)
        items = lists.random_items(rng)
        for policy in lists.kinds(items, "NetworkPolicy"):
            add_blocks(policy, rng)
        pair = [with_ingresses(each, rng) if rng.random() < 0.5 else each for each in (items, changed(items, rng))]
        try:
            asked.check(pair)
        except Broken as fault:
            print("seed %d: %s" % (seed, fault))
            print(json.dumps(pair))
            return 1
    print("%d pairs" % given.pairs)
    return 0


if __name__ == "__main__":
    sys.exit(main())
