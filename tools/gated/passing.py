"""What passes, packet by packet, from the rows of np."""
from __future__ import annotations

import ipaddress
from typing import Any, Dict, List, Set, Tuple

import answers
import lists
from answers import demand
from listed_pods import Pod, pods_of
from lists_with_owners import Item

Address = Any
Ports = Tuple[int, ...]
CONTROLLER = "{ingress-controller}"
NOTHING = (0, 0, 0)


class Table:
    """What np lists, by single packets."""

    def __init__(self, rows: List[Dict[str, str]], exposed: List[Dict[str, str]], items: List[Item], controller: str) -> None:
        self.pods = pods_of(items)
        self.controller = controller
        self.names = sorted({pod.workload for pod in self.pods}, key=str.encode)
        self.pairs: Dict[Tuple[str, str, int], Ports] = {}
        self.ranges: Dict[Tuple[str, str], List[Tuple[Any, Ports]]] = {}
        self.open: Dict[str, int] = {}
        ips = [each["ip"] for item in lists.kinds(items, "Pod") for each in item["status"]["podIPs"]]
        self.families = sorted({ipaddress.ip_address(ip).version for ip in ips}) or [4]
        named: Set[str] = set()
        for row in rows:
            self._add(row["source"], row["destination"], answers.connections(row["connections"]), named)
        demand(named == set(self.names), "np has other workloads: %s" % sorted(named ^ set(self.names)))
        leads = {} if controller else leads_of(items, self.pods)
        self.leads = {name: ports & self._let_in(name, exposed) for name, ports in leads.items()}

    def _add(self, source: str, destination: str, ports: Ports, named: Set[str]) -> None:
        name, _, mark = destination.partition(" (")
        if source == CONTROLLER:
            self.open[destination] = ports[0]
        elif "[" in source and "[" in destination:
            for family in [int(mark[3])] if mark else (4, 6):
                self.pairs[source, name, family] = ports
        else:
            named.add(name if "[" in name else source)
            for text in (source if "[" in name else destination).split(","):
                key = ("to", name) if "[" in name else ("from", source)
                self.ranges.setdefault(key, []).append((ipaddress.ip_network(text), ports))

    def _let_in(self, name: str, exposed: List[Dict[str, str]]) -> int:
        """The ports of TCP at which somebody may be let in: a listed pod, an address, or a pod that is not listed."""
        found = [ports for (_, destination, _), ports in self.pairs.items() if destination == name]
        found += [ports for _, ports in self.ranges["to", name]]
        found += [answers.connections(row["connections"]) for row in exposed if row["destination"] == name]
        return answers.union(found)[0] | self.open.get(name, 0)

    def cuts(self) -> Set[Address]:
        return {block[0] for blocks in self.ranges.values() for block, _ in blocks}

    def passes(self, source: Any, destination: Any, family: int) -> Ports:
        """What passes from one end to the other, which are pods or addresses."""
        if isinstance(source, Pod) and isinstance(destination, Pod):
            return self.pairs.get((source.workload, destination.workload, family), NOTHING)
        key, address = (("to", destination.workload), source) if isinstance(destination, Pod) else (("from", source.workload), destination)
        return next(ports for block, ports in self.ranges[key] if address in block)


def leads_of(items: List[Item], pods: List[Pod]) -> Dict[str, int]:
    """The ports of TCP to which the Ingress leads, by workload. What a controller that is named reaches is in the rows."""
    found: Dict[str, int] = {}
    for service in lists.kinds(items, "Service"):
        target = service["spec"]["ports"][0]["targetPort"]
        for item, pod in zip(lists.kinds(items, "Pod"), pods):
            named = [port["containerPort"] for port in item["spec"]["containers"][0]["ports"]
                     if port["name"] == target and port["protocol"] == "TCP"]
            if pod.namespace == service["metadata"]["namespace"] and pod.labels.get("app") == service["spec"]["selector"]["app"]:
                for port in [target] if isinstance(target, int) else named:
                    found[pod.workload] = found.get(pod.workload, 0) | 1 << port
    return found
