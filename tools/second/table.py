"""`list`, the forms of reports, the routes of ingresses, and `sample` (np_table, np_routes, np_report, np_sample)."""
import csv
import io
import json
from itertools import product
from typing import Dict, Iterator, List, NamedTuple, Optional, Sequence, Set, Tuple, Union

from .addresses import Address, address_text, cidr_text, range_prefixes
from .cluster import Cluster, told_apart
from .model import DIRECTIONS, INGRESS, NAME_KEY, TCP, Backend, Estate, ObjectName, PodEnd, Service, ServicePort, meets

Texts = Tuple[str, str, str]
HEAD: Texts = ("source", "destination", "connections")


# ---- forms of reports

def compact(value: object) -> str:
    """The compact text of a JSON value, whose members stand in the order of their names."""
    return json.dumps(value, ensure_ascii=False, separators=(",", ":"), sort_keys=True)


def report_text(form: str, rows: Sequence[Texts]) -> str:
    """The text of a whole report, for the texts of its rows."""
    if form == "csv":
        text = io.StringIO()
        csv.writer(text, lineterminator="\n").writerows([HEAD, *rows])
        return text.getvalue()
    if form == "json":
        return "[" + ",\n".join(compact(dict(zip(HEAD, row))) for row in rows) + "]\n"
    return "".join("%s => %s : %s\n" % row for row in rows)


# ---- rows

# Addresses of a family from the first to that of the last number.
Range = Tuple[Address, int]
# An end of a row: a workload's number, a range of addresses or, where there is None, the controller of ingresses.
RowEnd = Union[int, Range, None]


class Row(NamedTuple):
    """A row: its ends, its mark where it is of one family of two, and what passes."""
    source: RowEnd
    destination: RowEnd
    mark: str
    spots: int


def pair_rows(cluster: Cluster, source: int, destination: int) -> List[Row]:
    """The rows of a pair of workloads: one without a mark where the families agree, else one for each in which something passes."""
    sets = [cluster.allows(source, destination, family) for family in cluster.families]
    return [Row(source, destination, mark, spots) for mark, spots in told_apart(cluster.families, sets) if spots]


def address_rows(cluster: Cluster, workload: int, direction: str) -> List[Row]:
    """The rows of a workload and all addresses in a direction, those at which nothing passes among them."""
    rows = []
    for address, last, spots in cluster.address_rows(workload, direction):
        far = address, last
        rows.append(Row(far, workload, "", spots) if direction == INGRESS else Row(workload, far, "", spots))
    return rows


def all_rows(cluster: Cluster, controller: Optional[int]) -> Iterator[Row]:
    """The rows of pairs, then those of addresses, and then those of ingresses."""
    for source, destination in product(cluster.numbers, repeat=2):
        yield from pair_rows(cluster, source, destination)
    for number, direction in product(cluster.numbers, DIRECTIONS):
        yield from address_rows(cluster, number, direction)
    rows = (Row(None, number, "", routed_spots(cluster, controller, number)) for number in cluster.numbers)
    yield from (row for row in rows if row.spots)


# ---- ingresses

# The controller of ingresses, where it is not named: a pod of which nothing is known.
UNKNOWN = PodEnd("", {NAME_KEY: ""}, {}, (), ())


def is_backend_port(backend: Backend, port: ServicePort) -> bool:
    """Whether a port of a service is a TCP port of a backend's number or name."""
    return port.proto == TCP and backend.port == (port.port if isinstance(backend.port, int) else port.name)


def service_behind(estate: Estate, namespace: str, backend: Optional[Backend]) -> Union[Service, str]:
    """The service that a backend of an ingress of a namespace leads to, with the ports that it names, or why there is none."""
    if backend is None:
        return "Resource"
    service = estate.services.get(ObjectName("Service", namespace, backend.service))
    if service is None:
        return "NoService"
    if service.external or not service.selector:
        return "NoSelector"
    ports = tuple(port for port in service.ports if is_backend_port(backend, port))
    return service._replace(ports=ports) if ports else "NoPort"


def target_ports(service: Service, p: PodEnd) -> List[int]:
    """The ports of a pod that the ports of a service lead to: their targets, or where it is headless these ports themselves."""
    targets = [port.port if service.headless else port.target for port in service.ports]
    named = [own.number for own in p.ports if own.proto == TCP and own.name in targets]
    return [target for target in targets if isinstance(target, int)] + named


def routed_ports(estate: Estate, p: PodEnd) -> Set[int]:
    """The TCP ports of a pod that some ingress of its namespace leads to."""
    backends = [backend for _, ingress in estate.ingresses if ingress.name.namespace == p.namespace for backend in ingress.backends]
    services = [service_behind(estate, p.namespace, backend) for backend in backends]
    return {number for service in services if isinstance(service, Service) and meets(service.selector, p.labels)
            for number in target_ports(service, p)}


def controller_sends(cluster: Cluster, controller: Optional[int], receiver: PodEnd) -> int:
    """The spots at which the controller may send to a pod, in some family of the list."""
    if controller is None:
        return cluster.rules.side_allows(INGRESS, receiver, UNKNOWN, 4)
    spots = 0
    for family in cluster.families:
        spots |= cluster.rules.allows(cluster.pod(controller), receiver, family)
    return spots


def routed_spots(cluster: Cluster, controller: Optional[int], workload: int) -> int:
    """The TCP ports of a workload that are reached through ingresses; of the controller itself none is."""
    if workload == controller:
        return 0
    receiver = cluster.pod(workload)
    spots = sum(cluster.space.span(TCP, number, number) for number in routed_ports(cluster.estate, receiver))
    return spots & controller_sends(cluster, controller, receiver) if spots else 0


def route_notes(estate: Estate) -> str:
    """The lines of the backends that lead nowhere, or not where they seem to."""
    lines = []
    for item, ingress in estate.ingresses:
        for number, backend in enumerate(ingress.backends, 1):
            found = service_behind(estate, ingress.name.namespace, backend)
            if isinstance(found, str) or found.headless:
                lines.append("note: item %d: backend %d: %s\n" % (item, number, found if isinstance(found, str) else "Headless"))
    return "".join(lines)


# ---- `list`

def range_text(report: str, first: Address, last: int) -> str:
    """A range of addresses: by its ends in report 1, and in report 2 by its blocks, joined by commas."""
    if report == "2":
        return ",".join(cidr_text(block) for block in range_prefixes(first.family, first.number, last))
    return "-".join(address_text(end) for end in dict.fromkeys((first, Address(first.family, last))))


def end_text(cluster: Cluster, report: str, end: RowEnd) -> str:
    """An end of a row."""
    if end is None:
        return "{ingress-controller}"
    return cluster.workloads[end].name if isinstance(end, int) else range_text(report, *end)


def keeps(row: Row, focus: Optional[int], side: str) -> bool:
    """Whether a row is asked for: all are without a focus, and with one those that have its workload at the side."""
    ends = {"either": (row.source, row.destination), "from": (row.source,), "to": (row.destination,)}
    return focus is None or focus in ends[side]


def list_reply(cluster: Cluster, options: Dict[str, str]) -> str:
    """The rows of the table that are asked for."""
    controller, focus = [cluster.number_named(options[name]) if name in options else None for name in ("controller", "focus")]
    texts = []
    for row in all_rows(cluster, controller):
        if keeps(row, focus, options["side"]):
            source, destination = [end_text(cluster, options["report"], end) for end in (row.source, row.destination)]
            texts.append((source, destination + row.mark, cluster.space.text(row.spots)))
    return report_text(options["format"], texts)


# ---- `sample`

def with_label(key: str, value: str) -> Dict[str, object]:
    """The selector of what has a label."""
    return {"matchLabels": {key: value}}


def sample_pod(i: int) -> Dict[str, object]:
    """A pod of the sample cluster."""
    port = {"containerPort": 8000 + i % 3, "name": "http", "protocol": "TCP"}
    metadata = {"labels": {"app": "a%d" % (i % 7)}, "name": "p%d" % i, "namespace": "s%d" % (i % 5)}
    return {"apiVersion": "v1", "kind": "Pod", "metadata": metadata, "spec": {"containers": [{"ports": [port]}]}}


def sample_policy(j: int) -> Dict[str, object]:
    """The NetworkPolicy of a namespace of the sample cluster."""
    peers = [{"namespaceSelector": with_label(NAME_KEY, "s%d" % ((j + 1) % 5))}, {"ipBlock": {"cidr": "10.%d.0.0/16" % j}}]
    rules = [{"from": [peer], "ports": [{"port": port, "protocol": "TCP"}]} for peer, port in zip(peers, ("http", 443))]
    return {"apiVersion": "networking.k8s.io/v1", "kind": "NetworkPolicy", "metadata": {"name": "next", "namespace": "s%d" % j},
            "spec": {"ingress": rules, "podSelector": {}, "policyTypes": ["Ingress"]}}


def sample_text(count: int) -> bytes:
    """The sample cluster of so many pods, as JSON."""
    peer = {"pods": {"namespaceSelector": {}, "podSelector": with_label("app", "a6")}}
    spec = {"ingress": [{"action": "Deny", "from": [peer]}], "priority": 10, "subject": {"namespaces": {}}}
    admin = {"apiVersion": "policy.networking.k8s.io/v1alpha1", "kind": "AdminNetworkPolicy", "metadata": {"name": "stop"}, "spec": spec}
    namespaces: List[object] = [{"apiVersion": "v1", "kind": "Namespace", "metadata": {"name": "s%d" % j}} for j in range(5)]
    items = namespaces + [sample_pod(i) for i in range(count)] + [sample_policy(j) for j in range(5)] + [admin]
    return compact({"apiVersion": "v1", "items": items, "kind": "List"}).encode()


def sample_reply(cluster: Cluster) -> str:
    """How many workloads a sample has, and how many rows of each sort its table."""
    counts = {"pair": 0, "address": 0, "ingress": 0}
    for row in all_rows(cluster, None):
        ends = row.source, row.destination
        counts["address" if any(isinstance(end, tuple) for end in ends) else "ingress" if None in ends else "pair"] += 1
    return "workloads %d\n" % len(cluster.workloads) + "".join("%s rows %d\n" % entry for entry in counts.items())
