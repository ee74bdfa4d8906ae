"""Random lists for the gate: those of tools/relations, with pods that have owners in common, namespaces that are shut, and Ingresses."""
from __future__ import annotations

import random
from typing import Any, Dict, List

import lists

Item = Dict[str, Any]
OWNERS = [("StatefulSet", "db"), ("Deployment", "web"), ("StatefulSet", "web")]


def with_owners(items: List[Item], rng: random.Random) -> List[Item]:
    """The list with owners of some pods, of which some are told apart by their labels."""
    for item in lists.kinds(items, "Pod"):
        item["metadata"]["labels"].update({"color": rng.choice(["blue", "green"])} if rng.random() < 0.7 else {})
        if rng.random() < 0.8:
            kind, name = rng.choice(OWNERS)
            item["metadata"]["ownerReferences"] = [{"apiVersion": "apps/v1", "kind": kind, "name": name, "controller": True}]
    return items


def with_ingress(items: List[Item], rng: random.Random) -> List[Item]:
    """The list with a Service for a label, and an Ingress that leads there."""
    space, port = rng.choice(lists.SPACES), rng.choice([80, 8080])
    spec = {"selector": {"app": rng.choice("xyz")}, "ports": [{"port": port, "targetPort": rng.choice([80, 8080, "http"])}]}
    service = {"apiVersion": "v1", "kind": "Service", "metadata": {"name": "s", "namespace": space}, "spec": spec}
    backend = {"service": {"name": "s", "port": {"number": port}}}
    return [*items, service, {"apiVersion": "networking.k8s.io/v1", "kind": "Ingress", "metadata": {"name": "i", "namespace": space},
                              "spec": {"defaultBackend": backend}}]


def random_list(rng: random.Random) -> List[Item]:
    items = lists.random_items(rng)
    items += [lists.pod(rng.choice(lists.SPACES), "q%d" % number, rng) for number in range(rng.randrange(0, 4))]
    items = with_owners(items, rng)
    for space in lists.SPACES if rng.random() < 0.6 else []:
        spec: Item = {"podSelector": {}, "policyTypes": rng.choice([["Ingress"], ["Ingress", "Egress"]])}
        if rng.random() < 0.4:
            spec["ingress"] = [{"from": [{"podSelector": {"matchLabels": {"color": "blue"}}}]}]
        items.append({"apiVersion": "networking.k8s.io/v1", "kind": "NetworkPolicy", "metadata": {"name": "shut", "namespace": space},
                      "spec": spec})
    return with_ingress(items, rng) if rng.random() < 0.6 else items
