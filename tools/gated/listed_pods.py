"""The pods of a list, and which workload each is of."""
from __future__ import annotations

import ipaddress
import json
import re
from typing import Any, Dict, List, NamedTuple

import lists
from lists_with_owners import Item


class Pod(NamedTuple):
    name: str
    namespace: str
    workload: str
    labels: Dict[str, str]


def owner_of(item: Item) -> str:
    metadata = item["metadata"]
    references = metadata.get("ownerReferences")
    kind, name = (references[0]["kind"], references[0]["name"]) if references else ("Pod", metadata["name"])
    return "%s/%s[%s]" % (metadata["namespace"], name, kind)


def keys_in_force(items: List[Item]) -> List[str]:
    """The keys of labels by which np tells pods apart."""
    found = {"app"} if lists.kinds(items, "Service") else set()
    for item in lists.kinds(items, "NetworkPolicy", "AdminNetworkPolicy", "BaselineAdminNetworkPolicy"):
        spec = dict(item["spec"])
        for direction in ("Ingress", "Egress"):
            if direction not in spec.get("policyTypes", [direction]):
                spec.pop(direction.lower(), None)
        text = json.dumps(spec)
        found |= set(re.findall(r'"key": "([^"]*)"', text))
        for labels in re.findall(r'"matchLabels": ({[^}]*})', text):
            found |= set(json.loads(labels))
    return sorted(found)


def pods_of(items: List[Item]) -> List[Pod]:
    keys = keys_in_force(items)
    networks = [ipaddress.ip_network(text) for text in sorted(set(re.findall(r'"networks": \["([^"]*)"\]', json.dumps(items))))]
    traits: Dict[str, List[Any]] = {}
    listed = []
    for item in lists.kinds(items, "Pod"):
        ips = [ipaddress.ip_address(each["ip"]) for each in item["status"]["podIPs"]]
        trait = ([item["metadata"]["labels"].get(key) for key in keys], item["spec"]["containers"][0]["ports"],
                 [any(ip in network for ip in ips) for network in networks])
        known = traits.setdefault(owner_of(item), [])
        if trait not in known:
            known.append(trait)
        listed.append((item, known.index(trait) + 1))
    return [Pod(item["metadata"]["name"], item["metadata"]["namespace"],
                owner_of(item) + ("#%d" % number if len(traits[owner_of(item)]) > 1 else ""), item["metadata"]["labels"])
            for item, number in listed]
