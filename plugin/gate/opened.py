"""A copy of a list in which every policy lets everything in: what np lists through Ingresses of it is where these
lead.

np tells the pods apart as before, and names its workloads so, since the copy's policies have the same selectors, and
the same blocks as `networks`. Nothing may be sent between pods, so that there are few rows: what comes through
Ingresses is asked about at its receiver alone.
"""
from __future__ import annotations

from typing import Any, Dict, List

from plugin import jsontext, kinds, values
from plugin.caveats.owners import Item, type_of
from plugin.gate.pods import types_of

_ADMIN = "policy.networking.k8s.io/v1alpha1"
_BASELINE = (_ADMIN, "BaselineAdminNetworkPolicy")
_ALL: Dict[str, Any] = {"namespaces": {}}

# How many objects np takes.
_MOST_ITEMS = 20_000


def has_ingresses(items: List[Item]) -> bool:
    """Whether there is an Ingress among the objects."""
    return any(type_of(item) == ("networking.k8s.io/v1", "Ingress") for item in items)


def text(items: List[Item]) -> bytes:
    """The copy of the objects, as a list."""
    copies = [_opened(item) for item in items]
    if len(items) < _MOST_ITEMS and not any(type_of(item) == _BASELINE for item in items):
        copies.append(_opened({"apiVersion": _ADMIN, "kind": _BASELINE[1], "metadata": {"name": "default"}, "spec": {"subject": _ALL}}))
    return jsontext.write({"apiVersion": "v1", "kind": "List", "items": copies})


def _opened(item: Item) -> Item:
    if type_of(item) == ("networking.k8s.io/v1", "NetworkPolicy"):
        return dict(item, spec=_opened_spec(values.members(item.get("spec"))))
    if type_of(item) == _BASELINE:
        return dict(item, spec=_opened_baseline(values.members(item.get("spec"))))
    return dict(item, spec=_opened_admin(values.members(item.get("spec")))) if type_of(item) in kinds.POLICY_TYPES else item


def _opened_spec(spec: Dict[str, Any]) -> Dict[str, Any]:
    """A NetworkPolicy that lets everything in, and isolates nothing that is sent. The peers of what is sent become
    those of what is received, for their selectors."""
    types = types_of(spec)
    rules = [rule for rule in values.objects(spec.get("ingress")) if "Ingress" in types]
    rules += [{"from": rule.get("to") or []} for rule in values.objects(spec.get("egress")) if "Egress" in types]
    return {"podSelector": spec.get("podSelector"), "policyTypes": ["Ingress"], "ingress": [*rules, {}]}


def _opened_admin(spec: Dict[str, Any]) -> Dict[str, Any]:
    return dict(spec, ingress=_with_action(spec.get("ingress"), "Allow"), egress=_with_action(spec.get("egress"), "Deny"))


def _opened_baseline(spec: Dict[str, Any]) -> Dict[str, Any]:
    """A baseline for all pods, to which nothing may send. Its subject becomes a peer, for its selectors."""
    opened = _opened_admin(spec)
    subject = {"action": "Allow", "from": [spec.get("subject")]}
    return dict(subject=_ALL, ingress=[*opened["ingress"], subject], egress=[*opened["egress"], {"action": "Deny", "to": [_ALL]}])


def _with_action(rules: Any, action: str) -> List[Dict[str, Any]]:
    return [dict(rule, action=action) for rule in values.objects(rules)]
