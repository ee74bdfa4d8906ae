"""Members of manifests that the Kubernetes API does not have, where they would change who can reach whom: `form` for `from`
opens a rule to all.

The API server drops them, and so does np; a strict `kubectl apply` refuses them. Looked at is what decides: policies whole,
selectors, metadata, ports of containers, and in pods what looks like a misspelt member that decides. The members are those
of the Kubernetes API reference and of network-policy-api.
"""
from __future__ import annotations

from typing import Any, Dict, Iterator, Tuple

from plugin.nearest import is_near

# The shape of a value: None is not looked at; a Members has these members and no others; an Open may have others, but none
# that is nearly one of these; a list has items of one shape.
Shape = Any


class Members(Dict[str, Shape]):
    """An object of which all members are known, with their shapes."""


class Open(Dict[str, Shape]):
    """An object of which those members are known that decide."""


def _members(names: str, **shapes: Shape) -> Members:
    return Members({**dict.fromkeys(names.split()), **shapes})


_SELECTOR = _members("matchLabels", matchExpressions=[_members("key operator values")])
_METADATA = _members("annotations creationTimestamp deletionGracePeriodSeconds deletionTimestamp finalizers generateName generation"
                     " labels managedFields name namespace ownerReferences resourceVersion selfLink uid")
_OBJECT = _members("apiVersion kind spec status", metadata=_METADATA)
_CONTAINER = Open(ports=[_members("name protocol containerPort hostPort hostIP")])
_POD = Open(hostNetwork=None, containers=[_CONTAINER], initContainers=[_CONTAINER])
_TEMPLATE = Members(metadata=_METADATA, spec=_POD)
_WORKLOAD = Members(_OBJECT, spec=Open(replicas=None, selector=_SELECTOR, template=_TEMPLATE))

_RULE_PORTS = [_members("protocol port endPort")]
_PEERS = [Members(podSelector=_SELECTOR, namespaceSelector=_SELECTOR, ipBlock=_members("cidr except"))]
_POLICY = _members("policyTypes", podSelector=_SELECTOR, ingress=[Members({"from": _PEERS, "ports": _RULE_PORTS})],
                   egress=[Members(to=_PEERS, ports=_RULE_PORTS)])

_PODS = Members(namespaceSelector=_SELECTOR, podSelector=_SELECTOR)
_ADMIN_PORTS = [_members("namedPort", portNumber=_members("protocol port"), portRange=_members("protocol start end"))]
_SUBJECT = Members(namespaces=_SELECTOR, pods=_PODS)
_TO = _members("networks domainNames", namespaces=_SELECTOR, pods=_PODS, nodes=_SELECTOR)
_ADMIN = _members("priority", subject=_SUBJECT,
                  ingress=[_members("name action", ports=_ADMIN_PORTS, **{"from": [_SUBJECT]})],
                  egress=[_members("name action", ports=_ADMIN_PORTS, to=[_TO])])

_SHAPES: Dict[Tuple[Any, Any], Shape] = {
    ("v1", "Namespace"): _OBJECT,
    ("v1", "Pod"): Members(_OBJECT, spec=_POD),
    ("v1", "Service"): Members(_OBJECT, spec=Open(selector=None, ports=[_members("name protocol port targetPort nodePort appProtocol")])),
    ("v1", "ReplicationController"): Members(_OBJECT, spec=Open(replicas=None, template=_TEMPLATE)),
    ("apps/v1", "Deployment"): _WORKLOAD,
    ("apps/v1", "ReplicaSet"): _WORKLOAD,
    ("apps/v1", "StatefulSet"): _WORKLOAD,
    ("apps/v1", "DaemonSet"): _WORKLOAD,
    ("batch/v1", "Job"): _WORKLOAD,
    ("batch/v1", "CronJob"): Members(_OBJECT, spec=Open(jobTemplate=Members(metadata=_METADATA, spec=Open(template=_TEMPLATE)))),
    ("networking.k8s.io/v1", "NetworkPolicy"): Members(_OBJECT, spec=_POLICY),
    ("policy.networking.k8s.io/v1alpha1", "AdminNetworkPolicy"): Members(_OBJECT, spec=_ADMIN),
    ("policy.networking.k8s.io/v1alpha1", "BaselineAdminNetworkPolicy"): Members(_OBJECT, spec=_ADMIN),
}


def members_of(item: Any) -> Iterator[str]:
    """The paths of the members of an object that the API does not have, as `spec.ingress[0].form`."""
    if isinstance(item, dict):
        yield from _unknown(item, _SHAPES.get((item.get("apiVersion"), item.get("kind"))), "")


def _unknown(value: Any, shape: Shape, path: str) -> Iterator[str]:
    if isinstance(shape, list) and isinstance(value, list):
        for place, item in enumerate(value):
            yield from _unknown(item, shape[0], "%s[%d]" % (path, place))
    elif isinstance(shape, dict) and isinstance(value, dict):
        for name, inner in value.items():
            there = "%s.%s" % (path, name) if path else name
            if name in shape:
                yield from _unknown(inner, shape[name], there)
            elif isinstance(shape, Members) or any(is_near(name, known) for known in shape):
                yield there
