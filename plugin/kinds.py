"""The kinds that np reads, and those beside them that bear on its answers."""
from __future__ import annotations

from typing import Any, Dict, Iterable, List, NamedTuple, Optional, Tuple


class Kind(NamedTuple):
    """A kind that np reads, as the API names it: its resource, version, group (empty for the core) and name."""

    resource: str
    version: str
    group: str
    name: str
    is_namespaced: bool = True

    @property
    def api_version(self) -> str:
        """The version as objects name it."""
        return "%s/%s" % (self.group, self.version) if self.group else self.version

    @property
    def whole_resource(self) -> str:
        """The resource with its group."""
        return "%s.%s" % (self.resource, self.group) if self.group else self.resource

    @property
    def path(self) -> str:
        """Where the API lists its objects."""
        return "%s/%s" % (path_of(self.api_version), self.resource)


def path_of(api_version: str) -> str:
    """Where the API lists the resources of a version."""
    return "/api/v1" if api_version == "v1" else "/apis/" + api_version


_POLICIES = "policy.networking.k8s.io"
POLICY = Kind("networkpolicies", "v1", "networking.k8s.io", "NetworkPolicy")
POD = Kind("pods", "v1", "", "Pod")

READ = (
    POD,
    Kind("namespaces", "v1", "", "Namespace", False),
    Kind("services", "v1", "", "Service"),
    Kind("replicationcontrollers", "v1", "", "ReplicationController"),
    Kind("deployments", "v1", "apps", "Deployment"),
    Kind("replicasets", "v1", "apps", "ReplicaSet"),
    Kind("statefulsets", "v1", "apps", "StatefulSet"),
    Kind("daemonsets", "v1", "apps", "DaemonSet"),
    Kind("jobs", "v1", "batch", "Job"),
    Kind("cronjobs", "v1", "batch", "CronJob"),
    Kind("ingresses", "v1", "networking.k8s.io", "Ingress"),
    POLICY,
    Kind("adminnetworkpolicies", "v1alpha1", _POLICIES, "AdminNetworkPolicy", False),
    Kind("baselineadminnetworkpolicies", "v1alpha1", _POLICIES, "BaselineAdminNetworkPolicy", False),
)
NAMESPACED_TYPES = frozenset((kind.api_version, kind.name) for kind in READ if kind.is_namespaced)
POLICY_TYPES = frozenset((kind.api_version, kind.name) for kind in READ if kind.name.endswith("NetworkPolicy"))
VERSIONS = frozenset(kind.api_version for kind in READ)

# Kinds of meshes, gateways and network plugins that may stop what np says is permitted, or let through what it says
# is not.
_BYPASSES = frozenset(
    "AuthorizationPolicy EgressFirewall GRPCRoute HTTPProxy HTTPRoute IngressRoute MeshTrafficPermission PeerAuthentication"
    " Route.route.openshift.io Server.policy.linkerd.io ServerAuthorization ServiceIntentions Sidecar TCPRoute TLSRoute"
    " TrafficPermission TrafficTarget UDPRoute VirtualServer VirtualService".split())

# These have no policies, and are often down.
_METRICS = ("metrics.k8s.io", "custom.metrics.k8s.io", "external.metrics.k8s.io")

# Calico shows the policies of Kubernetes among its own, under names that nothing else can have there.
_CALICO, _CALICO_STORED = "projectcalico.org", "crd.projectcalico.org"
_CALICO_VIEWS = ("knp.default.", "kanp.adminnetworkpolicy.", "kbanp.baselineadminnetworkpolicy.")


# Kinds that make pods by themselves, and that np does not read.
_CARRIERS = frozenset("Rollout.argoproj.io DeploymentConfig.apps.openshift.io CloneSet.apps.kruise.io StatefulSet.apps.kruise.io"
                      " DaemonSet.apps.kruise.io".split())
_TYPES = frozenset((kind.api_version, kind.name) for kind in READ)
_NAMES = frozenset(kind.name for kind in READ)
# The groups that had the kinds that np reads in older versions.
_GROUPS = frozenset([kind.group for kind in READ if not kind.name.endswith("NetworkPolicy")] + ["extensions"])


class Resource(NamedTuple):
    """A resource of the cluster that can be listed: the version that has it, its name, and its kind ("-" where none
    is told)."""

    api_version: str
    name: str
    kind: str

    @property
    def group(self) -> str:
        """Its group, empty for the core."""
        return group_of(self.api_version)

    @property
    def whole_kind(self) -> str:
        """Its kind with the group."""
        return "%s.%s" % (self.kind, self.group)

    @property
    def argument(self) -> str:
        """It as kubectl takes it."""
        return "%s.%s.%s" % (self.name, self.api_version.rsplit("/", 1)[-1], self.group)


def group_of(api_version: str) -> str:
    """The group of a version, empty for the core."""
    return api_version.rsplit("/", 1)[0] if "/" in api_version else ""


def is_metrics(api_version: str) -> bool:
    """Whether the version is one of a group of metrics."""
    return group_of(api_version) in _METRICS


def is_ignored(ignored: List[str], kind: Optional[str], group: str) -> bool:
    """Whether --ignore names the kind, with or without its group, or where there is no kind the group itself."""
    names = {group.lower()} if kind is None else {kind.lower(), ("%s.%s" % (kind, group)).lower()}
    return any(name.lower() in names for name in ignored)


def foreign(resources: Iterable[Resource]) -> List[Resource]:
    """The policies that np does not read. Each kind of a group stands once, in the version that the group prefers.

    Passed over are the policies that np reads, in whatever version; and the stored objects of Calico where its API
    has the same ones.
    """
    policies: Dict[Tuple[str, str], Resource] = {}
    read = set()
    for resource in resources:
        if resource.kind.endswith("NetworkPolicy"):
            policies.setdefault((resource.group, resource.kind), resource)
        if (resource.api_version, resource.kind) in POLICY_TYPES:
            read.add((resource.group, resource.kind))
    if ("networking.k8s.io", "NetworkPolicy") in read:
        read.add(("extensions", "NetworkPolicy"))
    return [resource for (group, kind), resource in policies.items()
            if (group, kind) not in read and not (group == _CALICO_STORED and (_CALICO, kind) in policies)]


def carriers(resources: List[Resource]) -> List[Resource]:
    """The kinds that have pods and that np does not read: of controllers that it does not know, and of older versions where the
    cluster does not have the one that it reads."""
    present = {kind for version, _, kind in resources if (version, kind) in _TYPES}
    return [resource for resource in resources
            if resource.whole_kind in _CARRIERS or (resource.kind not in present and _is_older(resource.api_version, resource.kind))]


def _is_older(api_version: str, kind: str) -> bool:
    """Whether objects of this type are of a kind that np reads, in a version that it does not."""
    return (kind in _NAMES and not kind.endswith("NetworkPolicy") and group_of(api_version) in _GROUPS
            and (api_version, kind) not in _TYPES)


def is_carrier(api_version: str, kind: str, spec: Any) -> bool:
    """Whether an object of this type and spec has pods that np does not read."""
    if (api_version, kind) in _TYPES:
        return False
    template = spec.get("template") if isinstance(spec, dict) else None
    pod = template.get("spec") if isinstance(template, dict) else None
    return _is_older(api_version, kind) or (isinstance(pod, dict) and isinstance(pod.get("containers"), list))


def count_objects(group: str, names: bytes) -> int:
    """How many objects of the group the lines name, as kubectl prints them with `--output name`."""
    lines = [line.rsplit(b"/", 1)[-1].decode("utf-8", "replace") for line in names.splitlines()]
    return sum(bool(name) and not (group == _CALICO and name.startswith(_CALICO_VIEWS)) for name in lines)


def bypasses(resources: Iterable[Resource]) -> List[str]:
    """The kinds of the cluster that may stop connections, or let them through, without np knowing."""
    found = [resource.whole_kind for resource in resources
             if resource.group and (resource.kind in _BYPASSES or resource.whole_kind in _BYPASSES)]
    return list(dict.fromkeys(found))
