"""Caveats of Ingresses: backends that lead to no pod, or not where they seem to, and workloads that let only named
peers in."""
from __future__ import annotations

from typing import Any, Dict, Iterator, List, NamedTuple, Optional, Set, Tuple

from plugin import values
from plugin.caveats.beside import Port
from plugin.caveats.caveat import CONTROLLER, Caveat, Ends, Pair, some
from plugin.caveats.objects import NAME_LABEL, Listed, Pods, Selection
from plugin.caveats.owners import Item
from plugin.caveats.policies import Entry, Policy, Rule
from plugin.selectors import selector_of_labels


class _Backend(NamedTuple):
    """A backend of an Ingress that names a listed Service, with the text that says which."""

    ingress: str
    text: str
    service: Item
    port: Dict[str, Any]


class Ingresses:
    """The Ingresses of a list."""

    def __init__(self, listed: Listed, policies: List[Policy]) -> None:
        self._listed = listed
        self._services = {(values.namespace_of(item), values.name_of(item)): item for item in listed.of_type("v1", "Service")}
        self._policies = policies
        self._selecting: Optional[Dict[int, List[Policy]]] = None

    def find(self) -> Iterator[Caveat]:
        """The caveats of all Ingresses. What several paths of one have in common is said once."""
        for ingress in self._listed.of_type("networking.k8s.io/v1", "Ingress"):
            seen: Set[Tuple[str, str]] = set()
            for backend in self._backends(ingress):
                for caveat in self._of_backend(backend):
                    about = (caveat.key, caveat.detail.partition(": ")[2])
                    if about not in seen:
                        seen.add(about)
                        yield caveat

    def _backends(self, ingress: Item) -> Iterator[_Backend]:
        namespace, spec = values.namespace_of(ingress), values.members(ingress.get("spec"))
        found = [values.members(spec.get("defaultBackend"))] if spec.get("defaultBackend") else []
        found += [values.members(path.get("backend")) for rule in values.objects(spec.get("rules"))
                  for path in values.objects(values.members(rule.get("http")).get("paths"))]
        for number, backend in enumerate(found, 1):
            named = values.members(backend.get("service"))
            service = self._services.get((namespace, values.text(named.get("name"))))
            if service is not None:
                text = "backend %d: Service %s" % (number, values.name_of(service))
                yield _Backend("Ingress %s/%s" % (namespace, values.name_of(ingress)), text, service, values.members(named.get("port")))

    def _of_backend(self, backend: _Backend) -> Iterator[Caveat]:
        spec = values.members(backend.service.get("spec"))
        namespace = values.namespace_of(backend.service)
        selector = selector_of_labels(spec.get("selector"))
        if not selector.requirements or spec.get("type") == "ExternalName":
            yield _caveat("backend-without-pods", backend, "has no selector", self._listed.ends_of(namespace), is_noted=True)
            return
        served = self._listed.met_by(Selection(namespace, None, selector))
        port = _port_of(spec, backend.port)
        if not served:
            detail = "selects pods with %s, and none is listed" % str(selector)
            yield _caveat("backend-without-pods", backend, detail, self._listed.ends_of(namespace))
        elif port is not None:
            yield from self._of_port(backend, spec, port, served)

    def _of_port(self, backend: _Backend, spec: Item, port: Item, served: List[Pods]) -> Iterator[Caveat]:
        workloads = frozenset(pods.workload for pods in served)
        target = port.get("targetPort") or port.get("port")
        if spec.get("clusterIP") == "None" and target != port.get("port"):
            detail = "is headless, so its port %s is that of the pods, and not %s" % (port.get("port"), target)
            yield _caveat("backend-headless", backend, detail, workloads, is_noted=True)
            target = port.get("port")
        if isinstance(target, str):
            yield from _of_name(backend, Entry("", "TCP", target), served)
        for pods in served:
            yield from self._of_pods(backend, pods, _numbers(target, pods))

    def _of_pods(self, backend: _Backend, pods: Pods, numbers: List[int]) -> Iterator[Caveat]:
        """That what comes in through Ingresses is let in by name alone at one of the ports."""
        for number in numbers:
            named = self._naming(pods, number)
            if named:
                detail = "leads to %s at port %d, where %s lets in named peers alone" % (pods.workload, number, some(named))
                yield _caveat("controller-not-named", backend, detail, frozenset([pods.workload]))

    def _naming(self, pods: Pods, number: int) -> List[str]:
        """The policies that let somebody in at the port, where pods of which nothing is known are let in by none of
        them."""
        selecting = self._policies_of(pods)
        if not any(policy.is_of_namespace and "Ingress" in policy.directions for policy in selecting):
            return []
        opening = [(policy, rule) for policy in selecting for rule in policy.rules
                   if rule.is_ingress and rule.allows and _is_about(rule, pods, number)]
        if any(_lets_strangers_in(rule) for _, rule in opening):
            return []
        return sorted({policy.text for policy, _ in opening})

    def _policies_of(self, pods: Pods) -> List[Policy]:
        if self._selecting is None:
            self._selecting = {}
            for policy in self._policies:
                for each in policy.pods:
                    self._selecting.setdefault(id(each), []).append(policy)
        return self._selecting.get(id(pods), [])


def _caveat(key: str, backend: _Backend, detail: str, receivers: Ends, is_noted: bool = False) -> Caveat:
    return Caveat(key, backend.ingress, "%s %s" % (backend.text, detail), (Pair(CONTROLLER, receivers),), is_noted=is_noted,
                  opens=key != "backend-headless")


def _of_name(backend: _Backend, wanted: Entry, served: List[Pods]) -> Iterator[Caveat]:
    """The caveats of a target port that is named."""
    lacking = [pods for pods in served if not any(map(wanted.has, pods.ports))]
    sidecars = [(pods, port) for pods in lacking for port in pods.sidecars if wanted.has(port)]
    if sidecars:
        workloads = sorted({pods.workload for pods, _ in sidecars})
        caveat = _caveat("sidecar-port", backend, "leads to port %s, that of a sidecar of %s" % (wanted.name, some(workloads)),
                         frozenset(workloads))
        yield caveat._replace(ports=tuple(sorted({(port.protocol, port.number, port.number) for _, port in sidecars})))
    elif len(lacking) == len(served):
        yield _caveat("backend-port-name", backend, "leads to port %s, which no pod behind it has" % wanted.name,
                      frozenset(pods.workload for pods in served))


def _port_of(spec: Item, wanted: Item) -> Optional[Item]:
    """The TCP port of a Service that a backend names."""
    for port in values.objects(spec.get("ports")):
        is_named = wanted.get("name") and port.get("name") == wanted["name"]
        is_numbered = wanted.get("number") and port.get("port") == wanted["number"]
        if (is_named or is_numbered) and (port.get("protocol") or "TCP") == "TCP":
            return port
    return None


def _numbers(target: Any, pods: Pods) -> List[int]:
    """The ports of the pods that a target port means."""
    if isinstance(target, str):
        return sorted(port.number for port in pods.ports if port.name == target and port.protocol == "TCP")
    return [values.number(target)]


def _is_about(rule: Rule, pods: Pods, number: int) -> bool:
    if not rule.entries:
        return True
    return any(Port(entry.name, "TCP", number) in pods.ports if entry.name else entry.first <= number <= entry.last
               for entry in rule.entries if entry.protocol in ("", "TCP"))


def _lets_strangers_in(rule: Rule) -> bool:
    """Whether the rule is for a pod without labels, in a namespace without a name: who a controller is that nobody
    named."""
    selections = [peer.selection for peer in rule.peers if peer.selection is not None and peer.selection.namespaces is not None]
    return not rule.peers or any(selection.namespaces is not None and selection.namespaces.is_met({NAME_LABEL: ""})
                                 and selection.pods.is_met({}) for selection in selections)
