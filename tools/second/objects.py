"""How the objects of a cluster other than policies are read (np_objects)."""
from functools import partial
from typing import Dict, Optional, Tuple, Union

from . import values
from .addresses import Address, address_of
from .model import (Backend, Ingress, Labels, NamedPort, Namespace, ObjectName, PodSource, Selector, Service, ServicePort,
                    label_requirement)
from .values import Data, Shape, listed, member, one_of, optional, optional_or, refuse_if, required

# The kinds of controllers, with their API versions.
CONTROLLERS = {"Deployment": "apps/v1", "ReplicaSet": "apps/v1", "StatefulSet": "apps/v1", "DaemonSet": "apps/v1",
               "ReplicationController": "v1", "Job": "batch/v1", "CronJob": "batch/v1"}
# Labels of pods, their named ports, and whether they are on the network of their node.
Template = Tuple[Labels, Tuple[NamedPort, ...], bool]
NO_TEMPLATE: Template = ({}, (), False)


# ---- pods

def port_name(value: Data) -> Optional[str]:
    """A word; the empty text counts as missing."""
    return values.word(value) or None


def container_port(value: Data) -> Optional[NamedPort]:
    """A container port, where it has a name."""
    called = optional("name", port_name, value)
    proto = values.protocol(value)
    number = required("containerPort", values.port, value)
    return None if called is None else NamedPort(called, proto, number)


def pod_spec(value: Data) -> Tuple[Tuple[NamedPort, ...], bool]:
    """The ports of a pod's containers that have a name, and whether it is on the network of its node."""
    containers = listed("containers", partial(listed, "ports", container_port), value)
    host = optional_or(False, "hostNetwork", values.flag, value)
    return tuple(found for ports in containers for found in ports if found is not None), host


def address(value: Data) -> Optional[Address]:
    """A text that is empty or an address."""
    return None if value == "" else values.written(address_of, "BadAddress")(value)


def pod_status(value: Data) -> Tuple[bool, Tuple[Address, ...]]:
    """Whether a pod has ended, and its addresses, each once."""
    phase = optional("phase", values.text, value)
    first = optional("podIP", address, value)
    others = listed("podIPs", partial(optional, "ip", address), value)
    found = [one for one in (first,) + others if one is not None]
    return phase in ("Succeeded", "Failed"), tuple(dict.fromkeys(found))


def owner_reference(namespace: str, value: Data) -> Tuple[ObjectName, bool]:
    """An owner reference of an object of a namespace, and whether that owner controls it."""
    owner = ObjectName(required("kind", values.name, value), namespace, required("name", values.name, value))
    return owner, optional_or(False, "controller", values.flag, value)


def owner_in(own: ObjectName, value: Data) -> Optional[ObjectName]:
    """The owner of an object: the first that controls it and counts. The node of a pod does not, and of a controller only others do."""
    for owner, controls in listed("ownerReferences", partial(owner_reference, own.namespace), value):
        if controls and (owner.kind != "Node" if own.kind == "Pod" else owner.kind in CONTROLLERS):
            return owner
    return None


def owned_metadata(kind: str, value: Data) -> Tuple[ObjectName, Labels, Optional[ObjectName]]:
    """The name, the labels and the owner of a pod or a controller, of which the labels are not read."""
    own = values.namespaced_name(kind, value)
    labels = optional_or({}, "labels", values.labels, value) if kind == "Pod" else {}
    return own, labels, owner_in(own, value)


def pod(value: Data) -> PodSource:
    """A pod."""
    own, labels, owner = required("metadata", partial(owned_metadata, "Pod"), value)
    spec = required("spec", pod_spec, value)
    return PodSource(own, owner, labels, *spec, True, *optional_or((False, ()), "status", pod_status, value))


# ---- controllers and namespaces

def template(value: Data) -> Template:
    """The template of a pod."""
    labels = optional_or({}, "metadata", partial(optional_or, {}, "labels", values.labels), value)
    return (labels, *required("spec", pod_spec, value))


def controller_spec(kind: str, value: Data) -> Optional[Template]:
    """The template of the pods that a controller makes, unless it is told that none are wanted."""
    if kind == "CronJob":
        return optional("jobTemplate", partial(optional, "spec", partial(controller_spec, "Job")), value)
    replicas = None if kind in ("DaemonSet", "Job") else optional("replicas", values.whole, value)
    found = optional("template", template, value)
    return None if replicas == 0 else found


def controller(kind: str, value: Data) -> PodSource:
    """A controller of a kind."""
    own, _, owner = required("metadata", partial(owned_metadata, kind), value)
    found = optional("spec", partial(controller_spec, kind), value)
    return PodSource(own, owner, *(found or NO_TEMPLATE), found is not None, False, ())


def namespace_metadata(value: Data) -> Namespace:
    """The metadata of a namespace, which is in no namespace itself."""
    own = ObjectName("Namespace", "", required("name", values.name, value))
    return Namespace(own, optional_or({}, "labels", values.labels, value))


# ---- services

def target_port(value: Data) -> Union[int, str, None]:
    """A port of the pods behind a service; the number 0 and the empty text count as missing."""
    if type(value) is int:
        return None if value == 0 else values.port(value)
    return port_name(value)


def service_port(value: Data) -> ServicePort:
    """A port of a service; it leads to the same port of the pods unless another is named."""
    called = optional("name", port_name, value)
    proto = values.protocol(value)
    number = required("port", values.port, value)
    return ServicePort(called, proto, number, optional("targetPort", target_port, value) or number)


def service_spec(value: Data) -> Tuple[Selector, bool, bool, Tuple[ServicePort, ...]]:
    """The selector of a service, whether it is headless, whether it is external, and its ports."""
    kind = optional("type", values.text, value)
    cluster_ip = optional("clusterIP", values.text, value)
    labels = optional_or({}, "selector", values.labels, value)
    selector = tuple(label_requirement(*label) for label in labels.items())
    return selector, cluster_ip == "None", kind == "ExternalName", listed("ports", service_port, value)


def service(value: Data) -> Service:
    """A service."""
    own = required("metadata", partial(values.namespaced_name, "Service"), value)
    return Service(own, *required("spec", service_spec, value))


# ---- ingresses

def backend_port(value: Data) -> Union[int, str]:
    """A port of a service: exactly one of its number and its name, of which 0 and the empty text count as missing."""
    number, called = member("number", value), member("name", value)
    is_numbered = number is not None and not (type(number) is int and number == 0)
    refuse_if(is_numbered == (called is not None and called != ""), "BadField")
    return required("number", values.port, value) if is_numbered else required("name", values.text, value)


def backend_service(value: Data) -> Backend:
    """A service, and one of its ports."""
    return Backend(required("name", values.text, value), required("port", backend_port, value))


BACKENDS: Dict[str, Shape[Optional[Backend]]] = {"service": backend_service, "resource": lambda value: None}
backend: Shape[Optional[Backend]] = partial(one_of, "BadField", BACKENDS)
# A rule of an ingress: the backends of its paths.
rule = partial(optional_or, (), "http", partial(listed, "paths", partial(required, "backend", backend)))


def ingress_spec(value: Data) -> Tuple[Optional[Backend], ...]:
    """The spec of an ingress: the default backend, and then those of the rules."""
    default = optional("defaultBackend", lambda found: (backend(found),), value)
    rules = listed("rules", rule, value)
    return (default or ()) + tuple(one for backends in rules for one in backends)


def ingress(value: Data) -> Ingress:
    """An ingress."""
    own = required("metadata", partial(values.namespaced_name, "Ingress"), value)
    return Ingress(own, optional_or((), "spec", ingress_spec, value))


# ---- any of them

Object = Union[PodSource, Namespace, Service, Ingress]
# How the objects of an API version and a kind are read.
OBJECTS: Dict[Tuple[str, str], Shape[Object]] = {
    ("v1", "Pod"): pod,
    ("v1", "Namespace"): partial(required, "metadata", namespace_metadata),
    ("v1", "Service"): service,
    ("networking.k8s.io/v1", "Ingress"): ingress,
    **{(version, kind): partial(controller, kind) for kind, version in CONTROLLERS.items()},
}
