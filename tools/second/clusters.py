"""Random clusters: the small lists of tools/relations/lists.py, with controllers, Services, Ingresses and richer policies."""
import os
import random
import sys
from typing import Any, Callable, Dict, List, Tuple

sys.path.insert(0, os.path.join(os.path.dirname(os.path.dirname(os.path.abspath(__file__))), "relations"))
import lists  # noqa: E402

Item = Dict[str, Any]
Rng = random.Random
NETWORKS = ["10.0.0.0/8", "10.0.0.2/32", "10.0.0.0/30", "fd00::/64", "::/0", "0.0.0.0/0", "10.1.0.0/16"]
REPLICATED = ["Deployment", "ReplicaSet", "StatefulSet", "DaemonSet"]


def maybe(rng: Rng, chance: float, **members: Any) -> Item:
    """These members, or none."""
    return members if rng.random() < chance else {}


def metadata(rng: Rng, name: str, **members: Any) -> Item:
    """The metadata of an object in one of the namespaces, or in that of which nothing is said."""
    return {"name": name, **maybe(rng, 0.9, namespace=rng.choice(lists.SPACES)), **members}


def pod_spec(rng: Rng) -> Item:
    """The spec of a pod."""
    ports = [{"name": rng.choice(["http", "dns", "web"]), "containerPort": rng.choice([53, 80, 8080]),
              **maybe(rng, 0.7, protocol=rng.choice(["TCP", "UDP", "SCTP"]))} for _ in range(rng.randrange(3))]
    return {"containers": [{"ports": ports}], **maybe(rng, 0.15, hostNetwork=rng.random() < 0.5)}


def owner(kind: str, name: str, controller: object = True) -> Item:
    """An owner reference."""
    return {"apiVersion": "apps/v1", "kind": kind, "name": name, "uid": "u", "controller": controller}


def controller(rng: Rng, kind: str, name: str) -> Item:
    """A controller with a template."""
    template = {"metadata": {"labels": lists.labels(rng)}, "spec": pod_spec(rng)}
    spec: Item = {"template": template, **maybe(rng, 0.3, replicas=rng.choice([0, 1, 3]))}
    if kind == "CronJob":
        spec = {"jobTemplate": {"spec": spec}}
    version = {"Job": "batch/v1", "CronJob": "batch/v1", "ReplicationController": "v1"}.get(kind, "apps/v1")
    return {"apiVersion": version, "kind": kind, "metadata": metadata(rng, name), "spec": spec}


def owned_pods(rng: Rng) -> List[Item]:
    """Pods of one controller, which another may own, and which may be listed or not."""
    kind = rng.choice(REPLICATED + ["Job", "ReplicationController", "Rollout", "Node"])
    top = rng.choice(["Deployment", "CronJob", "Widget"])
    space, found = rng.choice(lists.SPACES), []
    for number in range(rng.randrange(1, 4)):
        pod = lists.pod(space, "o%d-%d" % (rng.randrange(3), number), rng)
        pod["metadata"]["ownerReferences"] = [owner("Other", "else", False)] * (rng.random() < 0.2) + [owner(kind, "set")]
        pod["metadata"]["labels"] = {"app": rng.choice("xxy")}
        pod["status"].update(maybe(rng, 0.2, phase=rng.choice(["Running", "Succeeded", "Failed"])))
        found.append(pod)
    if rng.random() < 0.6 and kind not in ("Rollout", "Node"):
        set_item = controller(rng, kind, "set")
        set_item["metadata"].update(namespace=space, **maybe(rng, 0.6, ownerReferences=[owner(top, "top")]))
        found.append(set_item)
        if rng.random() < 0.5 and top != "Widget":
            found.append(controller(rng, top, "top"))
            above = rng.choice([owner(kind, "set"), owner("CronJob", "boss"), owner("CronJob", "boss")])
            found[-1]["metadata"].update(namespace=space, **maybe(rng, 0.5, ownerReferences=[above]))
    return found


def templates(rng: Rng) -> List[Item]:
    """Controllers alone, of which each stands for a pod."""
    kinds = REPLICATED + ["Job", "CronJob", "ReplicationController"]
    return [controller(rng, rng.choice(kinds), "c%d" % number) for number in range(rng.randrange(1, 3))]


def service(rng: Rng, name: str) -> Item:
    """A Service."""
    ports = [{"port": rng.choice([80, 443]), **maybe(rng, 0.6, name=rng.choice(["http", "web"])),
              **maybe(rng, 0.7, targetPort=rng.choice([80, 8080, "http", "web", "dns", 0, ""])),
              **maybe(rng, 0.3, protocol=rng.choice(["TCP", "UDP"]))} for _ in range(rng.randrange(1, 3))]
    spec = {"ports": ports, **maybe(rng, 0.85, selector=rng.choice([lists.labels(rng), {"app": rng.choice("xy")}])),
            **maybe(rng, 0.4, clusterIP=rng.choice(["None", "None", "10.9.0.1", ""])),
            **maybe(rng, 0.2, type=rng.choice(["ExternalName", "ClusterIP"]))}
    return {"apiVersion": "v1", "kind": "Service", "metadata": metadata(rng, name), "spec": spec}


def backend(rng: Rng) -> Item:
    """What an Ingress sends to."""
    if rng.random() < 0.1:
        return {"resource": {"kind": "Bucket", "name": "b"}}
    port = rng.choice([{"number": 80}, {"number": 443}, {"name": "http"}, {"name": "web"}, {"number": 0, "name": "http"},
                       {"number": 80, "name": ""}])
    return {"service": {"name": rng.choice(["s0", "s1", "none"]), "port": port}}


def ingress(rng: Rng, name: str) -> Item:
    """An Ingress."""
    rules = [{"http": {"paths": [{"backend": backend(rng)} for _ in range(rng.randrange(1, 3))]}} for _ in range(rng.randrange(3))]
    spec = {"rules": rules, **maybe(rng, 0.5, defaultBackend=backend(rng))}
    return {"apiVersion": "networking.k8s.io/v1", "kind": "Ingress", "metadata": metadata(rng, name), "spec": spec}


def routes(rng: Rng) -> List[Item]:
    """Services, and Ingresses that may lead to them."""
    return [service(rng, "s%d" % n) for n in range(2)] + [ingress(rng, "i%d" % n) for n in range(rng.randrange(1, 3))]


def aim(rng: Rng, items: List[Item]) -> None:
    """Has Services and Ingresses lead to a pod, mostly."""
    pod = rng.choice(lists.kinds(items, "Pod"))
    for item in lists.kinds(items, "Service", "Ingress"):
        item["metadata"].update(maybe(rng, 0.8, namespace=pod["metadata"]["namespace"]))
        if item["kind"] == "Service" and rng.random() < 0.6:
            item["spec"]["selector"] = dict(pod["metadata"]["labels"])


def admin_port(rng: Rng) -> Item:
    """An entry of ports of an admin rule."""
    protocol = maybe(rng, 0.7, protocol=rng.choice(["TCP", "UDP", "SCTP"]))
    start = rng.choice([1, 53, 80])
    return rng.choice([{"portNumber": {"port": rng.choice([53, 80, 81]), **protocol}}, {"namedPort": rng.choice(["http", "dns"])},
                       {"portRange": {"start": start, "end": rng.choice([80, 90, 65535]), **protocol}}])


def richer_admin(rng: Rng, policy: Item) -> None:
    """An admin policy with named ports, more networks and subjects of pods."""
    if "priority" in policy["spec"] and rng.random() < 0.05:
        policy["spec"]["priority"] = 3
    if rng.random() < 0.4:
        policy["spec"]["subject"] = {"pods": {"namespaceSelector": lists.space_selector(rng), "podSelector": lists.selector(rng)}}
    for rule in policy["spec"].get("ingress", []) + policy["spec"].get("egress", []):
        rule.update(maybe(rng, 0.5, ports=[admin_port(rng) for _ in range(rng.randrange(1, 3))]))
        if "to" in rule and rng.random() < 0.4:
            rule["to"].append({"networks": rng.sample(NETWORKS, 2)})


def richer_net(rng: Rng, policy: Item) -> None:
    """A NetworkPolicy without types, with other blocks, or with more requirements."""
    spec = policy["spec"]
    if rng.random() < 0.3:
        spec.pop("policyTypes", None)
    for rule in spec.get("ingress", []) + spec.get("egress", []):
        peers = rule.get("from", rule.get("to", []))
        if peers and rng.random() < 0.3:
            one, other = rng.sample(NETWORKS[:4] + ["10.0.0.1/32", "10.0.0.0/29"], 2)
            peers.append({"ipBlock": rng.choice([{"cidr": one}, {"cidr": "10.0.0.0/8", "except": ["10.0.0.0/29", "10.0.0.4/30"]},
                                                 {"cidr": other, **maybe(rng, 0.3, **{"except": [rng.choice([one, other])]})}])})
        if peers and rng.random() < 0.3:
            named = {"key": lists.NAME_KEY, "operator": rng.choice(["Exists", "DoesNotExist"])}
            peers += [{"namespaceSelector": {"matchExpressions": [named]}}] if rng.random() < 0.3 else []
            asked = zip(["tier", "app"], rng.sample(["In", "NotIn"], 2))
            wanted = [{"key": key, "operator": op, "values": list(rng.sample("wxyz", 2))} for key, op in asked]
            peers.append({"podSelector": {"matchLabels": lists.labels(rng), "matchExpressions": wanted[:rng.randrange(1, 3)]}})


def others(rng: Rng) -> List[Item]:
    """Objects that are not read, or only here and there."""
    return [{"apiVersion": rng.choice(["v1", "apps/v1beta1"]), "kind": rng.choice(["ConfigMap", "Deployment", "Ingress"]),
             "metadata": {"name": "m"}}]


def twins(rng: Rng) -> List[Item]:
    """Two pods of the same labels that call other ports `http`, and a policy that lets the one send to the other there."""
    labels, found = {"app": "x", "tier": rng.choice("xy")}, []
    for number in range(2):
        pod = lists.pod("nsone", "t%d" % number, rng)
        pod["metadata"]["labels"] = dict(labels)
        pod["spec"] = {"containers": [{"ports": [{"name": "http", "containerPort": 80 + number * rng.randrange(2)}]}]}
        found.append(pod)
    spec = {"podSelector": {}, "ingress": [{"from": [{"podSelector": {"matchLabels": labels}}], "ports": [{"port": "http"}]}]}
    policy = {"apiVersion": "networking.k8s.io/v1", "kind": "NetworkPolicy", "metadata": {"name": "t", "namespace": "nsone"}, "spec": spec}
    return found + [policy]


EXTRAS: Dict[Callable[[Rng], List[Item]], float] = {owned_pods: 0.35, templates: 0.35, routes: 0.5, others: 0.35, twins: 0.15}


def richer_pod(rng: Rng, pod: Item) -> None:
    """A pod that may be on the network of its node, or have ended, with more ports, and an address that stands first."""
    if rng.random() < 0.3:
        pod["spec"] = pod_spec(rng)
    pod["status"].update(maybe(rng, 0.15, phase=rng.choice(["Running", "Succeeded", "Failed"])),
                         **maybe(rng, 0.2, podIP=rng.choice(["10.0.0.1", "fd00::1", ""])))


def richer_space(rng: Rng, space: Item) -> None:
    """A namespace of which a label may say another name."""
    space["metadata"]["labels"].update(maybe(rng, 0.2, **{lists.NAME_KEY: rng.choice(lists.SPACES)}))


RICHER: Dict[str, Callable[[Rng, Item], None]] = {
    "NetworkPolicy": richer_net, "AdminNetworkPolicy": richer_admin, "BaselineAdminNetworkPolicy": richer_admin,
    "Pod": richer_pod, "Namespace": richer_space,
}


def random_items(rng: Rng) -> List[Item]:
    """The items of a random list."""
    items = lists.random_items(rng)
    for extra, chance in EXTRAS.items():
        items += extra(rng) if rng.random() < chance else []
    for item in items:
        if item["kind"] in RICHER:
            RICHER[item["kind"]](rng, item)
    aim(rng, items)
    if rng.random() < 0.5:
        rng.shuffle(items)
    return items


def name_of(item: Item) -> Tuple[str, str, str]:
    """What tells an object from all others."""
    own = item["metadata"]
    return item["kind"], own.get("namespace", "default"), own["name"]


def many_items(rng: Rng) -> List[Item]:
    """The items of several random lists as one, some pods of which have one owner; of two of one name the first stays."""
    items: Dict[Tuple[str, str, str], Item] = {}
    for number in range(rng.randrange(3, 7)):
        for item in random_items(rng):
            if item["kind"] in ("Pod", "NetworkPolicy", "AdminNetworkPolicy"):
                item["metadata"]["name"] += "-%d" % number
            if item["kind"] == "AdminNetworkPolicy":
                item["spec"]["priority"] += 10 * number
            if item["kind"] == "Pod" and rng.random() < 0.5:
                item["metadata"]["ownerReferences"] = [owner("Widget", "one")]
            items.setdefault(name_of(item), item)
    return list(items.values())


def full_items() -> List[Item]:
    """One list with every kind of object that is read and every member of each."""
    rng = random.Random(0)
    selector = {"matchLabels": {"app": "x"},
                "matchExpressions": [{"key": "tier", "operator": "In", "values": ["x", "y"]}, {"key": "z", "operator": "Exists"}]}
    pod = lists.pod("nsone", "p0", rng)
    pod["metadata"].update(ownerReferences=[owner("ReplicaSet", "set")], labels={"app": "x", "tier": "y"})
    pod["spec"] = {"hostNetwork": False,
                   "containers": [{"ports": [{"name": "http", "containerPort": 80, "protocol": "TCP"}, {"containerPort": 81}]}]}
    pod["status"] = {"phase": "Running", "podIP": "10.0.0.1", "podIPs": [{"ip": "10.0.0.1"}, {"ip": "fd00::1"}]}
    peers = [{"podSelector": selector}, {"namespaceSelector": selector, "podSelector": {}},
             {"ipBlock": {"cidr": "10.0.0.0/8", "except": ["10.0.0.0/16", "10.1.0.0/16"]}}]
    ports = [{"protocol": "TCP", "port": 80, "endPort": 90}, {"protocol": "UDP", "port": "dns"}, {"protocol": "SCTP"}]
    net = lists.net_policy("nsone", "n0", rng)
    net["spec"] = {"podSelector": selector, "policyTypes": ["Ingress", "Egress"], "ingress": [{"from": peers, "ports": ports}],
                   "egress": [{"to": peers, "ports": ports}]}
    pods = {"pods": {"namespaceSelector": selector, "podSelector": selector}}
    admin_ports = [{"portNumber": {"protocol": "TCP", "port": 80}}, {"portRange": {"protocol": "UDP", "start": 50, "end": 60}},
                   {"namedPort": "http"}]
    rule = {"name": "r", "action": "Deny", "ports": admin_ports}
    spec = {"subject": pods, "ingress": [{**rule, "from": [pods, {"namespaces": selector}]}],
            "egress": [{**rule, "to": [pods, {"networks": ["10.0.0.0/8", "fd00::/64"]}]}]}
    policies = [{"apiVersion": lists.ADMIN, "kind": kind, "metadata": {"name": name}, "spec": {**spec, **more}} for kind, name, more in
                [("AdminNetworkPolicy", "a0", {"priority": 5}), ("BaselineAdminNetworkPolicy", "default", {})]]
    made = [controller(random.Random(1), kind, "set") for kind in ("ReplicaSet", "DaemonSet", "CronJob", "Job", "ReplicationController")]
    for one in made:
        one["metadata"].update(namespace="nsone", ownerReferences=[owner("Deployment", "top")])
        one["spec"].update(replicas=2)
    served = {"selector": {"app": "x"}, "type": "ClusterIP", "clusterIP": "10.9.0.1",
              "ports": [{"name": "http", "port": 80, "targetPort": "http", "protocol": "TCP"}, {"port": 81, "targetPort": 80}]}
    to: List[Item] = [{"service": {"name": "s0", "port": port}} for port in ({"number": 80}, {"name": "http"})]
    to.append({"resource": {"kind": "Bucket", "name": "b"}})
    routing = {"defaultBackend": to[0], "rules": [{"http": {"paths": [{"backend": one} for one in to]}}]}
    own = {"name": "s0", "namespace": "nsone"}
    return [lists.space("nsone", rng), pod, net, *policies, *made, {"apiVersion": "v1", "kind": "Service", "metadata": own, "spec": served},
            {"apiVersion": "networking.k8s.io/v1", "kind": "Ingress", "metadata": own, "spec": routing}, lists.pod("nstwo", "q", rng)]
