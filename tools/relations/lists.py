"""Random lists of objects, small ones, as kubectl prints them."""
import copy

NAME_KEY = "kubernetes.io/metadata.name"
SPACES = ["nsone", "nstwo"]
ADMIN = "policy.networking.k8s.io/v1alpha1"


def labels(rng):
    return {key: rng.choice("xyz") for key in ("app", "tier") if rng.random() < 0.7}


def space(name, rng):
    return {"apiVersion": "v1", "kind": "Namespace", "metadata": {"name": name, "labels": {"env": rng.choice(["dev", "prod"])}}}


def pod(namespace, name, rng, addresses=True):
    ports = [{"name": rng.choice(["http", "dns"]), "containerPort": rng.choice([53, 80, 8080]), "protocol": rng.choice(["TCP", "UDP"])}]
    ips = [{"ip": "10.%d.0.%d" % (rng.randrange(2), rng.randrange(1, 4))}] if rng.random() < 0.8 else []
    ips += [{"ip": "fd00::%d" % rng.randrange(1, 4)}] if rng.random() < 0.3 else []
    return {"apiVersion": "v1", "kind": "Pod", "metadata": {"name": name, "namespace": namespace, "labels": labels(rng)},
            "spec": {"containers": [{"ports": ports if rng.random() < 0.7 else []}]}, "status": {"podIPs": ips if addresses else []}}


def selector(rng):
    kind = rng.random()
    key = rng.choice(["app", "tier"])
    if kind < 0.25:
        return {}
    if kind < 0.65:
        return {"matchLabels": {key: rng.choice("xyz")}}
    if kind < 0.85:
        values = rng.sample("xyz", rng.randrange(1, 3))
        return {"matchExpressions": [{"key": key, "operator": rng.choice(["In", "NotIn"]), "values": values}]}
    return {"matchExpressions": [{"key": key, "operator": rng.choice(["Exists", "DoesNotExist"])}]}


def space_selector(rng):
    return rng.choice([{}, {"matchLabels": {"env": "dev"}}, {"matchLabels": {NAME_KEY: rng.choice(SPACES)}},
                       {"matchExpressions": [{"key": "env", "operator": "NotIn", "values": ["prod"]}]}])


def block(rng):
    return rng.choice([{"cidr": "10.0.0.0/8"}, {"cidr": "10.0.0.0/16", "except": ["10.0.0.0/30"]}, {"cidr": "0.0.0.0/0"},
                       {"cidr": "fd00::/64"}])


def net_peer(rng):
    kind = rng.random()
    if kind < 0.3:
        return {"podSelector": selector(rng)}
    if kind < 0.55:
        return {"namespaceSelector": space_selector(rng)}
    if kind < 0.75:
        return {"namespaceSelector": space_selector(rng), "podSelector": selector(rng)}
    return {"ipBlock": block(rng)}


def net_port(rng):
    kind = rng.random()
    entry = {"protocol": rng.choice(["TCP", "UDP", "SCTP"])}
    if kind < 0.5:
        return {**entry, "port": rng.choice([53, 80, 81, 8080])}
    if kind < 0.7:
        return {**entry, "port": 80, "endPort": rng.choice([80, 90, 9000])}
    return {**entry, "port": rng.choice(["http", "dns"])} if kind < 0.9 else entry


def net_rules(rng, peers):
    rules = []
    for _ in range(rng.randrange(0, 3)):
        rule = {peers: [net_peer(rng) for _ in range(rng.randrange(0, 3))], "ports": [net_port(rng) for _ in range(rng.randrange(0, 3))]}
        rules.append({member: items for member, items in rule.items() if items})
    return rules


def net_policy(namespace, name, rng):
    spec = {"podSelector": selector(rng), "policyTypes": rng.choice([["Ingress"], ["Egress"], ["Ingress", "Egress"]])}
    spec["ingress"], spec["egress"] = net_rules(rng, "from"), net_rules(rng, "to")
    return {"apiVersion": "networking.k8s.io/v1", "kind": "NetworkPolicy", "metadata": {"name": name, "namespace": namespace}, "spec": spec}


def admin_peer(rng, direction):
    kind = rng.random()
    if direction == "egress" and kind < 0.25:
        return {"networks": [rng.choice(["10.0.0.0/8", "10.0.0.2/32", "fd00::/64"])]}
    if kind < 0.6:
        return {"namespaces": space_selector(rng)}
    return {"pods": {"namespaceSelector": space_selector(rng), "podSelector": selector(rng)}}


def admin_rules(rng, direction, actions):
    rules = []
    for _ in range(rng.randrange(0, 3)):
        rule = {"action": rng.choice(actions), ("from" if direction == "ingress" else "to"): [admin_peer(rng, direction)]}
        if rng.random() < 0.6:
            rule["ports"] = [rng.choice([{"portNumber": {"protocol": "TCP", "port": rng.choice([53, 80, 8080])}},
                                         {"portRange": {"protocol": "UDP", "start": 50, "end": 60}}])]
        rules.append(rule)
    return rules


def admin_policy(kind, name, rng, priority=None):
    actions = ["Allow", "Deny", "Pass"] if priority is not None else ["Allow", "Deny"]
    spec = {"subject": {"namespaces": space_selector(rng)}}
    for direction in ("ingress", "egress"):
        spec[direction] = admin_rules(rng, direction, actions)
    if priority is not None:
        spec["priority"] = priority
    return {"apiVersion": ADMIN, "kind": kind, "metadata": {"name": name}, "spec": spec}


def random_items(rng):
    """Namespaces first, then pods, then policies: each pod is a workload of its own."""
    items = [space(name, rng) for name in SPACES if rng.random() < 0.9]
    items += [pod(rng.choice(SPACES), "p%d" % i, rng) for i in range(rng.randrange(2, 6))]
    items += [net_policy(rng.choice(SPACES), "n%d" % i, rng) for i in range(rng.randrange(0, 4))]
    for i, priority in enumerate(rng.sample(range(10), rng.randrange(0, 3))):
        items.append(admin_policy("AdminNetworkPolicy", "a%d" % i, rng, priority))
    if rng.random() < 0.4:
        items.append(admin_policy("BaselineAdminNetworkPolicy", "default", rng))
    return items


def kinds(items, *names):
    return [item for item in items if item["kind"] in names]


def pod_name(item):
    return "%s/%s" % (item["metadata"]["namespace"], item["metadata"]["name"])


def without_rules(items, unused):
    """The items without the rules that `unused` names, each a line as `NetworkPolicy default/p ingress[0]`."""
    left = copy.deepcopy(items)
    gone = set(unused)
    for item in kinds(left, "NetworkPolicy", "AdminNetworkPolicy", "BaselineAdminNetworkPolicy"):
        name = pod_name(item) if item["kind"] == "NetworkPolicy" else item["metadata"]["name"]
        for direction in ("ingress", "egress"):
            rules, text = item["spec"].get(direction, []), "%s %s %s[%%d]" % (item["kind"], name, direction)
            item["spec"][direction] = [rule for n, rule in enumerate(rules) if text % n not in gone]
    return left
