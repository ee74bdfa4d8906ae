"""The shapes of bench/slow.py whose pods, objects, labels, ports, addresses or Services are many, and two ordinary clusters."""
import cost
from cost import pod, policy
from shape import (admin_policy, baseline, block, but, ingress, labelled_pods, named_block, namespace, owned_pods, pods_with, pods_with_key,
                   replica_set, service, shape, to_all, two_pods)


@shape("cluster", (2000,), (20,), "an ordinary cluster: {0:,} workloads of two pods, with labels, Namespaces and policies of their own",
       target="team-000/svc-0000-0", workload="team-000/svc-0000[StatefulSet]",
       lines=lambda _: ["deny any address => any pod : All Connections", "deny any pod => any pod : SCTP 1-65535"])
def cluster(count):
    return cost.cluster(count)


@shape("uniform", (2000,), (6,), "{0:,} bare pods under one policy", target="default/p0")
def uniform(count):
    return cost.uniform(count)


@shape("sample", (1000,), (1,), "the sample of {0:,} pods, which `np` makes itself", commands=("sample",))
def sample(_count):
    return []


# Objects and their names.

@shape("cycle", (20000,), (6,), "{0:,} controllers, each owned by the next, and the last by one in the middle: `np` has to refuse it",
       commands=("list",), refused=True)
def cycle(count):
    return [replica_set("r%d" % i, "r%d" % (i + 1 if i < count - 1 else count // 2)) for i in range(count)]


@shape("chain", (20000,), (4,), "{0:,} objects: a pod, and controllers, each owned by the next", workload="default/top[ReplicaSet]")
def chain(count):
    names = ["r%d" % i for i in range(count - 2)] + ["top", None]
    return [pod("a", owner=("ReplicaSet", names[0]))] + [replica_set(a, b) for a, b in zip(names, names[1:])]


@shape("namespaces", (18000, 2000), (4, 3), "{0:,} Namespaces and {1:,} workloads, which nothing may pass between", target="n0/p")
def namespaces(count, pods):
    shut = baseline(ingress=[{"action": "Deny", "from": [{"namespaces": {}}]}])
    return [namespace("n%d" % i, {"x": "y%d" % i}) for i in range(count - 1)] + [pod("p", "n%d" % i) for i in range(pods)] + [shut]


@shape("longNames", (2000, 15000), (3, 10), "{0:,} pods with names of {1:,} letters", grows=(1,))
def long_names(count, letters):
    return [pod("a")] + [pod("%0*d" % (letters, i)) for i in range(1, count)]


@shape("ignored", (4000000,), (3,), "a pod with a member that is not read: a list of {0:,} objects of one member each", commands=("list",))
def ignored(count):
    return [{**pod("a"), "ignored": [{"a": 0}] * count}]


# Labels and selectors.

@shape("values", (500000,), (3,), "one selector with {0:,} values, over 500 pods", but("exposure"), target="default/p0")
def values(count):
    return cost.values(count)


@shape("exposureValues", (21800,), (3,), "the same with {0:,} values", ("exposure",), target="default/p0")
def exposure_values(count):
    return cost.values(count)


@shape("labels", (80000,), (3,), "a pod with {0:,} labels, and a selector with a requirement for each of them", but("exposure"))
def labels(count):
    many = {"k%05d" % i: "v" for i in range(count)}
    keys = {"podSelector": {"matchExpressions": [{"key": k, "operator": "Exists"} for k in many]}}
    return [pod("a", labels=many), pod("b"), policy("p", {**pods_with("k00000", "v"), "ingress": [{"from": [keys]}]}),
            policy("q", {"podSelector": {"matchLabels": many}})]


@shape("namespaceLabels", (80000, 10000), (3, 4), "a Namespace with {0:,} labels and {1:,} pods, of one owner for every 500",
       target="default/p0", workload="default/s0[StatefulSet]")
def namespace_labels(count, pods):
    peer = {"namespaceSelector": {"matchLabels": {"label-of-many-00000": "v"}}}
    return [namespace("default", {"label-of-many-%05d" % i: "v" for i in range(count)}), to_all({"from": [peer]}), *owned_pods(pods, {})]


@shape("selectorKeys", (50000, 10000), (3, 4), "a rule with {0:,} peers, each of another key, and {1:,} pods, of one owner for every 500",
       but("exposure"), target="default/p0", workload="default/s0[StatefulSet]")
def selector_keys(count, pods):
    return [*owned_pods(pods, {"app": "a", "k00001": "v"}), to_all({"from": [pods_with_key("k%05d" % i) for i in range(count)]})]


@shape("strangers", (2000, 90000), (3, 2), "{0:,} pods, and a rule with {1:,} peers that match none of them", but("exposure"),
       target="default/p0")
def strangers(count, peers):
    return [*labelled_pods(count), to_all({"from": [pods_with("app", "x%d" % i) for i in range(peers)]})]


@shape("exposureStrangers", (2000, 21800), (3, 2), "the same with {1:,} peers", ("exposure",), target="default/p0")
def exposure_strangers(count, peers):
    return strangers(count, peers)


# Ports and addresses.

@shape("ports", (65000,), (3,), "a pod with {0:,} named ports, and a rule with an entry for each name", but("flatten"))
def ports(count):
    return cost.ports(count)


@shape("namedPortRules", (32000,), (3,), "a pod with {0:,} container ports of one name and different numbers, and as many rules with that"
       " name", but("flatten"), source="default/b")
def named_port_rules(count):
    return [pod("a", ports=[("h", 2 * i + 1) for i in range(count)]), pod("b"), to_all(*[{"ports": [{"port": "h"}]} for _ in range(count)])]


@shape("podNetworks", (130000,), (3,), "a pod with {0:,} addresses, and a rule of an AdminNetworkPolicy with as many networks",
       but("flatten"), source="default/b")
def pod_networks(count):
    rule = {"action": "Deny", "to": [{"networks": [block(2 * i) for i in range(count)]}]}
    return [*cost.addresses(count), pod("b"), admin_policy("p", 1, egress=[rule])]


@shape("podBlocks", (83000,), (3,), "a pod with {0:,} addresses, and a rule of a NetworkPolicy with as many blocks")
def pod_blocks(count):
    return [*cost.addresses(count), pod("b"), to_all({"from": [named_block(2 * i) for i in range(count)]})]


@shape("mostNetworks", (600000,), (3,), "the pod and the rule of podNetworks, with {0:,} of each", but("flatten"), source="default/b")
def most_networks(count):
    return pod_networks(count)


@shape("mostBlocks", (500000,), (3,), "the pod and the rule of podBlocks, with {0:,} of each")
def most_blocks(count):
    return pod_blocks(count)


# Services and Ingresses.

@shape("servicePorts", (45000,), (3,), "a Service with {0:,} ports, and an Ingress with a backend for each")
def service_ports(count):
    entries = [{"name": "n%d" % i, "port": i + 1, "targetPort": i + 1} for i in range(count)]
    return [*two_pods(), service("s", entries, {"app": "a"}), ingress([("s", {"name": e["name"]}) for e in entries])]


@shape("backends", (80000,), (3,), "an Ingress with {0:,} backends of one Service")
def backends(count):
    return [*two_pods(), service("s", [{"port": 80}], {"app": "a"}), ingress([("s", {"number": 80})] * count)]


@shape("services", (9000, 10000), (4, 3), "{0:,} Services that select the same {1:,} pods, of one owner for every 500, and an Ingress with"
       " a backend for each", target="default/p0", workload="default/s0[StatefulSet]")
def services(count, pods):
    return [*owned_pods(pods, {"app": "a"}), ingress([("s%d" % i, {"number": 80}) for i in range(count)])] + [
        service("s%d" % i, [{"port": 80, "targetPort": i % 60000 + 1}], {"app": "a"}) for i in range(count)]


def routes(count, name, number):
    """As many container ports of a pod, ports of a Service that lead to them, and backends that name these, by their names and numbers."""
    entries = [{"name": "s" + name(i), "port": number(i), "targetPort": name(i)} for i in range(count)]
    pods = [pod("a", labels={"app": "a"}, ports=[(name(i), number(i)) for i in range(count)]), pod("b", labels={"app": "b"})]
    return pods + [service("s", entries, {"app": "a"}), ingress([("s", {"name": e["name"]}) for e in entries])]


@shape("equalRoutes", (38000,), (3,), "a pod with {0:,} container ports of one name and number, a Service with as many ports that lead to"
       " that name, and an Ingress with as many backends that name one of them")
def equal_routes(count):
    return routes(count, lambda i: "h", lambda i: 80)


@shape("namedRoutes", (33000,), (3,), "the same with {0:,} of each, whose names and numbers all differ")
def named_routes(count):
    return routes(count, lambda i: "h%d" % i, lambda i: i + 1)
