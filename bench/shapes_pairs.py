"""The shapes of bench/slow.py in which many rules, ports, keys or statements meet many pods, so that their products count."""
import cost
from shape import admin_policy, block, but, labelled_pods, one_rule, own_policies, pods_with, pods_with_key, port_number, shape, to_all


# Where nothing is forbidden, and where policies let in TCP alone, pods alone, or nothing: statements that hold, of every two pods.
ALL_ALLOWED = ("allow any pod => any pod : All Connections", "allow any address => any pod : TCP 80")
TCP_ALONE = ("deny any pod => any pod : UDP 1-65535", "allow any pod => any pod : TCP 1")
PODS_SHUT = ("deny any pod => any pod : All Connections", "deny any address => any pod : All Connections")
PODS_ALONE = ("allow any pod => any pod : All Connections", "deny any address => any pod : TCP 80")


# Rules of one tier and many pods.

@shape("blockRules", (2000, 63000), (3, 4), "{0:,} pods, and a policy of all of them with {1:,} rules of one block and one port each",
       target="default/p0")
def block_rules(count, many):
    return labelled_pods(count) + cost.rules(many)[1:]


@shape("podRules", (2000, 78000), (3, 4), "{0:,} pods, and a policy of all of them with {1:,} rules of a pod each", target="default/p0",
       source="default/p1", lines=lambda *_: PODS_ALONE)
def pod_rules(count, many):
    return labelled_pods(count) + [to_all(*[{"from": [pods_with("app", "a%d" % (i % count))]} for i in range(many)])]


def admin_rule(number, count, **more):
    """A rule of an AdminNetworkPolicy that allows what one of the pods sends."""
    peer = {"namespaceSelector": {}, "podSelector": {"matchLabels": {"app": "a%d" % (number % count)}}}
    return {"action": "Allow", "from": [{"pods": peer}], **more}


@shape("adminRules", (2000, 42000), (3, 4), "{0:,} pods, and an AdminNetworkPolicy with {1:,} rules of a pod each", target="default/p0",
       source="default/p1", lines=lambda *_: ALL_ALLOWED)
def admin_rules(count, many):
    return labelled_pods(count) + [admin_policy("p", 1, ingress=[admin_rule(i, count) for i in range(many)])]


@shape("adminPortRules", (2000, 28000), (3, 4), "the same with {1:,} rules, each of a pod and a port", target="default/p0",
       source="default/p1", lines=lambda *_: ALL_ALLOWED)
def admin_port_rules(count, many):
    rules = [admin_rule(i, count, ports=[port_number(i + 1)]) for i in range(many)]
    return labelled_pods(count) + [admin_policy("p", 1, ingress=rules)]


# Ports and many pods.

@shape("samePorts", (2000, 32000), (3, 4), "{0:,} pods, and a rule for all of them with {1:,} ports, no two of them neighbours",
       target="default/p0")
def same_ports(count, entries):
    return labelled_pods(count) + [to_all({"ports": [{"port": 2 * i + 1} for i in range(entries)]})]


@shape("pairPorts", (2000, 32000), (3, 4), "the same, where the rule asks for a label, so that it tells all pods apart",
       target="default/p0", source="default/p1", lines=lambda *_: TCP_ALONE)
def pair_ports(count, entries):
    return labelled_pods(count) + [to_all(one_rule([pods_with_key("app")], [2 * i + 1 for i in range(entries)]))]


@shape("portNames", (2000, 250000), (3, 4), "{0:,} pods that a label tells apart, and a rule for all of them with {1:,} names of ports, of"
       " which no pod has one", target="default/p0", source="default/p1", lines=lambda *_: PODS_SHUT)
def port_names(count, names):
    return labelled_pods(count) + [to_all(one_rule([pods_with_key("app")], ["n%d" % i for i in range(names)]))]


# Keys and many pods.

@shape("groupKeys", (2000, 60000), (3, 4), "{0:,} workloads that a label tells apart, and a rule with {1:,} peers, each of another key",
       but("exposure"), target="default/p0")
def group_keys(count, keys):
    return [*labelled_pods(count), to_all({"from": [pods_with_key("k%05d" % i) for i in range(keys)] + [pods_with_key("app")]})]


@shape("exposurePods", (2000, 14), (3, 2), "{0:,} pods, and a policy of all of them with {1} rules, each of another key",
       target="default/p0", grows=(0,))
def exposure_pods(count, keys):
    return labelled_pods(count) + [to_all(*[{"from": [pods_with_key("k%d" % i)]} for i in range(keys)])]


@shape("exposurePodPorts", (2000, 14), (3, 2), "the same with a port of its own in each rule", target="default/p0", grows=(0,))
def exposure_pod_ports(count, keys):
    return labelled_pods(count) + [to_all(*[one_rule([pods_with_key("k%d" % i)], [i + 1]) for i in range(keys)])]


# Statements and many pods.

@shape("blockStatements", (2000, 90000), (3, 4), "{0:,} pods with a policy each, and {1:,} statements of a block and all pods", ("check",),
       lines=lambda _, many: ["deny %s => any pod : UDP %d" % (block(i << 8, 24), i % 60000 + 1) for i in range(many)])
def block_statements(count, _lines):
    return own_policies(count)
