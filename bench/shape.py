"""What a shape of bench/slow.py is, and what shapes are made of. The shapes themselves are in shapes_pods.py, shapes_rules.py and
shapes_pairs.py.

A shape is a function of its sizes that makes the objects. With it go the sizes at which its input has 5 MB, or is at a limit of np before
that, tiny ones, at which it only shows that np takes it, a text that says what it is, and the commands that it is measured with.
"""
import collections

from cost import pod, policy

COMMANDS = ("list", "explain", "exposure", "evaluate", "unused", "check", "flatten")
LINES = ("allow any pod => any address : TCP 80", "deny any address => any pod : SCTP 9")

# `evaluate` asks from the pod or address `source` to the pod `target`, and `explain` from `source` to `workload`, which is that of the
# target; a source that is a pod is its own workload. `lines` makes the lines of the statement file. `refused`: np has to refuse it.
# `grows` has the places of the sizes that are halved where the growth is measured: all, but where the input is as their product, or where
# the cost of one is known to double with each step of it.
Shape = collections.namedtuple("Shape", "make full tiny says commands source target workload lines refused grows")
SHAPES = {}


def shape(name, full, tiny, says, commands=COMMANDS, source="10.0.0.1", target="default/a", workload=None, lines=None, refused=False,
          grows=None):
    def enter(make):
        SHAPES[name] = Shape(make, full, tiny, says.format(*full), commands, source, target, workload or target + "[Pod]",
                             lines or (lambda *_: LINES), refused, range(len(full)) if grows is None else grows)
        return make
    return enter


def divided(one, sizes, part):
    """The sizes of a shape at a half of these, a quarter, and so on."""
    return tuple(max(1, size // part) if place in one.grows else size for place, size in enumerate(sizes))


def but(*left_out):
    return tuple(c for c in COMMANDS if c not in left_out)


def replica_set(name, owner):
    metadata = {"name": name, "namespace": "default"}
    if owner:
        metadata["ownerReferences"] = [{"apiVersion": "apps/v1", "kind": "ReplicaSet", "name": owner, "controller": True}]
    return {"apiVersion": "apps/v1", "kind": "ReplicaSet", "metadata": metadata, "spec": {}}


def service(name, ports, selector):
    return {"apiVersion": "v1", "kind": "Service", "metadata": {"name": name, "namespace": "default"},
            "spec": {"selector": selector, "ports": ports}}


def ingress(backends):
    paths = [{"backend": {"service": {"name": name, "port": port}}} for name, port in backends]
    return {"apiVersion": "networking.k8s.io/v1", "kind": "Ingress", "metadata": {"name": "i", "namespace": "default"},
            "spec": {"rules": [{"http": {"paths": paths}}]}}


def namespace(name, labels):
    return {"apiVersion": "v1", "kind": "Namespace", "metadata": {"name": name, "labels": labels}}


def admin_policy(name, priority, **directions):
    return {"apiVersion": "policy.networking.k8s.io/v1alpha1", "kind": "AdminNetworkPolicy", "metadata": {"name": name},
            "spec": {"priority": priority, "subject": {"namespaces": {}}, **directions}}


def baseline(**directions):
    return {"apiVersion": "policy.networking.k8s.io/v1alpha1", "kind": "BaselineAdminNetworkPolicy", "metadata": {"name": "default"},
            "spec": {"subject": {"namespaces": {}}, **directions}}


def two_pods():
    return [pod("a", labels={"app": "a"}, ports=[("http", 80)]), pod("b", labels={"app": "b"})]


def labelled_pods(count):
    return [pod("p%d" % i, labels={"app": "a%d" % i}) for i in range(count)]


def owned_pods(count, labels):
    """Pods of one owner for every 500: the first is default/p0, of default/s0[StatefulSet]."""
    return [pod("p%d" % i, labels=labels, owner=("StatefulSet", "s%d" % (i // 500))) for i in range(count)]


def to_all(*rules):
    """A policy with these ingress rules for all pods of the namespace."""
    return policy("p", {"podSelector": {}, "ingress": list(rules)})


def one_rule(peers, ports):
    return {"from": list(peers), "ports": [{"port": p} for p in ports]}


def pods_with(key, value):
    return {"podSelector": {"matchLabels": {key: value}}}


def pods_with_key(key):
    return {"podSelector": {"matchExpressions": [{"key": key, "operator": "Exists"}]}}


def block(i, length=32):
    return "10.%d.%d.%d/%d" % (i >> 16 & 255, i >> 8 & 255, i & 255, length)


def named_block(i, length=32):
    return {"ipBlock": {"cidr": block(i, length)}}


def port_number(number):
    """A port entry of an AdminNetworkPolicy."""
    return {"portNumber": {"protocol": "TCP", "port": number}}


def port_rule(action, number):
    """A rule of an AdminNetworkPolicy for one port of all pods."""
    return {"action": action, "from": [{"namespaces": {}}], "ports": [port_number(number)]}


def own_policies(count):
    """Pods with a policy each, which lets in one other."""
    return labelled_pods(count) + [policy("p%d" % i, {**pods_with("app", "a%d" % i), "ingress": [
        {"from": [pods_with("app", "a%d" % (i * 7 % count))], "ports": [{"protocol": "TCP", "port": 80}]}]}) for i in range(count)]
