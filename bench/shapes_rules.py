"""The shapes of bench/slow.py whose policies, rules, peers or statements are many."""
import itertools

from cost import NAME_KEY, policy
from shape import (admin_policy, but, labelled_pods, named_block, one_rule, own_policies, pods_with, pods_with_key, port_rule, shape,
                   to_all, two_pods)


# Policies and rules.

@shape("policies", (19998,), (3,), "{0:,} NetworkPolicies of one namespace that select both of its pods")
def policies(count):
    b = pods_with("app", "b")
    return two_pods() + [policy("p%d" % i, {"podSelector": {}, "ingress": [one_rule([b], [i + 1])]}) for i in range(count)]


@shape("onePolicyNamespace", (18000, 2000), (4, 3), "{0:,} NetworkPolicies of one namespace, each of which selects one of its {1:,} pods",
       target="default/p0")
def one_policy_namespace(count, pods):
    return labelled_pods(pods) + [policy("p%d" % i, {**pods_with("app", "a%d" % (i % pods)), "ingress": [
        one_rule([pods_with("app", "a%d" % (i * 7 % pods))], [i + 1])]}) for i in range(count)]


@shape("peers", (100000,), (3,), "a rule with {0:,} peers, each of one value of a label", but("exposure"))
def peers(count):
    return [*two_pods(), to_all({"from": [pods_with("app", "x%d" % i) for i in range(count)]})]


@shape("rules", (65000,), (3,), "{0:,} rules of one block and one port each, for two pods")
def rules(count):
    return [*two_pods(), to_all(*[one_rule([named_block(i << 8, 24)], [i + 1]) for i in range(count)])]


@shape("strangerRules", (2000, 54000), (3, 2), "{0:,} pods, and {1:,} rules of one port each, whose peers match none of them",
       but("exposure"), target="default/p0", source="default/p1")
def stranger_rules(count, many):
    return [*labelled_pods(count), to_all(*[one_rule([pods_with("app", "x%d" % i)], [i + 1]) for i in range(many)])]


@shape("nested", (65000,), (3,), "{0:,} rules of one block each, within the one before as far as there is room, with a port of its own")
def nested(count):
    return [*two_pods(), to_all(*[one_rule([{"ipBlock": {"cidr": "%d.0.0.0/%d" % (i // 24 % 128 * 2, 8 + i % 24)}}], [i + 1])
                                  for i in range(count)])]


@shape("blocksAndPorts", (110000, 32000), (4, 3), "a rule with {0:,} blocks and {1:,} ports, no two of them neighbours")
def blocks_and_ports(blocks, ports):
    return [*two_pods(), to_all(one_rule([named_block(2 * i) for i in range(blocks)], [2 * i + 1 for i in range(ports)]))]


@shape("ownBlocks", (2000,), (2,), "{0:,} pods, each with a policy that lets in one address", target="default/p0")
def own_blocks(count):
    return labelled_pods(count) + [policy("p%d" % i, {**pods_with("app", "a%d" % i), "ingress": [{"from": [named_block(2 * i)]}]})
                                   for i in range(count)]


@shape("admin", (1001, 60), (3, 3), "{0:,} AdminNetworkPolicies with {1:,} rules each, of which all but the last speak of other namespaces",
       grows=(1,))
def admin(count, each):
    far = [{"action": "Pass", "from": [{"namespaces": {"matchLabels": {NAME_KEY: "far-%d" % j}}}]} for j in range(each - 1)]
    return two_pods() + [admin_policy("p%d" % i, i, ingress=[*far, port_rule("Pass", i + 1)]) for i in range(count)]


def passing(passes, count, letters):
    """Rules of an AdminNetworkPolicy that pass on a port each, and NetworkPolicies with names of so many letters that isolate two pods."""
    return two_pods() + [policy("%0*d" % (letters, i), {"podSelector": {}}) for i in range(count)] + [
        admin_policy("p", 1, ingress=[port_rule("Pass", 2 * i + 1) for i in range(passes)])]


@shape("explainPasses", (19000,), (3,), "{0:,} rules of an AdminNetworkPolicy that pass on a port each, and as many NetworkPolicies that"
       " isolate two pods", source="default/b")
def explain_passes(count):
    return passing(count, count, 5)


@shape("explainNames", (17000, 8500, 250), (3, 2, 9), "the same with {0:,} rules, and {1:,} NetworkPolicies with names of {2} letters",
       source="default/b", grows=(0, 1))
def explain_names(passes, count, letters):
    return passing(passes, count, letters)


# Rules that are hard for `exposure`.

@shape("exposureNamespaces", (44000,), (3,), "{0:,} rules of one port each, and each of one namespace by its name")
def exposure_namespaces(count):
    space = lambda i: {"namespaceSelector": {"matchLabels": {NAME_KEY: "n%d" % i}}}
    return [*two_pods(), to_all(*[one_rule([space(i)], [i + 1]) for i in range(count)])]


@shape("exposureKeys", (47000, 14), (3, 2), "{0:,} rules, each of one of {1} keys that may be there or not", grows=(0,))
def exposure_keys(count, keys):
    return [*two_pods(), to_all(*[one_rule([pods_with_key("k%d" % (i % keys))], [i % keys + 1]) for i in range(count)])]


@shape("exposureKeyPorts", (45000, 14), (3, 2), "the same with {0:,} rules, each of a port of its own", grows=(0,))
def exposure_key_ports(count, keys):
    return [*two_pods(), to_all(*[one_rule([pods_with_key("k%d" % (i % keys))], [i + 1]) for i in range(count)])]


@shape("exposureMixes", (20000, 14), (3, 2), "{0:,} rules, each of a mix of its own of {1} keys that are asked to be there or not to be",
       grows=(0,))
def exposure_mixes(count, keys):
    def mix(number):
        asked = [(j, number // 3 ** j % 3) for j in range(keys)]
        return {"podSelector": {"matchExpressions": [{"key": "k%d" % j, "operator": ("Exists", "DoesNotExist")[how - 1]}
                                                     for j, how in asked if how]}}
    return [*two_pods(), to_all(*[one_rule([mix((7 * i + 1) * 1009 % 3 ** keys)], [i % 60000 + 1]) for i in range(count)])]


@shape("exposurePeers", (21800,), (3,), "the rule of peers with {0:,} of them", ("exposure",))
def exposure_peers(count):
    return peers(count)


# Statements.

def as_many(size, lines):
    """The lines, over and over, as long as there is room for them."""
    for line in itertools.cycle(lines):
        size -= len(line) + 1
        if size < 0:
            return
        yield line


@shape("statements", (200000,), (4,), "two pods, and {0:,} statements", ("check",),
       lines=lambda count: ["allow any pod => any address : TCP %d-%d" % (i % 60000 + 1, i % 60000 + 5) for i in range(count)])
def statements(_count):
    return two_pods()


@shape("manyAsked", (2000, 100000), (3, 2), "{0:,} pods with a policy each, and {1:,} statements of all pods and of a namespace that no pod"
       " has", ("check",),
       lines=lambda _, many: ["deny namespace nobody => any pod : UDP 9", "allow any pod => any address : TCP 9"] * (many // 2))
def many_asked(count, _lines):
    return own_policies(count)


@shape("manyLines", (2000, 110000), (3, 4), "{0:,} pods with a policy each, and {1:,} statements of all pods, each of a port",
       ("check",), lines=lambda _, count: ["deny any pod => any pod : UDP %d" % (i % 60000 + 1) for i in range(count)])
def many_lines(count, _lines):
    return own_policies(count)


@shape("statementsOfAllPods", (2000, 33000000), (3, 200), "{0:,} pods under one policy, and {1:,} bytes of statements of all pods",
       ("check",), lines=lambda _, size: as_many(size, [line % (i + 1) for i in range(60000) for line in (
           "allow any pod => any pod : TCP %d", "deny any pod => any pod : UDP %d")]))
def statements_of_all_pods(count, _size):
    return labelled_pods(count) + [to_all({"ports": [{"protocol": "TCP"}]})]


@shape("lineFeeds", (31457280,), (5,), "two pods, and a statement file of {0:,} line feeds", ("check",), lines=lambda count: [""] * count)
def line_feeds(_count):
    return two_pods()


@shape("statementsOfOne", (2000, 80000), (3, 4), "{0:,} pods with a policy each, and {1:,} statements of a workload and all pods",
       ("check",),
       lines=lambda pods, many: ["deny workload default/p%d[Pod] => any pod : UDP %d" % (i % pods, i % 60000 + 1) for i in range(many)])
def statements_of_one(count, _lines):
    return own_policies(count)
