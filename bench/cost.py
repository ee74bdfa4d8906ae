#!/usr/bin/env python3
"""How the time of `np list` grows with its input: bench/cost.py [--program dist/np] [--quick] [--commands | NAME..]

Makes inputs of several shapes, each in two or more sizes, and prints for each the seconds (the best of three runs, of one where
it takes long), the greatest memory, and how many times the seconds of the size before. A shape that grows as its answer does
doubles where its input doubles (pairs of workloads grow fourfold).

cluster    workloads with labels and policies of their own: the pairs grow fourfold
uniform    bare pods under one policy: the rows grow fourfold
rules      rules of one block and one port each, on one pod
policies   policies of one namespace, each of which selects one of its pods
excepts    one block with many excepts
addresses  one pod with many addresses
ports      one pod with many named ports, and a rule with an entry for each name
values     one selector with many values, over many pods
ingress    one Ingress with a backend for each Service of one workload, and as many workloads again: no pairs, one row for each Service
formats    the rows of many pods as text, as CSV and as JSON, beside each other
writes     how many calls of `write` the system sees for so many bytes of rows (needs strace)

--commands prints what each command costs on the shape `cluster`, of 1,000 and of 2,000 workloads, with its admin policy and without: the
           seconds of processor time, how many more these are than those of `evaluate`, which hardly does more than read, and the
           greatest memory, which is at least that of this script

No time is promised to users: the numbers tell how the cost grows, on one machine, in one run.
"""
import argparse
import json
import multiprocessing
import os
import shutil
import subprocess
import sys
import tempfile
import time

NAME_KEY = "kubernetes.io/metadata.name"


def listing(items):
    return {"apiVersion": "v1", "kind": "List", "items": items}


def pod(name, namespace="default", labels=None, ports=(), status=None, owner=None):
    metadata = {"name": name, "namespace": namespace, "labels": labels or {}}
    if owner:
        metadata["ownerReferences"] = [{"apiVersion": "apps/v1", "kind": owner[0], "name": owner[1], "controller": True}]
    return {"apiVersion": "v1", "kind": "Pod", "metadata": metadata, "status": status or {},
            "spec": {"containers": [{"ports": [{"name": n, "containerPort": p} for n, p in ports]}]}}


def policy(name, spec, namespace="default"):
    return {"apiVersion": "networking.k8s.io/v1", "kind": "NetworkPolicy",
            "metadata": {"name": name, "namespace": namespace}, "spec": spec}


def cluster(workloads):
    """Twenty workloads a namespace, two pods each; each workload has a policy of its own, each namespace two for all its pods."""
    where = lambda i: "team-%03d" % (i % workloads // 20)
    peer = lambda i: {"namespaceSelector": {"matchLabels": {NAME_KEY: where(i)}},
                      "podSelector": {"matchLabels": {"app": "svc-%04d" % (i % workloads)}}}
    items = []
    for n in range((workloads + 19) // 20):
        space = "team-%03d" % n
        items.append({"apiVersion": "v1", "kind": "Namespace", "metadata": {"name": space, "labels": {"env": "prod" if n % 2 else "dev"}}})
        items.append(policy("default-deny", {"podSelector": {}, "policyTypes": ["Ingress", "Egress"]}, space))
        items.append(policy("dns", {"podSelector": {}, "policyTypes": ["Egress"], "egress": [
            {"ports": [{"protocol": "UDP", "port": 53}, {"protocol": "TCP", "port": 53}]}]}, space))
    for i in range(workloads):
        name, space = "svc-%04d" % i, where(i)
        for replica in range(2):
            items.append(pod("%s-%d" % (name, replica), space, {"app": name, "tier": "web"}, [("http", 8000 + i % 7)],
                             {"podIP": "10.%d.%d.%d" % (i // 250, i % 250, replica + 1)}, ("StatefulSet", name)))
        items.append(policy(name, {"podSelector": {"matchLabels": {"app": name}}, "policyTypes": ["Ingress", "Egress"],
                                   "ingress": [{"from": [peer(i + 1), peer(i + 7)], "ports": [{"port": "http"}]}],
                                   "egress": [{"to": [peer(i - 1), peer(i - 7)], "ports": [{"port": "http"}]},
                                              {"to": [{"ipBlock": {"cidr": "172.%d.0.0/16" % (16 + i % 16)}}], "ports": [{"port": 443}]}]},
                            space))
    items.append({"apiVersion": "policy.networking.k8s.io/v1alpha1", "kind": "AdminNetworkPolicy", "metadata": {"name": "no-dev-to-prod"},
                  "spec": {"priority": 10, "subject": {"namespaces": {"matchLabels": {"env": "prod"}}},
                           "ingress": [{"action": "Deny", "from": [{"namespaces": {"matchLabels": {"env": "dev"}}}]}]}})
    return items


def uniform(pods):
    return [pod("p%d" % i, labels={"app": "a%d" % (i % 5)}) for i in range(pods)] + [policy("p", {
        "podSelector": {"matchLabels": {"app": "a1"}},
        "ingress": [{"from": [{"podSelector": {"matchLabels": {"app": "a2"}}}], "ports": [{"port": 80}]}]})]


def rules(count):
    return [pod("a"), policy("many", {"podSelector": {}, "ingress": [
        {"from": [{"ipBlock": {"cidr": "10.%d.%d.0/24" % divmod(i, 256)}}], "ports": [{"port": i + 1}]} for i in range(count)]})]


def policies(count):
    pods = 900
    return [pod("p%d" % i, labels={"app": "a%d" % i}) for i in range(pods)] + [policy("p%d" % i, {
        "podSelector": {"matchLabels": {"app": "a%d" % (i % pods)}},
        "ingress": [{"from": [{"podSelector": {"matchLabels": {"app": "a%d" % (i * 7 % pods)}}}]}]}) for i in range(count)]


def excepts(count):
    return [pod("a"), policy("p", {"podSelector": {}, "ingress": [{"from": [{"ipBlock": {"cidr": "10.0.0.0/8", "except": [
        "10.%d.%d.%d/32" % (i // 32768, i // 128 % 256, i % 128 * 2) for i in range(count)]}}]}]})]


def addresses(count):
    texts = ["10.%d.%d.%d" % (i // 65536, i // 256 % 256, i % 256) for i in range(count)]
    return [pod("a", status={"podIP": texts[0], "podIPs": [{"ip": t} for t in texts]})]


def ports(count):
    return [pod("a", ports=[("n%d" % i, i + 1) for i in range(count)]), pod("b"),
            policy("p", {"podSelector": {}, "ingress": [{"ports": [{"port": "n%d" % i} for i in range(count)]}]})]


def values(count):
    return [pod("p%d" % i, labels={"app": "v%05d" % i}) for i in range(500)] + [policy("p", {
        "podSelector": {}, "ingress": [{"from": [{"podSelector": {"matchExpressions": [
            {"key": "app", "operator": "In", "values": ["v%05d" % i for i in range(count)]}]}}]}]})]


def ingress(services):
    """Pods that reach no other, so that the time is that of the routes."""
    items = [pod("p%d" % i, labels={"app": "a%d" % i}, ports=[("http", 8080)]) for i in range(2 * services)]
    for i in range(services):
        items.append({"apiVersion": "v1", "kind": "Service", "metadata": {"name": "s%d" % i}, "spec": {
            "selector": {"app": "a%d" % i}, "ports": [{"name": "web", "port": 80, "targetPort": "http"}]}})
    paths = [{"backend": {"service": {"name": "s%d" % i, "port": {"name": "web"}}}} for i in range(services)]
    items.append({"apiVersion": "networking.k8s.io/v1", "kind": "Ingress", "metadata": {"name": "i"},
                  "spec": {"rules": [{"http": {"paths": paths}}]}})
    items.append({"apiVersion": "policy.networking.k8s.io/v1alpha1", "kind": "AdminNetworkPolicy", "metadata": {"name": "apart"}, "spec": {
        "priority": 1, "subject": {"namespaces": {}}, "ingress": [{"action": "Deny", "from": [{"namespaces": {"matchExpressions": [
            {"key": NAME_KEY, "operator": "NotIn", "values": [""]}]}}]}]}})
    return items


def without_admin_policies(workloads):
    return [item for item in cluster(workloads) if item["kind"] != "AdminNetworkPolicy"]


SHAPES = {
    "cluster": (cluster, (250, 500, 1000, 2000)),
    "uniform": (uniform, (500, 1000, 2000)),
    "rules": (rules, (2500, 5000, 10000)),
    "policies": (policies, (4750, 9500, 19000)),
    "excepts": (excepts, (10000, 20000, 40000)),
    "addresses": (addresses, (10000, 20000, 40000)),
    "ports": (ports, (2500, 5000, 10000)),
    "values": (values, (2500, 5000, 10000)),
    "ingress": (ingress, (250, 500, 1000)),
}


def best_of_three(words, processor=False):
    """The least seconds, those of the clock or of the processor, and the greatest memory; of one run where it takes long."""
    best, peak = None, 0
    for _ in range(3):
        start = time.time()
        process = subprocess.Popen(words, stdout=subprocess.DEVNULL, stderr=subprocess.PIPE)
        said = process.stderr.read()
        _, status, used = os.wait4(process.pid, 0)
        took = used.ru_utime + used.ru_stime if processor else time.time() - start
        if os.waitstatus_to_exitcode(status):
            sys.exit("%s failed: %s" % (" ".join(words), said.decode()[:300]))
        best, peak = took if best is None else min(best, took), max(peak, used.ru_maxrss // 1024)
        if took > (5 if processor else 10):
            break
    return best, peak


def write(path, make, size):
    """Makes an input, in a process of its own: what is measured begins as a copy of this one, whose memory would count as its own."""
    def dump():
        with open(path, "w") as f:
            json.dump(listing(make(size)), f)
    maker = multiprocessing.get_context("fork").Process(target=dump)
    maker.start()
    maker.join()
    if maker.exitcode:
        sys.exit("%s could not be made" % path)


def measure(program, folder, name, quick):
    make, sizes = SHAPES[name]
    before = None
    for size in sizes[:-1] if quick else sizes:
        path = os.path.join(folder, "%s-%d.json" % (name, size))
        write(path, make, size)
        seconds, megabytes = best_of_three([program, "list", path])
        growth = "" if before is None else "   x%.2f" % (seconds / before)
        read = os.path.getsize(path) / 1e6
        print("%-10s %6d  %6.1f MB read %8.2f s %6d MB%s" % (name, size, read, seconds, megabytes, growth), flush=True)
        os.remove(path)
        before = seconds


def compare_formats(program, folder):
    path = os.path.join(folder, "formats.json")
    with open(path, "w") as f:
        json.dump(listing(uniform(1000)), f)
    text = None
    for name in ("text", "csv", "json"):
        seconds, _ = best_of_three([program, "list", "--format", name, path])
        text = text or seconds
        print("%-22s %8.2f s   x%.2f of text" % ("formats " + name, seconds, seconds / text))


def count_writes(program, folder):
    if not shutil.which("strace"):
        print("writes: strace is not here")
        return
    path = os.path.join(folder, "writes.json")
    with open(path, "w") as f:
        json.dump(listing(uniform(500)), f)
    words = ["strace", "-f", "-c", "-e", "trace=write", program, "list", path]
    traced = subprocess.run(words, stdout=subprocess.PIPE, stderr=subprocess.PIPE, text=True)
    calls = sum(int(line.split()[3]) for line in traced.stderr.splitlines() if line.split()[-1:] == ["write"])
    print("writes: %d bytes in %d rows by %d calls of write" % (len(traced.stdout), traced.stdout.count("\n"), calls))


def commands_of(program, statements):
    """The rows of the table, each with the words that an input comes after. The others are compared with the first."""
    pods, workloads = (["team-000/svc-%04d%s" % (i, end) for i in range(2)] for end in ("-0", "[StatefulSet]"))
    words = {"evaluate": ["--from", pods[1], "--to", pods[0], "--protocol", "TCP", "--port", "8000"],
             "list": [],
             "list --focus": [workloads[0]],
             "check": ["--statement", statements],
             "unused": [],
             "flatten": [],
             "explain": ["--from", workloads[1], "--to", workloads[0]],
             "exposure": ["--workload", workloads[0]]}
    return {**{name: [program, *name.split(), *rest] for name, rest in words.items()}, "jq length": ["jq", "length"]}


def compare_commands(program, folder, sizes):
    statements = os.path.join(folder, "statements")
    with open(statements, "w") as f:
        f.writelines("deny any pod => any pod : TCP %d\n" % (i + 1) for i in range(10))
    inputs = {"%d%s" % (size, told): (make, size) for size in sizes
              for told, make in ((" workloads", cluster), (", no admin policy", without_admin_policies))}
    paths = [os.path.join(folder, "%d.json" % i) for i in range(len(inputs))]
    for path, (make, size) in zip(paths, inputs.values()):
        write(path, make, size)
    print(" " * 12 + "".join("%26s" % title for title in inputs))
    print(" " * 12 + "%10s %8s %6s" % ("seconds", "above", "MB") * len(inputs))
    base = None
    for name, words in commands_of(program, statements).items():
        if words[0] == "jq" and not shutil.which("jq"):
            print("%-12s" % name + "%10s %8s %6s" % ("-", "-", "-") * len(inputs))
            continue
        runs = [best_of_three([*words, path], processor=True) for path in paths]
        base = base or runs
        cells = ["%10.2f %+8.2f %6d" % (seconds, seconds - least, peak) for (seconds, peak), (least, _) in zip(runs, base)]
        print("%-12s" % name + "".join(cells), flush=True)


def main():
    words = argparse.ArgumentParser(description=__doc__, formatter_class=argparse.RawDescriptionHelpFormatter)
    words.add_argument("--program", default=os.path.join(os.path.dirname(os.path.abspath(__file__)), "..", "dist", "np"))
    words.add_argument("--quick", action="store_true", help="without the greatest size of each shape; 100 and 200 workloads for --commands")
    words.add_argument("--commands", action="store_true", help="a table of the commands, and no shapes")
    words.add_argument("names", nargs="*", metavar="NAME")
    given = words.parse_args()
    unknown = [n for n in given.names if n not in SHAPES and n not in ("formats", "writes")]
    if unknown:
        words.error("no shape is named %s" % unknown[0])
    if given.commands and given.names:
        words.error("the commands have an input of their own")
    with tempfile.TemporaryDirectory() as folder:
        if given.commands:
            return compare_commands(given.program, folder, (100, 200) if given.quick else (1000, 2000))
        for name in given.names or [*SHAPES, "formats", "writes"]:
            if name == "formats":
                compare_formats(given.program, folder)
            elif name == "writes":
                count_writes(given.program, folder)
            else:
                measure(given.program, folder, name, given.quick)


if __name__ == "__main__":
    main()
