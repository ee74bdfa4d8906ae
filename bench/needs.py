#!/usr/bin/env python3
"""What `np` needs of stack and of memory: bench/needs.py [--program dist/np] [stack] [memory]

stack    the least stack, in kB, at which it does what it does with an ordinary one, for each command, for JSON that is nested as deep as
         can be, and where a word of the command line has 100 kB; the environment has 4 kB, as a shell's
memory   the greatest memory of each command on ordinary clusters, and how many times the bytes of the input that is: those of
         bench/cost.py, and one whose pods also have what a cluster writes into them and `np` does not read; the JSON is written once
         without spaces, and once with indents, as kubectl prints it

The numbers are those of one machine. What inputs at the limits need is measured by bench/slow.py.
"""
import argparse
import json
import os
import resource
import subprocess
import sys
import tempfile

TOP = os.path.join(os.path.dirname(os.path.abspath(__file__)), "..")
sys.path.insert(0, os.path.join(TOP, "bench"))
from cost import cluster, listing, uniform  # noqa: E402

EXAMPLE = os.path.join(TOP, "examples", "first.json")
LARGEST = 33554432
PAGE = 4
TRIES = 20

# A process begins as a copy of the one that starts it, whose memory then counts as its own. So a small one starts `np`, and tells what it
# took.
STARTER = """
import os, sys
started = os.fork()
if not started:
    os.execv(sys.argv[1], sys.argv[1:])
_, status, used = os.wait4(started, 0)
os.write(2, b"\\n%d %d" % (os.waitstatus_to_exitcode(status), used.ru_maxrss))
"""

STATEMENTS = (("deny", "No Connections"), ("allow", "No Connections"), ("deny", "SCTP 1-65535"))


def filled(items):
    """The items, whose pods also have members that `np` does not read, in number and size as those that a cluster writes."""
    now = "2026-11-29T03:00:00Z"
    for i, item in enumerate(items):
        if item["kind"] != "Pod":
            continue
        name = item["metadata"]["name"]
        item["metadata"].update(
            uid="0e4f5d5c-5f3f-4d5b-9c0e-%012d" % i, resourceVersion=str(100000 + i), creationTimestamp=now,
            annotations={"prometheus.io/scrape": "true", "prometheus.io/port": "8080", "checksum/config": "%064d" % i})
        item["spec"].update(
            nodeName="node-%d" % (i % 50), serviceAccountName="default", restartPolicy="Always", dnsPolicy="ClusterFirst", priority=0,
            securityContext={"runAsNonRoot": True, "fsGroup": 1000}, schedulerName="default-scheduler", terminationGracePeriodSeconds=30,
            tolerations=[{"effect": "NoExecute", "key": "node.kubernetes.io/%s" % k, "operator": "Exists", "tolerationSeconds": 300}
                         for k in ("not-ready", "unreachable")],
            volumes=[{"name": "config", "configMap": {"name": name, "defaultMode": 420}},
                     {"name": "kube-api-access", "projected": {"defaultMode": 420, "sources": [
                         {"serviceAccountToken": {"expirationSeconds": 3607, "path": "token"}},
                         {"configMap": {"name": "kube-root-ca.crt", "items": [{"key": "ca.crt", "path": "ca.crt"}]}}]}}])
        item["spec"]["containers"][0].update(
            name="main", image="registry.example/team/%s:1.2.3" % name, imagePullPolicy="IfNotPresent",
            env=[{"name": "SETTING_%d" % k, "value": "value-%d" % k} for k in range(8)],
            resources={"limits": {"cpu": "1", "memory": "512Mi"}, "requests": {"cpu": "100m", "memory": "128Mi"}},
            livenessProbe={"httpGet": {"path": "/healthz", "port": "http", "scheme": "HTTP"}, "periodSeconds": 10, "timeoutSeconds": 1},
            volumeMounts=[{"mountPath": "/etc/config", "name": "config"},
                          {"mountPath": "/var/run/secrets/kubernetes.io/serviceaccount", "name": "kube-api-access", "readOnly": True}])
        item["status"].update(
            phase="Running", hostIP="192.0.2.%d" % (i % 50), qosClass="Burstable", startTime=now,
            conditions=[{"lastProbeTime": None, "lastTransitionTime": now, "status": "True", "type": k}
                        for k in ("Initialized", "Ready", "ContainersReady", "PodScheduled")],
            containerStatuses=[{"containerID": "containerd://%064d" % i, "image": "registry.example/team/%s:1.2.3" % name, "lastState": {},
                                "imageID": "registry.example/team@sha256:%064d" % i, "name": "main", "ready": True, "restartCount": 0,
                                "started": True, "state": {"running": {"startedAt": now}}}])
    return items


CLUSTERS = (("cluster 1000", lambda: cluster(1000)), ("cluster 2000", lambda: cluster(2000)), ("uniform 2000", lambda: uniform(2000)),
            ("filled 1000", lambda: filled(cluster(1000))), ("filled 2000", lambda: filled(cluster(2000))))


def answer(words, stack):
    bounded = lambda: resource.setrlimit(resource.RLIMIT_STACK, (stack * 1024, stack * 1024))
    try:
        ran = subprocess.run(words, stdin=subprocess.DEVNULL, capture_output=True, env={"E": "e" * 4000}, preexec_fn=bounded)
    except (OSError, subprocess.SubprocessError):
        return None
    return ran.returncode, ran.stdout, ran.stderr


def least_stack(words):
    """The least stack at which the answer is that of 8 MB, found by halving. The system begins a stack at a place of its choice, so each
    is tried several times."""
    wanted, enough, little = answer(words, 8192), 8192, 0
    while enough - little > PAGE:
        middle = (enough + little) // 2 // PAGE * PAGE
        if all(answer(words, middle) == wanted for _ in range(TRIES)):
            enough = middle
        else:
            little = middle
    return wanted[0], enough


def tell_stack(program):
    with tempfile.TemporaryDirectory() as folder:
        deep, statements = os.path.join(folder, "deep.json"), os.path.join(folder, "statements")
        with open(deep, "w") as f:
            f.write('{"apiVersion":"v1","kind":"List","items":[],"deep":%s%s}' % ("[" * 126, "]" * 126))
        with open(statements, "w") as f:
            f.write("allow any pod => any address : TCP 80\n")
        examples = [("%s of an example" % words[0], [*words, EXAMPLE]) for words in commands("default/a", "default/a[Pod]", statements)]
        for told, words in (*examples, ("sample 10", ["sample", "10"]), ("list of deep JSON", ["list", deep]),
                            ("a word of 100 kB", ["list", "--focus", "a" * 99998 + "/b", EXAMPLE])):
            status, enough = least_stack([program, *words])
            print("stack   %-22s %4d kB   (status %d)" % (told, enough, status), flush=True)


def memory(words):
    """The greatest memory, in bytes."""
    started = [sys.executable, "-I", "-S", "-c", STARTER, *words]
    said = subprocess.run(started, stdin=subprocess.DEVNULL, stdout=subprocess.DEVNULL, stderr=subprocess.PIPE, check=True).stderr
    status, most = said.rsplit(b"\n", 1)[1].split()
    if int(status) not in (0, 5):
        sys.exit("%s: status %d: %s" % (" ".join(words), int(status), said[:300].decode(errors="replace")))
    return int(most) * 1024


def first_pod(items):
    """The names of the first pod, and of its workload."""
    first = next(i["metadata"] for i in items if i["kind"] == "Pod")
    where, owners = first["namespace"], first.get("ownerReferences")
    target = "%s/%s" % (where, first["name"])
    return target, "%s/%s[%s]" % (where, owners[0]["name"], owners[0]["kind"]) if owners else target + "[Pod]"


def commands(target, workload, statements):
    return (["list"], ["explain", "--from", "10.0.0.1", "--to", workload], ["exposure"],
            ["evaluate", "--from", "10.0.0.1", "--to", target, "--protocol", "TCP", "--port", "80"], ["unused"],
            ["check", "--statement", statements], ["flatten"])


def tell_memory(program):
    print("memory  sample 1000            %6.1f MB" % (memory([program, "sample", "1000"]) / 1e6), flush=True)
    print("memory  %-12s %-9s %6.1f MB" % ("an example", "list", memory([program, "list", EXAMPLE]) / 1e6), flush=True)
    greatest = {}
    with tempfile.TemporaryDirectory() as folder:
        path, statements = os.path.join(folder, "objects.json"), os.path.join(folder, "statements")
        with open(statements, "w") as f:
            f.writelines("%s any pod => any pod : %s\n" % said for said in STATEMENTS)
        for name, make in CLUSTERS:
            items = make()
            for form, spaces in (("", {"separators": (",", ":")}), ("indented", {"indent": 4})):
                with open(path, "w") as f:
                    f.write(json.dumps(listing(items), **spaces))
                size = os.path.getsize(path)
                if size > LARGEST:
                    continue
                for words in commands(*first_pod(items), statements):
                    most = memory([program, *words, path])
                    greatest[words[0], form] = max(greatest.get((words[0], form), 0), most / size)
                    told = (name, words[0], most / 1e6, most / size, size / 1e6, form)
                    print("memory  %-12s %-9s %6.1f MB   x%.1f of %.1f MB %s" % told, flush=True)
    for (command, form), times in greatest.items():
        print("memory  %-22s at most x%.1f %s" % (command, times, form))


def main():
    words = argparse.ArgumentParser(description=__doc__, formatter_class=argparse.RawDescriptionHelpFormatter)
    words.add_argument("--program", default=os.path.join(TOP, "dist", "np"))
    words.add_argument("what", nargs="*", metavar="stack|memory")
    given = words.parse_args()
    tellers = {"stack": tell_stack, "memory": tell_memory}
    for what in given.what or tellers:
        if what not in tellers:
            words.error("it is stack or memory, not %s" % what)
        tellers[what](given.program)


if __name__ == "__main__":
    main()
