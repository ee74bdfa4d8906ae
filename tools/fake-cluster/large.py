"""A cluster of very many pods, for the stand-in for kubectl: pages are made when they are asked for. The file `cluster` of a case has

    pods = NUMBER           how many pods there are, the same number for each of 1,500 workloads
    padding = NUMBER        how many characters a pod has that np does not read (0)
    service = JSON          the spec of the one Service, in the namespace s1 (it selects a Deployment)

and behind that `exec(large())`. In 30 namespaces there are three StatefulSets, w1, w51 and w101, the DaemonSet w2 on the network of its
nodes, and else Deployments. A policy in each namespace lets in what has the label `team` with one of two values of seven.
"""
import sys

WORKLOADS, SPACES = 1500, 30
KINDS = {1: "StatefulSet", 51: "StatefulSet", 101: "StatefulSet", 2: "DaemonSet"}
settings = {"padding": 0, "service": '{"selector":{"app":"w3"},"ports":[{"port":80}]}', **globals()}
each = settings["pods"] // WORKLOADS


def kind_of(workload):
    return KINDS.get(workload, "Deployment")


def metadata(name, space, more=""):
    return '"metadata":{"name":"%s","namespace":"s%d"%s}' % (name, space % SPACES, more)


def labels(workload):
    return '"app":"w%d","team":"t%d"' % (workload, workload % 7)


def owned_by(kind, name):
    return ',"ownerReferences":[{"apiVersion":"apps/v1","kind":"%s","name":"%s","controller":true}]' % (kind, name)


def pod(number):
    workload, index = divmod(number, each)
    kind = kind_of(workload).replace("Deployment", "ReplicaSet")
    name = "w%d-%d" % (workload, index)
    own = ',"statefulset.kubernetes.io/pod-name":"%s"' % name if kind == "StatefulSet" else ""
    more = ',"labels":{%s%s},"annotations":{"a":"%s"}%s' % (
        labels(workload), own, "x" * settings["padding"], owned_by(kind, "w%d" % workload))
    network = '"hostNetwork":true,' if kind == "DaemonSet" else ""
    address = "10.%d.%d.%d" % (number >> 16, number >> 8 & 255, number & 255)
    return '{%s,"spec":{%s"nodeName":"n%d","containers":[{"ports":[{"name":"http","containerPort":8080}]}]},"status":{"podIP":"%s"}}' % (
        metadata(name, workload, more), network, number % 5000, address)


def controller(workload):
    return '{%s,"spec":{"replicas":%d}}' % (metadata("w%d" % workload, workload), each)


def replica_set(workload):
    return '{%s,"spec":{"replicas":%d}}' % (metadata("w%d" % workload, workload, owned_by("Deployment", "w%d" % workload)), each)


def namespace(number):
    return '{"metadata":{"name":"s%d"}}' % number


def policy(number):
    rules = ",".join('{"from":[{"podSelector":{"matchLabels":{"team":"t%d"}}}],"ports":[{"port":"http"}]}' % team for team in range(2))
    return '{%s,"spec":{"podSelector":{},"ingress":[%s]}}' % (metadata("p", number), rules)


def only_service(_number):
    return '{%s,"spec":%s}' % (metadata("peers", 1), settings["service"])


def of_kind(kind):
    return [workload for workload in range(WORKLOADS) if kind_of(workload) == kind]


# Of each resource the kind, the numbers of its objects, and what makes one.
MADE = {"pods": ("Pod", range(each * WORKLOADS), pod), "namespaces": ("Namespace", range(SPACES), namespace),
        "deployments": ("Deployment", of_kind("Deployment"), controller), "replicasets": ("ReplicaSet", of_kind("Deployment"), replica_set),
        "statefulsets": ("StatefulSet", of_kind("StatefulSet"), controller), "daemonsets": ("DaemonSet", of_kind("DaemonSet"), controller),
        "networkpolicies": ("NetworkPolicy", range(SPACES), policy), "services": ("Service", range(1), only_service)}


def answer(words):
    path, _, query = words[-1].partition("?")
    if path.rsplit("/", 1)[-1] not in MADE or not query:
        return None
    kind, numbers, make = MADE[path.rsplit("/", 1)[-1]]
    asked = dict(part.split("=") for part in query.split("&"))
    start = int(asked.get("continue", 0))
    end = min(start + int(asked["limit"]), len(numbers))
    rest = ',"continue":"%d"' % end if end < len(numbers) else ""
    version = path.split("/", 2)[2].rsplit("/", 1)[0]
    sys.stdout.write('{"kind":"%sList","apiVersion":"%s","metadata":{"resourceVersion":"1"%s},"items":[%s]}\n' % (
        kind, version, rest, ",".join(map(make, numbers[start:end]))))
    return 0
