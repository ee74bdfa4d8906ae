"""The table of a page has np's rows, row by row, and as few groups of equal workloads as there are: on clusters made by chance."""
import io
import json
import random
import subprocess

from browser import NP, Checks, make_page, rows_of
from plugin.page.reading import ListReader
from plugin.page.rows import Lines
from plugin.page.table import Table

NOTHING = "No Connections"


def cluster(chance):
    """Pods, some of one Deployment, in either family or both, with labels that repeat, and policies that choose by them."""
    dual = chance.random() < 0.5
    items = []
    for place in range(chance.randrange(1, 16)):
        labels = {key: chance.choice("xyz"[:chance.randrange(1, 4)]) for key in "kl" if chance.random() < 0.7}
        for pod in range(chance.choice([1, 1, 1, 2])):
            meta = {"name": "p%d-%d" % (place, pod), "namespace": chance.choice("ab"), "labels": labels}
            if pod or chance.random() < 0.3:
                meta["namespace"] = "ab"[place % 2]
                meta["ownerReferences"] = [{"apiVersion": "apps/v1", "kind": "StatefulSet", "name": "s%d" % place, "controller": True}]
            addresses = ["10.0.%d.%d" % (place, pod + 1)] + (["fd00::%d:%d" % (place, pod + 1)] if dual else [])
            items.append({"apiVersion": "v1", "kind": "Pod", "metadata": meta, "spec": {},
                          "status": {"podIP": addresses[0], "podIPs": [{"ip": address} for address in addresses]}})
    for place in range(chance.randrange(0, 5)):
        items.append(policy(chance, place))
    if chance.random() < 0.4:
        items.append({"apiVersion": "policy.networking.k8s.io/v1alpha1", "kind": "AdminNetworkPolicy", "metadata": {"name": "admin"}, "spec": {
            "priority": 1, "subject": {"namespaces": {}}, "egress": [
                {"action": "Deny", "to": [{"networks": ["10.0.%d.0/24" % chance.randrange(16), "203.0.113.0/24"]}], "ports": [{"portNumber": {"protocol": "TCP", "port": 22}}]}]}})
    return {"apiVersion": "v1", "kind": "List", "items": items}


def policy(chance, place):
    def selector():
        return {"matchLabels": {chance.choice("kl"): chance.choice("xyz")}} if chance.random() < 0.8 else {}

    def peers():
        return [chance.choice([{"podSelector": selector()}, {"namespaceSelector": {}, "podSelector": selector()}, {"ipBlock": {"cidr": "10.0.0.0/%d" % chance.randrange(8, 24)}}])
                for _ in range(chance.randrange(1, 3))]

    def rules(end):
        return [{end: peers(), **({"ports": [{"port": chance.choice([80, 443])}]} if chance.random() < 0.6 else {})} for _ in range(chance.randrange(0, 3))]
    types = chance.choice([["Ingress"], ["Egress"], ["Ingress", "Egress"]])
    return {"apiVersion": "networking.k8s.io/v1", "kind": "NetworkPolicy", "metadata": {"name": "n%d" % place, "namespace": chance.choice("ab")},
            "spec": {"podSelector": selector(), "policyTypes": types, "ingress": rules("from"), "egress": rules("to")}}


def table_of(path, only=""):
    """The table of np's reports, without the page around it."""
    reports = [subprocess.run([NP, command, "--format", "json", path], check=True, stdout=subprocess.PIPE).stdout for command in ("exposure", "list")]
    table = Table(only)
    table.read_exposure(reports[0].splitlines(keepends=True))
    ListReader(table, Lines(io.BytesIO(reports[1]))).read()
    return json.loads(table.json())


def places(changes, count):
    """The values of a list that is written by its changes."""
    values, value, known = [], 0, dict(map(int, change.split(":")) for change in changes.split())
    for place in range(count):
        value = known.get(place, value)
        values.append(value)
    return values


def pair_values(table):
    """The number of the connections from each workload to each, by their places."""
    count = len(table["names"])
    lists = [places(group[3], count) for group in table["groups"]]
    return [[table["groups"][table["groupOf"][a]][1] if a == b else lists[table["groupOf"][a]][b] for b in range(count)] for a in range(count)]


def rebuilt(table):
    """The rows as np would print them."""
    names, found = table["names"], []
    for a, values in enumerate(pair_values(table)):
        for b, value in enumerate(values):
            texts = table["connections"][value] or {}
            for mark, text in [("", texts)] if isinstance(texts, str) else [(" (%s)" % family, texts[family]) for family in ("IPv4", "IPv6") if family in texts]:
                found.append([names[a], names[b] + mark, text])
    for a, name in enumerate(names):
        if table["outside"]["of"][a] < 0:
            continue
        for side, flat in enumerate(table["outside"]["lists"][table["outside"]["of"][a]]):
            for place, value in zip(flat[::2], flat[1::2]):
                ends = [table["ranges"][place], name]
                found.append((ends if side == 0 else ends[::-1]) + [table["connections"][value] or NOTHING])
    for a, name in enumerate(names):
        through = table["groups"][table["groupOf"][a]][2]
        found += [["{ingress-controller}", name, table["connections"][through]]] if through else []
    return found


def fewest_groups(table):
    """How many groups there are where two workloads are equal by the very words of it."""
    values, outside, count = pair_values(table), table["outside"]["of"], len(table["names"])

    def equal(a, b):
        return (values[a][a] == values[b][b] and values[a][b] == values[b][a] and outside[a] == outside[b]
                and all(values[a][x] == values[b][x] and values[x][a] == values[x][b] for x in range(count) if x not in (a, b)))
    return sum(not any(equal(a, b) for b in range(a)) for a in range(count))


def main():
    checks = Checks()
    joined = 0
    for seed in range(60):
        with open("list.json", "w", encoding="utf-8") as file:
            json.dump(cluster(random.Random(seed)), file)
        table = table_of("list.json")
        checks.same("rows of %d" % seed, rebuilt(table), rows_of("list", "list.json"))
        checks.same("groups of %d" % seed, len(table["groups"]), fewest_groups(table))
        joined += len(table["groups"]) < len(table["names"])
        inside = [row for row in rows_of("list", "list.json") if any(end.startswith("a/") for end in row[:2])]
        checks.same("rows of one namespace of %d" % seed, rebuilt(table_of("list.json", "a")), inside)
    checks.true("some clusters have equal workloads", joined > 10)
    make_page("page.html", "--only", "a", "list.json")
    with open("page.html", encoding="utf-8") as file:
        lines = file.read().split('<script type="application/json" id="data">')[1].split("</script>")[0]
    checks.same("the table in a page", json.loads(lines)["table"], table_of("list.json", "a"))
    checks.end()


main()
