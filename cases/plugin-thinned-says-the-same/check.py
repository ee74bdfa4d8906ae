"""Asks the plugin about random lists twice: as it is, and as if np took one object, so that it leaves out all pods that are like two others."""
import json
import os
import random
import re
import subprocess
import sys
from types import SimpleNamespace

TOP = os.environ["ROOT"]
sys.path[:0] = [TOP + "/tools/gated", TOP + "/tools/relations"]
import answers  # noqa: E402
import replicas  # noqa: E402
from lists_with_owners import random_list  # noqa: E402
from statement_files import random_line  # noqa: E402

PLUGIN = """
import sys
sys.path.insert(0, sys.argv.pop(1))
from plugin import importer
importer.install()
from plugin import snapshot
snapshot.MOST_ITEMS = int(sys.argv.pop(1))
from plugin.door import main
from plugin.ending import run
run(main)
"""
SIZE = re.compile(r".*(pods are left out, since|the list has more than).*\n")
ITEMS = re.compile(r"items? [0-9]+")  # the numbers of objects may differ


def asked(words, most):
    """The status, what is written and what is said, but for what is said of the size of the list, and how many pods were left out."""
    done = subprocess.run([sys.executable, "-S", "-c", PLUGIN, TOP + "/kubectl-np", str(most), *words], capture_output=True, text=True,
                          check=False)
    left_out = sum(map(int, re.findall("([0-9]+) pods are left out", done.stderr)))
    return (done.returncode, ITEMS.sub("item", done.stdout), sorted(ITEMS.sub("item", SIZE.sub("", done.stderr)).splitlines())), left_out


def write(name, items):
    with open(name, "w", encoding="utf-8") as file:
        json.dump({"apiVersion": "v1", "kind": "List", "items": items}, file)


def questions(items, rng):
    """What is asked about the list; the files of statements are written."""
    rows = map(answers.row, answers.Program(os.environ["KUBECTL_NP_PROGRAM"]).rows(["list"], items))
    workloads = [destination for source, destination, _ in rows if source.startswith("0.0.0.0/")]
    table = SimpleNamespace(pods=[SimpleNamespace(workload=name, namespace=name.partition("/")[0]) for name in workloads], leads=True)
    pods = ["%(namespace)s/%(name)s" % item["metadata"] for item in items if item["kind"] == "Pod"]
    addresses = [ip["ip"] for item in items if item["kind"] == "Pod" for ip in item["status"]["podIPs"]]
    with open("statements", "w", encoding="utf-8") as file:
        file.writelines(random_line(table, rng) + "\n" for _ in range(12))
        for name in [item["metadata"]["labels"].get(replicas.POD_NAME) for item in items if item["kind"] == "Pod"]:
            file.write("deny pods nsone %s=%s => namespace nsone : All Connections\n" % (replicas.POD_NAME, name) if name else "")
    with open("plain", "w", encoding="utf-8") as file:
        file.write("allow %s => any pod : TCP 1\ndeny any pod => any pod : TCP 80\n" % rng.choice(["10.0.0.0/29", *addresses]))
    listed = "list", "caveats", "names pods", "gate statements", "gate --as-address statements", "check --statement plain", "page"
    yield from (["--list", "a.json", *words.split(" ")] for words in listed)
    yield ["changes", "a.json", "b.json"]
    for source in rng.choice(pods), rng.choice(addresses), rng.choice(pods) + "x":
        yield ["--list", "a.json", "evaluate", "--from", source, "--to", rng.choice(pods), "--protocol", "TCP", "--port", "80"]
    for source in rng.choice(workloads), rng.choice(addresses):
        yield ["--list", "a.json", "explain", "--from", source, "--to", rng.choice(workloads)]


def main():
    count = 0
    for seed in range(int(sys.argv[1]), int(sys.argv[2])):
        rng = random.Random(seed)
        items = replicas.with_replicas(random_list(rng), rng)
        write("a.json", items)
        write("b.json", [item for item in items if item["kind"] != "NetworkPolicy" or rng.random() < 0.5])
        for words in questions(items, rng):
            (one, _), (other, left_out) = asked(words, 20000), asked(words, 1)
            count += left_out > 0
            if one != other:
                sys.exit("list %d: %s\n%s\n%s" % (seed, " ".join(words), one, other))
    print("the answers are the same" if count > 8 else "few pods were left out")


main()
