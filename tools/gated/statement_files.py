"""Random lines of statement files, about a list."""
from __future__ import annotations

import random
import re

import lists
from meaning import names_of
from passing import Table

BLOCKS = ["10.0.0.0/8", "10.0.0.2/32", "fd00::/64", "0.0.0.0/0", "192.168.0.0/16", "10.1.0.0/15"]
CONNECTIONS = ["All Connections", "TCP 80", "UDP 53", "TCP 22,80-90; SCTP 80", "TCP 1-65535", "TCP 8080", "No Connections"]


def random_end(table: Table, rng: random.Random) -> str:
    pod, space = rng.choice(table.pods), rng.choice([*lists.SPACES] * 15 + ["nope"])
    requirement = rng.choice(["app=%s" % rng.choice("xyz"), "tier!=x", "color=blue", "color", "!color", "app in (x,y)", "tier NotIn (x,z)",
                              "app==x,color=green", "color=green,tier in (x,y)"])
    return rng.choice(["any pod", "any address", "namespace " + space, "workload " + rng.choice(names_of(pod.workload)),
                       "workload " + rng.choice(names_of(pod.workload)), "pods %s %s" % (space, requirement),
                       "pods %s %s" % (pod.namespace, requirement), "outside-namespace " + space, rng.choice(BLOCKS),
                       rng.choice(["ingress-controller"] * 6 + ["workload nsone/gone[Pod]"])])


def random_line(table: Table, rng: random.Random) -> str:
    verdict, right = rng.choice(["allow", "deny", "only", "only"]), random_end(table, rng)
    if rng.random() < 0.8:
        right = rng.choice(["namespace ", "workload ", "workload "]) + rng.choice(table.pods).workload
        right = right.partition("/")[0] if right.startswith("namespace") else right
    left = ", ".join(random_end(table, rng) for _ in range(rng.randrange(1, 4) if verdict == "only" else 1))
    if (table.leads or table.open) and rng.random() < 0.15:  # what is left is the Ingress
        verdict, left = rng.choice([("only", "any pod, any address"), ("deny", "ingress-controller"), ("allow", "ingress-controller")])
    return "%s %s => %s : %s" % (verdict, left, right, rng.choice(CONNECTIONS[:-1] * 6 + CONNECTIONS[-1:]))


def is_plain(line: str, table: Table) -> bool:
    """Whether np knows the line."""
    known = {"workload " + name for name in table.names}
    ends = re.split(" => ", line.rsplit(" : ", 1)[0].partition(" ")[2])
    return not line.startswith("only ") and all(
        end in known or not end.startswith(("workload", "pods", "outside", "ingress")) for end in ends)
