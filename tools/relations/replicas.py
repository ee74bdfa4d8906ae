"""Random lists whose pods have owners with several pods, and what the plugin gives np of a list that is too large for it."""
import copy
import json
import os
import sys

sys.path.insert(0, os.path.join(os.path.dirname(os.path.abspath(__file__)), "..", "..", "kubectl-np"))

import lists  # noqa: E402
from plugin import said, thinning  # noqa: E402
from plugin.caveats.beside import Beside  # noqa: E402
from plugin.members import Spool  # noqa: E402
from plugin.replicas import JOB_INDEX, POD_INDEX, POD_NAME  # noqa: E402
from plugin.rollouts import Rollouts  # noqa: E402
from plugin.room import Room  # noqa: E402

said.is_quiet = True
OWNERS = [("StatefulSet", "db"), ("StatefulSet", "web"), ("ReplicaSet", "web"), ("DaemonSet", "agent"), ("Job", "load"), ("Node", "n"),
          None]
USUAL = [["10.0.0.9"], ["10.0.0.8"]]
RARE = [[], ["10.0.0.2"], ["11.0.0.1"], ["10.0.0.9", "fd00::2"], ["fd00::3", "10.0.0.9"], ["fe00::1"]]


class Thinned:
    """A list as the plugin writes it where it is too large for np: its items, where each stands among those that the filter keeps of
    the whole list, and how many pods were left out, by the note of np that counts them."""

    def __init__(self, items):
        with Room() as room:
            beside = Beside()
            spool = Spool(room, "items", Rollouts(), beside)
            for item in items:
                spool.add(item)
            spool.close()
            self.whole = [json.loads(line) for line in spool.lines()]
            with room.create("list") as file:
                thinning.thin(file, [spool], room, beside)
            self.items = json.loads(room.path("list").read_bytes())["items"]
            self.left_out = dict(beside.left_out.counts)
        rest = iter(enumerate(self.whole))
        self.places = [next(place for place, item in rest if item == kept) for kept in self.items]


def replica(pod, owner, index, rng):
    """A pod of an owner that is like this one, but for what each pod of an owner has for itself, and what is rare."""
    made = copy.deepcopy(pod)
    made["metadata"]["name"] += "-%s-%d" % ("-".join(owner).lower() if owner else "alone", index)
    labels = made["metadata"]["labels"]
    if owner:
        made["metadata"]["ownerReferences"] = [{"apiVersion": "v1", "kind": owner[0], "name": owner[1], "controller": True}]
    if owner and owner[0] == "StatefulSet":
        labels.update({POD_NAME: made["metadata"]["name"], POD_INDEX: str(index)})
    if owner and owner[0] == "Job":
        labels[JOB_INDEX] = str(index)
    made["spec"]["hostNetwork"] = rng.random() < 0.1
    made["status"] = {"phase": rng.choice(["Running"] * 9 + ["Succeeded"]), "podIPs": [{"ip": ip} for ip in rng.choice(USUAL * 7 + RARE)]}
    return made


def with_replicas(items, rng):
    """The list with up to 24 pods in the place of each, in either namespace and of two owners, and with selectors that may ask for
    one pod of many."""
    found = [item for item in items if item["kind"] != "Pod"]
    for pod in lists.kinds(items, "Pod"):
        pod["metadata"]["namespace"] = "nsone"
        found += [replica(pod, owner, index, rng) for owner in rng.sample(OWNERS, 2) for index in range(rng.choice([1, 2, 3, 12]))]
    for pod in lists.kinds(found, "Pod"):
        if rng.random() < 0.15:
            pod["metadata"]["namespace"] = "nstwo"
    if rng.random() < 0.3:
        key = rng.choice([POD_NAME, POD_INDEX, JOB_INDEX])
        value = rng.choice([pod["metadata"]["labels"].get(key, "0") for pod in lists.kinds(found, "Pod")])
        spec = {"selector": {key: value}, "ports": [{"port": 80}]}
        found.append({"apiVersion": "v1", "kind": "Service", "metadata": {"name": "one", "namespace": "nsone"}, "spec": spec})
    return rng.sample(found, len(found)) if rng.random() < 0.5 else found
