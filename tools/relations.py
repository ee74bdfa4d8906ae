#!/usr/bin/env python3
"""Compares answers of `np` with one another, over random lists:
tools/relations.py [--program dist/np] [--lists 200] [--seed 1] [RELATION..]

A proof shows that the program meets its definitions. What a definition and the program got wrong together it does not show; some of that
would break one of these relations, which users rely on whatever the definitions say. For each RELATION (all of them without a name) it
makes as many random lists as --lists says, and prints how many it tried; it ends with status 1 at the first list that breaks one, which it
prints.

order      items in another order give the same table, exposure, unused rules and flat policies
files      a list cut into several files is that list
twice      a NetworkPolicy under a second name changes no row, and its copy decides nothing
renamed    namespaces under other names give the same rows under those names
bystander  a pod in a namespace of its own changes no row between the others
newcomer   the first row of `exposure` that a new pod fits is what the workload's side says once that pod is there
flat       the policies that `flatten` prints give the rows of the old ones
unused     without the rules that `unused` names all rows stay
check      the rows of `list` hold as statements, and so does that nothing else passes; a row denied is broken in that row
explain    what both sides allow is the row, and each end of each range is what `evaluate` says
formats    text, CSV and JSON, and both reports, say the same
focus      a focus keeps the rows of its workload
thinned    without the pods that the plugin leaves out of a list that is too large, all answers stay, but those about a pod by its name

--wrong tries each relation on answers that were spoilt on purpose, and ends with status 1 where one does not notice.
"""
import argparse
import copy
import csv
import json
import os
import random
import sys

sys.path.insert(0, os.path.join(os.path.dirname(os.path.abspath(__file__)), "relations"))
import answers  # noqa: E402
import lists  # noqa: E402
import replicas  # noqa: E402
from answers import Broken, connections, demand, row, runs_of, union, written  # noqa: E402

CONTROLLER = "{ingress-controller}"


def table(np, *parts):
    return np.rows(["list"], *parts)


def order(np, items, rng):
    mixed = rng.sample(items, len(items))
    for command in ("list", "exposure", "unused", "flatten"):
        one, other = np.run([command], items), np.run([command], mixed)
        demand(one == other, "%s differs after the items were mixed" % command)


def files(np, items, rng):
    cut = sorted(rng.randrange(len(items) + 1) for _ in range(2))
    parts = items[:cut[0]], items[cut[0]:cut[1]], items[cut[1]:]
    for command in ("list", "exposure", "unused"):
        demand(np.run([command], items) == np.run([command], *parts), "%s differs over files" % command)


def twice(np, items, rng):
    policies = lists.kinds(items, "NetworkPolicy")
    if not policies:
        return
    second = copy.deepcopy(rng.choice(policies))
    second["metadata"]["name"] = "zz-copy"
    both = [*items, second]
    demand(table(np, items) == table(np, both), "the copy of a policy changes a row")
    name = lists.pod_name(second)
    types = [direction for direction in ("ingress", "egress") if direction.title() in second["spec"]["policyTypes"]]
    wanted = ["NetworkPolicy %s %s[%d]" % (name, d, n) for d in types for n in range(len(second["spec"][d]))]
    found = [line for line in np.rows(["unused"], both) if line.startswith("NetworkPolicy %s " % name)]
    demand(found == wanted, "of the copy %s are unused, and not %s" % (found, wanted))


def renamed(np, items, rng):
    def rename(text):
        return text.replace("nsone", "za-first").replace("nstwo", "zb-second")
    other = json.loads(rename(json.dumps(items)))
    for command in ("list", "exposure", "unused"):
        rows = [rename(line) for line in np.rows([command], items)]
        demand(rows == np.rows([command], other), "%s knows a namespace by its name" % command)


def bystander(np, items, rng):
    added = lists.pod("zz-bystander", "late", rng, addresses=False)
    rows = [line for line in table(np, [*items, added]) if "zz-bystander/" not in line]
    demand(rows == table(np, items), "a pod beside the others changes their rows")


def fits(requirement, namespace, labels):
    """Whether a pod meets a requirement of a row of `exposure`."""
    side, key, rest = requirement.split(" ", 2)
    value = (namespace if side == "namespace" else labels).get(key)
    operator, _, named = rest.partition(" ")
    if operator in ("Exists", "DoesNotExist"):
        return (value is not None) == (operator == "Exists")
    return (value in named[1:-1].split(",")) == (operator == "In")


def newcomer(np, items, rng):
    target = lists.pod_name(rng.choice(lists.kinds(items, "Pod"))) + "[Pod]"
    added = lists.pod(rng.choice([*lists.SPACES, "nsnew"]), "late", rng, addresses=False)
    added["spec"] = {}
    place = added["metadata"]["namespace"]
    spaces = {item["metadata"]["name"]: item["metadata"]["labels"] for item in lists.kinds(items, "Namespace")}
    around = {**spaces.get(place, {}), lists.NAME_KEY: place}
    pod, name = added["metadata"]["labels"], lists.pod_name(added) + "[Pod]"
    for from_target, ends in ((False, (name, target)), (True, (target, name))):
        rows = [row(line) for line in np.rows(["exposure", "--workload", target], items)]
        rows = [(r[1 if from_target else 0], r[2]) for r in rows if r[0 if from_target else 1] == target]
        told = next(conns for braces, conns in rows
                    if braces == "{any pod}" or all(fits(part, around, pod) for part in braces[1:-1].split(" and ")))
        lines = np.rows(["explain", "--from", ends[0], "--to", ends[1]], [*items, added])
        head = ("egress" if from_target else "ingress") + " of " + target
        for side in sides(lines):
            if side[0].startswith(head):
                demand(allowed(side[1]) == connections(told), "exposure says %s to a new pod in %s, and explain %s" % (told, place, side))


def sides(lines):
    """The sides that `explain` prints, each with its head and its parts; a row `a => b : conns` ends the last one."""
    found = []
    for line in lines:
        if line.startswith(("egress of ", "ingress of ")):
            found.append((line, []))
        elif " => " not in line:
            found[-1][1].append(tuple(line.split(" : ", 1)))
    return found


def allowed(parts):
    return union(connections(conns) for conns, decider in parts if decider.startswith("Allow"))


def flat(np, items, rng):
    status, lines = np.run(["flatten"], items)
    if status != 0:
        return demand(status == 1, "flatten ends with status %d" % status)
    policies = json.loads(lines[0])["items"]
    rest = [item for item in items if not item["kind"].endswith("NetworkPolicy")]
    demand(table(np, items) == table(np, [*rest, *policies]), "the flat policies give other rows")


def unused(np, items, rng):
    left = lists.without_rules(items, np.rows(["unused"], items))
    demand(table(np, items) == table(np, left), "a rule that was told unused decides something")


def check(np, items, rng):
    pairs = [row(line) for line in table(np, items) if line.count("[Pod]") == 2 and "(IPv" not in line]
    if not pairs:
        return
    statements = []
    for source, destination, conns in pairs:
        rest = tuple(whole & ~part for whole, part in zip(answers.EVERYTHING, connections(conns)))
        statements.append("allow workload %s => workload %s : %s" % (source, destination, conns))
        statements.append("deny workload %s => workload %s : %s" % (source, destination, written(rest)))
    found = np.run(["check"], items, statements=statements)
    demand(found == (0, ["holds: %d" % len(statements)]), "the rows do not hold as statements: %s" % (found,))
    source, destination, conns = rng.choice(pairs)
    status, lines = np.run(["check"], items, statements=["deny workload %s => workload %s : All Connections" % (source, destination)])
    demand(status == 5, "a row that is denied holds: %s" % (lines,))
    spot = lines[0].split(" : ")[1]
    demand(union([connections(spot), connections(conns)]) == connections(conns), "%s is not among %s" % (spot, conns))


def explain(np, items, rng):
    source, destination = rng.sample(lists.kinds(items, "Pod"), 2)
    ends = lists.pod_name(source), lists.pod_name(destination)
    lines = np.rows(["explain", "--from", ends[0] + "[Pod]", "--to", ends[1] + "[Pod]"], items)
    if any("(IPv" in line for line in lines):
        return
    (_, first), (_, second) = sides(lines)
    both = tuple(one & other for one, other in zip(allowed(first), allowed(second)))
    demand(written(both) == row(lines[-1])[2], "both sides allow %s, and the row says %s" % (written(both), lines[-1]))
    for conns, _ in [*first, *second]:
        for number, (protocol, ports) in enumerate(zip(answers.PROTOCOLS, connections(conns))):
            for port in {end for run in runs_of(ports) for end in run}:
                words = ["evaluate", "--from", ends[0], "--to", ends[1], "--protocol", protocol, "--port", str(port)]
                verdict = "Allow" if both[number] >> port & 1 else "Deny"
                wanted = "%s => %s : %s %d : %s" % (*ends, protocol, port, verdict)
                told = np.rows(words, items)
                demand(told == [wanted], "evaluate says %s, and explain %s" % (told, verdict))


def formats(np, items, rng):
    rows = [list(row(line)) for line in table(np, items)]
    demand(list(csv.reader(np.rows(["list", "--format", "csv"], items)))[1:] == rows, "CSV differs from text")
    found = json.loads("\n".join(np.rows(["list", "--format", "json"], items)))
    demand([[r["source"], r["destination"], r["connections"]] for r in found] == rows, "JSON differs from text")
    ranges = [list(row(line)) for line in np.rows(["list", "--report", "1"], items)]
    both = [[[*map(answers.addresses, ends), conns] for *ends, conns in told] for told in (rows, ranges)]
    demand(both[0] == both[1], "the reports differ")


def focus(np, items, rng):
    name = lists.pod_name(rng.choice(lists.kinds(items, "Pod"))) + "[Pod]"
    rows = table(np, items)
    for side, kept in (("either", {0, 1}), ("from", {0}), ("to", {1})):
        wanted = [line for line in rows if name in [row(line)[end].replace(" (IPv4)", "").replace(" (IPv6)", "") for end in kept]]
        demand(np.rows(["list", "--focus", name, "--side", side], items) == wanted, "the focus %s loses a row" % side)


def thinned(np, items, rng):
    many = replicas.with_replicas(items, rng)
    few = replicas.Thinned(many).items
    names = workloads(np, many)
    ends = ["any pod", "any address", "namespace nsone", *("workload " + name for name in names)]
    asked = [[command] for command in ("list", "exposure", "unused", "flatten")]
    if names:
        asked += [["explain", "--from", rng.choice(names), "--to", rng.choice(names)] for _ in range(3)]
    for words in asked:
        one, other = np.run(words, many), np.run(words, few)
        demand(one == other, "%s differs after pods were left out" % " ".join(words))
    for _ in range(3):
        line = "%s %s => %s : %s" % (rng.choice(["allow", "deny"]), rng.choice(ends), rng.choice(ends[:1] + ends[2:]), "TCP 80-8080")
        one, other = (np.run(["check"], each, statements=[line]) for each in (many, few))
        demand(one == other, "check says of %s, after pods were left out, %s and not %s" % (line, other, one))


def workloads(np, items):
    """The workloads of a list, by the rows of the first addresses."""
    rows = [row(line) for line in np.rows(["list", "--report", "1"], items)]
    return [destination for source, destination, _ in rows if source.startswith("0.0.0.0")]


RELATIONS = [order, files, twice, renamed, bystander, newcomer, flat, unused, check, explain, formats, focus, thinned]


def spoil(words, parts, lines):
    """Answers that are wrong as the program may be: by the first item, by the files, by names, formats and the like."""
    items = [item for part in parts for item in part]
    names = {item["metadata"]["name"] for item in items}
    text = json.dumps(items)
    if words[0] == "list":
        odd = items and items[0]["kind"] != "Namespace" or len(parts) > 1 or names & {"zz-copy", "late", "flat-0"} or "za-first" in text
        odd = odd or {"csv", "json", "1", "from"} & set(words) or text.count('"action"') + text.count('"ports"') % 2
        return lines[:-1] if odd else lines
    if words[0] == "explain":
        return [line.replace("Allow by default", "Deny by default") for line in lines]
    return lines[:-1] if words[0] == "check" else lines


def holds(relation, np, seed):
    rng = random.Random("%s %d" % (relation.__name__, seed))
    items = lists.random_items(rng)
    try:
        relation(np, items, rng)
        return None
    except (Broken, ValueError, LookupError, StopIteration) as broken:  # an answer that cannot be read is wrong, too
        return "%s, list %d: %s\n%s" % (relation.__name__, seed, broken, json.dumps({"apiVersion": "v1", "kind": "List", "items": items}))


def main():
    words = argparse.ArgumentParser(description=__doc__, formatter_class=argparse.RawDescriptionHelpFormatter)
    words.add_argument("--program", default=os.path.join(os.path.dirname(os.path.abspath(__file__)), "..", "dist", "np"))
    words.add_argument("--lists", type=int, default=200)
    words.add_argument("--seed", type=int, default=1)
    words.add_argument("--wrong", action="store_true")
    words.add_argument("names", nargs="*", metavar="RELATION")
    given = words.parse_args()
    chosen = [r for r in RELATIONS if not given.names or r.__name__ in given.names]
    np, missed = answers.Program(given.program, spoil if given.wrong else None), []
    for relation in chosen:
        found = next(filter(None, (holds(relation, np, given.seed + n) for n in range(given.lists))), None)
        if given.wrong:
            missed += [] if found else [relation.__name__]
        elif found:
            sys.exit(found)
        else:
            print("%s: %d lists" % (relation.__name__, given.lists), flush=True)
    if missed:
        sys.exit("spoilt answers are not noticed by: " + " ".join(missed))


if __name__ == "__main__":
    main()
