"""Two thousand workloads: 4,000,000 equal rows, and a policy of its own for each. The page has at most 5 MB and opens within two seconds."""
import json

from browser import Browser, Checks, make_page, rows_of

COUNT = 2000
MOST_BYTES, MOST_SECONDS = 5_000_000, 2.0


def pod(place):
    return {"apiVersion": "v1", "kind": "Pod", "metadata": {"name": "p%04d" % place, "namespace": "team-%02d" % (place // 20), "labels": {"app": "p%04d" % place}},
            "spec": {}, "status": {"podIP": "10.0.%d.%d" % (place // 250, place % 250 + 1)}}


def policy(place):
    """Lets the pod before this one of its namespace in, and a block of addresses of its own."""
    peers = [{"podSelector": {"matchLabels": {"app": "p%04d" % (place - 1)}}}, {"ipBlock": {"cidr": "172.16.%d.%d/32" % (place // 250, place % 250)}}]
    return {"apiVersion": "networking.k8s.io/v1", "kind": "NetworkPolicy", "metadata": {"name": "p%04d" % place, "namespace": "team-%02d" % (place // 20)},
            "spec": {"podSelector": {"matchLabels": {"app": "p%04d" % place}}, "policyTypes": ["Ingress", "Egress"],
                     "ingress": [{"from": peers, "ports": [{"port": 8000 + place % 7}]}], "egress": [{"to": [{"namespaceSelector": {}}]}]}}


def write(path, items):
    with open(path, "w", encoding="utf-8") as file:
        json.dump({"apiVersion": "v1", "kind": "List", "items": items}, file)


def check_opens(browser, checks, path, size):
    """Time is the processor's for the page, so that it is the same while the machine does other work."""
    checks.true("%s: %d bytes" % (path, size), size <= MOST_BYTES)
    browser.devtools("Performance.enable", {"timeDomain": "threadTicks"})
    browser.open(path)
    metrics = {entry["name"]: entry["value"] for entry in browser.devtools("Performance.getMetrics", {})["metrics"]}
    browser.devtools("Performance.disable", {})
    checks.true("%s: opens in %.1f s" % (path, metrics["TaskDuration"]), metrics["TaskDuration"] <= MOST_SECONDS)


def check_equal(browser, checks):
    write("equal.json", [pod(place) for place in range(COUNT)])
    check_opens(browser, checks, "equal.html", make_page("equal.html", "equal.json"))
    checks.same("one line", browser.run("return app.matrix.senders.map(line => line.label)"), ["team-00/p0000 +1,999 equal", "addresses"])
    checks.same("the count of rows", browser.texts("#beside .count"), ["5 lines, which are 4,006,000 rows of np"])
    browser.click(".matrix-table tbody button.toggle")
    checks.same("opened, as far as can be shown", browser.run("return app.matrix.rows.length"), 151)
    browser.run("change({ view: 'list', joined: false, search: 'p0007 p1999' })")
    checks.same("two of two thousand", browser.rows(), [["team-00/p0007[Pod]", "team-99/p1999[Pod]", "All Connections"], ["team-99/p1999[Pod]", "team-00/p0007[Pod]", "All Connections"]])


def check_own(browser, checks):
    write("own.json", [make(place) for place in range(COUNT) for make in (pod, policy)])
    check_opens(browser, checks, "own.html", make_page("own.html", "own.json"))
    checks.same("a line for each namespace", browser.run("return app.matrix.senders.length"), 101)
    browser.run("change({ toggled: ['namespace team-07'] })")
    checks.same("an open namespace", browser.run("return app.matrix.senders.filter(line => line.kind === 'workload').length"), 20)
    browser.run("change({ search: 'p0150', toggled: [] })")
    checks.same("the lines of a search", browser.run("return [app.matrix.senders, app.matrix.receivers].map(lines => lines.map(line => line.full))"),
                [["team-07/p0149[Pod]", "team-07/p0150[Pod]", "addresses"], ["team-07/p0150[Pod]", "team-07/p0151[Pod]"]])
    table = rows_of("list", "own.json")
    end = "team-07/p0150[Pod]"
    browser.open("own.html", "#view=list&passing=no&cidrs=yes&focus=" + end)
    checks.same("the rows of one workload", browser.rows(), [row for row in table if end in row])
    checks.same("all rows", browser.run("return takeRows(app.table, makeFilter(Object.assign({}, START, { passing: false })), false, 0).lines"), len(table))


def main():
    checks = Checks()
    with Browser() as browser:
        check_equal(browser, checks)
        check_own(browser, checks)
        checks.same("complaints", browser.complaints(), [])
    checks.end()


main()
