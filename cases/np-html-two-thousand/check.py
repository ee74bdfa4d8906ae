"""Two thousand workloads, each with a policy of its own, in np.html: the rows of np, and within how much memory."""
import json
from pathlib import Path

from ask_browser import asking, await_true, show
from browser import Checks, np

COUNT = 2000
MOST_BYTES = 400_000_000


def pod(place):
    return {"apiVersion": "v1", "kind": "Pod", "metadata": {"name": "p%04d" % place, "namespace": "team-%02d" % (place // 20), "labels": {"app": "p%04d" % place}},
            "spec": {}, "status": {"podIP": "10.0.%d.%d" % (place // 250, place % 250 + 1)}}


def policy(place):
    """Lets the pod before this one of its namespace in."""
    return {"apiVersion": "networking.k8s.io/v1", "kind": "NetworkPolicy", "metadata": {"name": "p%04d" % place, "namespace": "team-%02d" % (place // 20)},
            "spec": {"podSelector": {"matchLabels": {"app": "p%04d" % place}}, "policyTypes": ["Ingress"],
                     "ingress": [{"from": [{"podSelector": {"matchLabels": {"app": "p%04d" % (place - 1)}}}], "ports": [{"port": 8000 + place % 7}]}]}}


def main():
    checks = Checks()
    items = [make(place) for make in (pod, policy) for place in range(COUNT)]
    Path("large.json").write_text(json.dumps({"apiVersion": "v1", "kind": "List", "items": items}), encoding="utf-8")
    with asking() as browser:
        show(browser, "now", "large.json")
        rows = np("list", "large.json").splitlines()
        browser.run("change({ view: 'list', joined: false, passing: false })")
        checks.same("the count of rows", browser.texts("#view .count")[0].split(" rows")[0].replace(",", ""), str(len(rows)))
        browser.run("window.taken = 0; runner.ask({ words: ['list', 'large.json'], files: filesOf('now'), most: 4e9 }).then(made => { taken = made; })")
        browser.run("return 0")
        report, taken = await_true(browser, "taken && [taken.report, taken.bytes]")
        checks.same("the report", report.splitlines(), rows)
        checks.true("%d bytes" % taken, taken <= MOST_BYTES)
        browser.run("tableOf('now', true)")
        await_true(browser, "!document.getElementById('busy').hidden")
        browser.click("#stop")
        await_true(browser, "document.getElementById('busy').hidden")
    checks.end()


main()
