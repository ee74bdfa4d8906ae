"""Why nothing passes: each denied cell has the answer of np explain where that is little, and else the policies that isolate a side. What
is reached through Ingresses, by a controller that is named or not, and caveats. The tables of new pods are never cut."""
import json
import os
import re
import subprocess

from browser import NP, Browser, Checks, make_page, np

WEB, API, DATABASE = ("shop/%s[Deployment]" % name for name in ("web", "api", "database"))
MANY = 20
PLUGIN = os.environ["ROOT"] + "/kubectl-np"


def pod(name):
    return {"apiVersion": "v1", "kind": "Pod", "metadata": {"name": name, "namespace": "a", "labels": {"app": name}},
            "spec": {"containers": [{"name": "c"}]}, "status": {"podIP": "10.0.0.%d" % (1 + sum(map(ord, name)) % 250)}}


def policy(name, place, rules):
    return {"apiVersion": "networking.k8s.io/v1", "kind": "NetworkPolicy", "metadata": {"name": name, "namespace": "a"},
            "spec": {"podSelector": {"matchLabels": {"app": "p%02d" % place}}, "ingress": rules}}


def write_many():
    """Too many pairs for an answer of each; two policies isolate p00, and one of p01 lets p02 in."""
    items = [pod("p%02d" % place) for place in range(MANY)]
    items += [policy("shut", 0, []), policy("closed", 0, []), policy("open", 1, [{"from": [{"podSelector": {"matchLabels": {"app": "p02"}}}]}])]
    with open("many.json", "w", encoding="utf-8") as file:
        json.dump({"apiVersion": "v1", "kind": "List", "items": items}, file)


def plugin_page(path, *words):
    """The page of the plugin."""
    with open(path, "wb") as file:
        subprocess.run([PLUGIN, "--list", *words], check=True, stdout=file, stderr=subprocess.DEVNULL, env=dict(os.environ, KUBECTL_NP_PROGRAM=NP))


def check_every(browser, checks):
    """Each cell of the shop, denied ones too, is explained as np explains it."""
    make_page("page.html", "examples/shop.json")
    browser.open("page.html")
    ends = [WEB, API, DATABASE, "0.0.0.0", "::"]
    pairs = [(a, b) for a in ends for b in ends if "[" in a + b and (a, b) != (DATABASE, DATABASE)]
    found = dict(map(tuple, ((ends, tuple(lines)) for ends, lines in browser.run("return Array.from(app.explained)"))))
    checks.same("the pairs", sorted(found), sorted(" ".join(pair) for pair in pairs))
    for pair in pairs:
        checks.same("explain %s => %s" % pair, list(found[" ".join(pair)]),
                    np("explain", "--from", pair[0], "--to", pair[1], "examples/shop.json").splitlines())
    browser.run("change({ from: arguments[0], to: arguments[1] })", WEB, DATABASE)
    checks.same("what denies", browser.texts("#detail .denied"),
                ["All Connections : Deny since isolated by NetworkPolicy shop/database, shop/default-deny\n"])
    browser.run("change({ from: arguments[0], to: 'addresses' })", DATABASE)
    checks.same("what denies addresses", len(browser.texts("#detail .denied")), 2)


def check_isolation(browser, checks):
    write_many()
    make_page("many.html", "many.json")
    browser.open("many.html", "#from=a/p05[Pod]&to=a/p00[Pod]")
    checks.same("who isolates", browser.texts("#detail .isolation"), ["ingress of a/p00[Pod] : isolated by NetworkPolicy a/closed, a/shut\n"])
    said = np("explain", "--from", "a/p05[Pod]", "--to", "a/p00[Pod]", "many.json")
    checks.true("as np says", "Deny since isolated by NetworkPolicy a/closed, a/shut" in said)
    browser.run("change({ from: 'a/p05[Pod]', to: 'a/p06[Pod]' })")
    checks.same("no policy isolates", browser.texts("#detail .isolation"), [])


def check_new_pods(browser, checks):
    """The rows of a workload and a direction are all there, or none is."""
    browser.open("page.html", "#view=exposure")
    whole = [line.rstrip("\n") for line in np("exposure", "examples/shop.json").splitlines()]
    checks.same("all rows", ["%s => %s : %s" % tuple(row) for row in browser.rows()], whole)
    browser.run("change({ search: 'app In' })")
    found = ["%s => %s : %s" % tuple(row) for row in browser.rows()]
    received = [line for line in whole if line.split(" : ")[0].endswith(("=> " + API, "=> " + DATABASE))]
    checks.same("a search keeps whole tables", found, received)
    checks.true("with rows that deny", any(line.endswith("No Connections") for line in found))


def check_controller(browser, checks):
    plugin_page("unknown.html", "list.json", "page")
    browser.open("unknown.html")
    facts = browser.texts(".fact")
    checks.true("what is not known: %s" % facts, "Reached from addresses or Ingresses: 1 workload, and 1 where it is not known" in facts)
    browser.click(".facts a")
    line = subprocess.run([PLUGIN, "--list", "list.json", "caveats"], check=True, capture_output=True, text=True,
                          env=dict(os.environ, KUBECTL_NP_PROGRAM=NP)).stdout.strip()
    checks.same("behind what is reached", browser.texts("#view li"), [line])
    browser.run("change({ view: 'caveats' })")
    checks.same("the caveats", browser.texts("#view li"), [line])
    plugin_page("known.html", "list.json", "page", "--controller", "ingress-nginx/ctl[Pod]")
    browser.open("known.html")
    checks.true("the controller", "Ingress controller: ingress-nginx/ctl[Pod]" in browser.texts(".fact"))
    browser.click(".facts a")
    checks.true("through it", ["{ingress-controller}", "shop/web[Deployment]", "TCP 8080"] in browser.rows())
    browser.run("change({ from: '{ingress-controller}', to: 'shop/web[Deployment]' })")
    checks.same("through which rule", browser.texts("#detail .answer .rule"), ["TCP 8080 : Allow by NetworkPolicy shop/web ingress[0]\n"])


def check_caveat_of_a_cell(browser, checks):
    plugin_page("block.html", "block.json", "page")
    browser.open("block.html", "#from=shop/web[Pod]&to=shop/db[Pod]")
    checks.same("the caveat of a cell", [re.sub(":.*", "", line) for line in browser.texts("#detail li") if "ipblock" in line], ["NetworkPolicy shop/db", "NetworkPolicy shop/web"])
    browser.run("change({ from: 'shop/db[Pod]', to: 'shop/web[Pod]' })")
    checks.same("and of none the other way", [line for line in browser.texts("#detail li") if "ipblock" in line], [])


def main():
    checks = Checks()
    with Browser() as browser:
        for part in (check_every, check_isolation, check_new_pods, check_controller, check_caveat_of_a_cell):
            part(browser, checks)
        checks.same("complaints", browser.complaints(), [])
    checks.end()


main()
