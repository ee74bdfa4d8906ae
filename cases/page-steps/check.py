"""A walk through the page: ranges stand by the ends that np gives them, who is looked at is shown though others equal it, Back goes back, and
a filter is there where it filters."""
import json
import random

from browser import Browser, Checks, make_page, np, rows_of

API = "shop/api[Deployment]"
BLOCKS = ["0.0.0.0/1", "10.1.2.0/23", "203.0.113.7/32", "255.255.255.254/31", "::/127", "fd00::/8", "2001:db8::/33", "2001:db8:0:1::/64", "ffff::/16",
          "1:0:0:2::/63", "::ffff:0:0/97", "1:2:3:4:5:6:7:8/128"]
FILTERS = "return Array.from(document.querySelectorAll('[data-filter]'), made => made.hidden ? '' : made.dataset.filter).filter(Boolean)"


def write_list(chance):
    """Equal workloads, and blocks of addresses with others taken out of them, some by chance."""
    pods = [{"apiVersion": "v1", "kind": "Pod", "metadata": {"name": name, "namespace": "shop", "labels": {"app": "all"}}, "spec": {}} for name in ("api", "cache", "web")]
    blocks = BLOCKS + ["%x:%x::%x:0/%d" % (chance.randrange(1 << 16), chance.randrange(3), chance.randrange(3), length) for length in (48, 81, 95, 111)]
    peers = [{"ipBlock": {"cidr": block}} for block in blocks if block.split("/")[1] not in ("81", "95", "111", "48")]
    for block in blocks[len(BLOCKS):]:
        groups = [int(group, 16) for group in block.split("/")[0].replace("::", ":0:0:0:0:0:").split(":")][:8]
        number, length = sum(group << (112 - 16 * place) for place, group in enumerate(groups)), int(block.split("/")[1])
        number = number >> (128 - length) << (128 - length)
        peers.append({"ipBlock": {"cidr": ":".join("%x" % (number >> (112 - 16 * place) & 0xffff) for place in range(8)) + "/%d" % length}})
    policy = {"apiVersion": "networking.k8s.io/v1", "kind": "NetworkPolicy", "metadata": {"name": "own", "namespace": "shop"},
              "spec": {"podSelector": {}, "ingress": [{"from": [peer], "ports": [{"port": 8000 + place}]} for place, peer in enumerate(peers)] + [{"from": [{"podSelector": {}}]}]}}
    with open("list.json", "w", encoding="utf-8") as file:
        json.dump({"apiVersion": "v1", "kind": "List", "items": pods + [policy]}, file)


def check_ranges(browser, checks):
    browser.open("page.html", "#view=list&sort=reach&joined=no&passing=no")
    wanted = [line.split(" => ")[0] for line in np("list", "--report", "1", "list.json").splitlines() if " => shop" in line and "[" not in line.split(" => ")[0]]
    blocks = [row[0] for row in rows_of("list", "list.json") if "[" not in row[0]]
    checks.same("as np writes their ends", [browser.run("return rangeEnds(arguments[0])", block) if "-" in ends else block.split("/")[0] for block, ends in zip(blocks, wanted)], wanted)
    checks.same("what is shown", [row[0] for row in browser.rows()], [ends if "," in block else block for block, ends in zip(blocks, wanted)])
    checks.true("there are some of each family", sum("," in block for block in blocks if ":" in block) > 5 and sum("," in block for block in blocks if ":" not in block) > 2)
    browser.run("change({ search: arguments[0] })", next(ends for block, ends in zip(blocks, wanted) if "," in block))
    checks.same("what is shown can be searched", len(browser.rows()), 3)
    browser.run("change({ search: '', cidrs: true })")
    checks.same("by their blocks", [row[0] for row in browser.rows()], blocks)


def check_focus(browser, checks):
    browser.open("page.html", "#view=list")
    checks.true("one line for all", browser.run("return app.table.groups.length") == 1 and "and 2 equal" in browser.rows()[0][0])
    browser.open("page.html", "#view=list&focus=shop/web[Pod]&sort=workloads")
    rest = "shop/api[Pod] and 1 equal to it"
    checks.same("who is looked at", browser.rows(), [["shop/web[Pod]", rest, "All Connections"], [rest, "shop/web[Pod]", "All Connections"]])
    checks.same("and in the matrix", browser.run("change({ view: 'matrix' }); return app.matrix.senders.map(line => line.full)"), ["shop/web[Pod]", rest, "addresses"])
    browser.run("change({ view: 'list' })")
    checks.same("of np's rows", browser.texts("#view .count"), ["2 lines, which are 4 rows of np"])


def check_back(browser, checks):
    """Each step is a place to go back to; the letters of a search together are one."""
    state = "return [app.state.view, app.state.search, app.state.from]"
    browser.open("shop.html")
    browser.click("button[data-view=list]")
    browser.keys("web", "#filter-search")
    browser.click("#view tbody tr")
    opened = browser.run(state)
    found = [opened]
    for _ in range(3):
        browser.of_session("POST", "back", {})
        found.append(browser.run(state))
    checks.same("back", found, [["list", "web", API], ["list", "web", ""], ["list", "", ""], ["matrix", "", ""]])
    browser.of_session("POST", "forward", {})
    checks.same("and forth", browser.run(state), ["list", "", ""])
    checks.same("what is shown", browser.run("return [document.body.dataset.view, document.getElementById('filter-search').value]"), ["list", ""])


def check_filters(browser, checks):
    """A filter that is there leaves something out of its view."""
    browser.open("shop.html")
    which = ["search", "namespace", "protocol", "port"]
    wanted = {"list": ["search", "namespace", "sort", "protocol", "port", "passing", "focus"], "overview": which, "exposure": which + ["focus"], "policies": [], "unused": ["search"]}
    for view, names in wanted.items():
        browser.run("change({ view: arguments[0] })", view)
        checks.same("the filters of " + view, browser.run(FILTERS), names)
    browser.run("change({ view: 'graph', focus: arguments[0], protocol: 'TCP', port: '5432' })", API)
    checks.same("a picture is filtered", browser.texts("svg .box .passes"), ["TCP 5432", "All Connections", "All Connections"])


def main():
    checks = Checks()
    write_list(random.Random(7))
    make_page("page.html", "list.json")
    make_page("shop.html", "examples/shop.json")
    with Browser() as browser:
        for part in (check_ranges, check_focus, check_back, check_filters):
            part(browser, checks)
        checks.same("complaints", browser.complaints(), [])
    checks.end()


main()
