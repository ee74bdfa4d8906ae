"""The room that there is: a matrix takes the width that it needs, long names are cut in their middle, and all of it can be made larger. The
picture of the whole cluster, which is saved as a file of its own, and what one policy does."""
import json
import xml.dom.minidom
from pathlib import Path

from browser import Browser, Checks, make_page, np

SPACES, WORKLOADS = 3, 12
NAMESPACE, NAME = "payments-and-settlement-services-%d", "reconciliation-of-incoming-transactions-%02d"
WEB, API, DATABASE = ("shop/%s[Deployment]" % name for name in ("web", "api", "database"))
BOXES = "return Array.from(document.querySelectorAll(arguments[0]), made => made.getBoundingClientRect()).map(box => [box.left, box.right])"


def resize(browser, width, height=900):
    browser.devtools("Emulation.setDeviceMetricsOverride", {"width": width, "height": height, "deviceScaleFactor": 1, "mobile": False})


def items():
    for space in range(SPACES):
        for place in range(WORKLOADS):
            meta = {"name": NAME % place, "namespace": NAMESPACE % space, "labels": {"app": NAME % place}}
            yield {"apiVersion": "v1", "kind": "Pod", "metadata": meta, "spec": {}}
            peer = {"podSelector": {"matchLabels": {"app": NAME % ((place + 1) % WORKLOADS)}}}
            yield {"apiVersion": "networking.k8s.io/v1", "kind": "NetworkPolicy", "metadata": {"name": NAME % place, "namespace": NAMESPACE % space},
                   "spec": {"podSelector": {"matchLabels": meta["labels"]}, "ingress": [{"from": [peer], "ports": [{"port": 8000 + place}]}]}}


def check_width(browser, checks):
    """Where the matrix scrolls, what stands beside it is no wider than it needs; where it does not, the rest is the list's."""
    for width in (1400, 2200):
        resize(browser, width)
        browser.open("large.html")
        (_, right), (begin, end) = browser.run(BOXES, ".matrix .scroll")[0], browser.run(BOXES, "#side")[0]
        is_cut = browser.run("const made = document.querySelector('.matrix .scroll'); return made.scrollWidth > made.clientWidth")
        checks.true("%d pixels: the matrix ends at %d, the list at %d" % (width, right, end), end > width - 60 and begin - right < 40)
        checks.true("%d pixels: %d for the list" % (width, end - begin), end - begin < 480 if is_cut else True)
        checks.true("%d pixels: the page is no wider than the window" % width, browser.run("return document.documentElement.scrollWidth <= innerWidth"))
    checks.same("it scrolls at 2,200 pixels", is_cut, False)
    resize(browser, 390)
    browser.open("large.html")
    checks.true("at 390 the page is no wider than the window", browser.run("return document.documentElement.scrollWidth <= innerWidth"))


def check_names(browser, checks):
    resize(browser, 1400)
    browser.open("large.html")
    names = browser.texts(".matrix-table tbody th .name")
    checks.true("names are told apart: %s" % names[0], len(set(names[:WORKLOADS])) == WORKLOADS and all("…" in name for name in names))
    checks.same("the names in whole", browser.run("return Array.from(document.querySelectorAll('.matrix-table tbody th[scope=row]:not(.outside)'), made => made.title)")[:len(names)],
                browser.run("return app.table.names"))
    before = browser.run(BOXES, ".matrix-table td")[0]
    browser.click("button[aria-label=Larger]")
    after = browser.run(BOXES, ".matrix-table td")[0]
    checks.true("larger: %s %s" % (before, after), after[1] - after[0] > 1.15 * (before[1] - before[0]))
    checks.same("in the link", browser.run("return location.hash"), "#view=matrix&zoom=125")
    checks.same("who presses it again can", browser.run("return document.activeElement.getAttribute('aria-label')"), "Larger")


def check_whole(browser, checks):
    """A line for each cell in which something passes, from its line at the left to its column at the right."""
    browser.open("page.html", "#view=overview")
    found = browser.run("return Array.from(document.querySelectorAll('.overview .line'), made => [made.querySelector('title').textContent, made.getAttribute('class')])")
    wanted = []
    for a, b, level in ((API, DATABASE, "some"), (API, WEB, "some"), (API, "addresses", "all"), (WEB, API, "some"), (WEB, WEB, "some"),
                        (WEB, "addresses", "all"), ("addresses", WEB, "some"), ("{ingress-controller}", WEB, "some")):
        wanted.append(["%s => %s: %s passes" % (a, b, {"all": "everything", "some": "some"}[level]), "line " + level])
    checks.same("the lines", found, wanted)
    browser.run("document.querySelector('.overview .box').focus()")
    checks.same("those of one workload", len(browser.texts(".line.lit")), 3)
    browser.run("document.querySelector('.overview .line').dispatchEvent(new MouseEvent('click', { bubbles: true }))")
    checks.same("a line that is opened", browser.texts("#detail h2"), [API + " → " + DATABASE])


def check_saved(browser, checks, link, nodes):
    """What is saved is a picture by itself: well-formed, with its style, and with what it is of."""
    browser.open("page.html", link)
    browser.run("window.saved = []; URL.createObjectURL = blob => { blob.text().then(text => window.saved.push(text)); return '#' }")
    browser.run("HTMLAnchorElement.prototype.click = function() { window.saved.push(this.download); }")
    browser.run("for (const made of document.querySelectorAll('#view .copy')) if (made.textContent === 'Save as SVG') made.click()")
    name, text = browser.run("return new Promise(resolve => setTimeout(() => resolve(window.saved), 200))")
    picture = xml.dom.minidom.parseString(text).documentElement
    checks.same("the file", [name, picture.tagName, picture.namespaceURI], ["np.svg" if "overview" in link else "shop-api-Deployment-.svg", "svg", "http://www.w3.org/2000/svg"])
    checks.same("its names", sorted({node.data for made in picture.getElementsByTagName("text") for node in made.childNodes if node.nodeType == node.TEXT_NODE} & set(nodes)), sorted(nodes))
    checks.true("its style and what it is of", picture.getElementsByTagName("style") and " by np " in picture.getElementsByTagName("desc")[0].firstChild.data)
    Path("picture.html").write_text(text, encoding="utf-8")


def check_policy(browser, checks):
    browser.open("page.html", "#view=policies&policy=NetworkPolicy shop/web")
    checks.same("the policies", browser.texts("#policy option"), ["NetworkPolicy shop/" + name for name in ("api", "database", "default-deny", "web")])
    checks.same("whom it isolates", browser.texts("#view li")[:1], ["ingress of " + WEB])
    rows = browser.rows()
    checks.same("what its rule allows", rows, [[API, WEB, "TCP 8080"], [WEB, WEB, "TCP 8080"], ["0.0.0.0/0", WEB, "TCP 8080"], ["::/0", WEB, "TCP 8080"], [DATABASE, WEB, "TCP 8080"]])
    for source, destination, _ in rows:
        said = np("explain", "--from", source.split("/0")[0], "--to", destination, "examples/shop.json")
        checks.true("as np says of " + source, "TCP 8080 : Allow by NetworkPolicy shop/web ingress[0]\n" in said)
    browser.run("change({ policy: 'NetworkPolicy shop/default-deny' })")
    checks.same("one that only isolates", browser.texts("#view li"), ["ingress of " + name for name in (API, DATABASE, WEB)])
    unused = np("unused", "examples/shop.json").splitlines()
    browser.run("change({ policy: arguments[0] })", " ".join(unused[0].split()[:2]))
    checks.same("its rules that decide nothing", browser.texts("#view li")[-1:], unused)


def main():
    checks = Checks()
    with open("large.json", "w", encoding="utf-8") as file:
        json.dump({"apiVersion": "v1", "kind": "List", "items": list(items())}, file)
    make_page("large.html", "large.json")
    make_page("page.html", "examples/shop.json")
    with Browser() as browser:
        check_width(browser, checks)
        check_names(browser, checks)
        check_whole(browser, checks)
        check_saved(browser, checks, "#view=overview", ["api", "database", "web", "addresses", "{ingress-controller}"])
        check_saved(browser, checks, "#focus=" + API, [API, WEB, DATABASE])
        check_policy(browser, checks)
        checks.same("complaints", browser.complaints(), [])
    checks.end()


main()
