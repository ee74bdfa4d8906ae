"""The picture of the whole cluster in np.html: a line wherever np says that something passes, by namespace, as wide as the window; and the
file that it is saved as, which a browser shows by itself."""
import json
import os
import time
import xml.dom.minidom
from pathlib import Path

from ask_browser import PATIENCE, asking, await_true, show
from browser import Checks, rows_of

EVERYTHING, NOTHING = "All Connections", "No Connections"
BOXES = """return Array.from(document.querySelectorAll('.overview .box rect'), made => made.getBoundingClientRect()).map(box => [box.left, box.right])"""
LINES = """return Array.from(document.querySelectorAll('.overview .line'), made => [made.querySelector('title').textContent, made.getAttribute('class')])"""


def end(name):
    """The name of an end in the picture, in which all addresses are one."""
    return name if "[" in name or name.startswith("{") else "addresses"


def wanted_lines(path):
    """What np says of each pair of ends, as a line says it: everything passes, or some does."""
    found = {}
    for source, destination, connections in rows_of("list", path):
        found.setdefault((end(source), end(destination)), []).append(connections)
    passing = {pair: all(each == EVERYTHING for each in rows) for pair, rows in found.items() if any(each != NOTHING for each in rows)}
    return sorted(["%s => %s: %s passes" % (*pair, "everything" if whole else "some"), "line all" if whole else "line some"]
                  for pair, whole in passing.items())


def resize(browser, width):
    browser.devtools("Emulation.setDeviceMetricsOverride", {"width": width, "height": 900, "deviceScaleFactor": 1, "mobile": False})
    await_true(browser, "Math.abs(innerWidth - %d) < 30" % width)


def check_widths(browser, checks):
    """The picture is drawn anew where the window gets another width."""
    for width, least in ((2200, 2000), (390, 300), (1400, 1200)):
        resize(browser, width)
        await_true(browser, "Math.abs(document.querySelector('.overview svg').clientWidth - innerWidth) < 80")
        boxes = browser.run(BOXES)
        left, right = min(box[0] for box in boxes), max(box[1] for box in boxes)
        checks.true("at %d pixels it goes from %d to %d" % (width, left, right), left >= 0 and right <= width and right - left >= least)
        checks.true("at %d pixels the page is no wider than the window" % width,
                    browser.run("return document.documentElement.scrollWidth <= innerWidth"))


def saved(browser):
    """The text of the file that the picture is saved as."""
    browser.devtools("Browser.setDownloadBehavior", {"behavior": "allow", "downloadPath": os.getcwd()})
    browser.run("for (const made of document.querySelectorAll('#view .copy')) if (made.textContent === 'Save as SVG') made.click()")
    given_up = time.time() + PATIENCE
    while not Path("np.svg").exists() and time.time() < given_up:
        time.sleep(0.05)
    return Path("np.svg").read_text(encoding="utf-8")


def check_saved(browser, checks):
    text = saved(browser)
    picture = xml.dom.minidom.parseString(text).documentElement
    texts = {"".join(node.data for node in made.childNodes if node.nodeType == node.TEXT_NODE) for made in picture.getElementsByTagName("text")}
    checks.same("the names in the file", texts, {"Who sends", "Who receives", "blue", "monitoring", "red", "outside", "api", "prometheus", "addresses"})
    checks.same("what it is of", picture.getElementsByTagName("desc")[0].firstChild.data.split(" ")[0], "tenants.json")
    checks.same("lines", text.count('<path class="line '), len(wanted_lines("examples/tenants.json")))
    Path("picture.html").write_text("<!DOCTYPE html><title>np.svg</title>" + text, encoding="utf-8")
    browser.open("picture.html")
    size = browser.run("const made = document.querySelector('svg'), box = made.getBBox(), view = made.viewBox.baseVal; return [box.width, view.width, box.height, view.height]")
    checks.true("the file shows all of it: %s" % size, size[0] <= size[1] and size[2] <= size[3])
    checks.same("in its own colours", browser.run("return getComputedStyle(document.querySelector('.line.all')).stroke"), "rgb(29, 95, 174)")


def large():
    """Eighty namespaces of three workloads, more than are shown one by one: each lets in the one before it of its namespace."""
    for space, place in ((space, place) for space in range(80) for place in range(3)):
        meta = {"name": "p%d" % place, "namespace": "team-%02d" % space, "labels": {"app": "p%d" % place}}
        yield {"apiVersion": "v1", "kind": "Pod", "metadata": meta, "spec": {}}
        peer = {"podSelector": {"matchLabels": {"app": "p%d" % (place - 1)}}}
        yield {"apiVersion": "networking.k8s.io/v1", "kind": "NetworkPolicy", "metadata": {"name": meta["name"], "namespace": meta["namespace"]},
               "spec": {"podSelector": {"matchLabels": meta["labels"]}, "ingress": [{"from": [peer]}]}}


def check_large(browser, checks):
    """Each namespace is one line, which opens."""
    Path("large.json").write_text(json.dumps({"apiVersion": "v1", "kind": "List", "items": list(large())}), encoding="utf-8")
    browser.run("inputs.now.length = 0")
    show(browser, "now", "large.json")
    checks.same("the senders", browser.run("return app.matrix.senders.map(line => line.label)"), ["team-%02d" % place for place in range(80)] + ["addresses"])
    checks.same("a line within each, and one to addresses", len(browser.texts(".overview .line")), 160)
    browser.run("document.querySelector('.overview .box').dispatchEvent(new MouseEvent('click', { bubbles: true }))")
    checks.same("one that is opened", browser.texts(".overview .side-text title"), ["team-00", "outside"] * 2)


def main():
    checks = Checks()
    with asking() as browser:
        for path in ("examples/shop.json", "examples/tenants.json"):
            browser.run("inputs.now.length = 0")
            show(browser, "now", path)
            browser.run("change({ view: 'overview' })")
            checks.same("the lines of " + path, sorted(browser.run(LINES)), wanted_lines(path))
        check_widths(browser, checks)
        check_large(browser, checks)
        browser.run("inputs.now.length = 0")
        show(browser, "now", "examples/tenants.json")
        check_saved(browser, checks)
        checks.same("complaints", browser.complaints(), [])
    checks.end()


main()
