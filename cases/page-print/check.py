"""A matrix that is wider and longer than a sheet of paper: its parts are all of it, each fits on a sheet, and each says of which lines and
columns, of what, when and by which np it is."""
import base64
import json
import os
import re

from browser import Browser, Checks, make_page

SPACES, WORKLOADS = 4, 14
NAMESPACE, NAME = "payments-and-settlement-services-%d", "reconciliation-of-incoming-transactions-%02d"
# A sheet of A4 on its side, and of Letter, without the margins of 10 mm, in pixels.
WIDTH, HEIGHT = 980, 718
SHEET = """
    return Array.from(document.querySelectorAll('.sheet'), sheet => ({
        width: sheet.scrollWidth, height: sheet.offsetHeight, running: sheet.querySelector('.running').textContent,
        caption: sheet.querySelector('caption') && sheet.querySelector('caption').textContent,
        columns: Array.from(sheet.querySelectorAll('thead th[scope]'), head => head.textContent),
        lines: Array.from(sheet.querySelectorAll('tbody tr'), row => row.querySelector('th').textContent),
        cells: Array.from(sheet.querySelectorAll('tbody tr'), row => Array.from(row.querySelectorAll('td'), cell => cell.textContent)),
        names: Array.from(sheet.querySelectorAll('.names li'), item => item.textContent),
    }));
"""


def items():
    for space in range(SPACES):
        for place in range(WORKLOADS):
            meta = {"name": NAME % place, "namespace": NAMESPACE % space, "labels": {"app": NAME % place}}
            yield {"apiVersion": "v1", "kind": "Pod", "metadata": meta, "spec": {}}
            peer = {"podSelector": {"matchLabels": {"app": NAME % ((place + 1) % WORKLOADS)}}}
            yield {"apiVersion": "networking.k8s.io/v1", "kind": "NetworkPolicy", "metadata": {"name": NAME % place, "namespace": NAMESPACE % space},
                   "spec": {"podSelector": {"matchLabels": meta["labels"]}, "ingress": [{"from": [peer], "ports": [{"port": 8000 + place}]}]}}


def check_sheets(browser, checks, sheets):
    """The parts, laid side by side and below each other, are the matrix."""
    size = browser.run("return [app.matrix.senders.length, app.matrix.receivers.length]")
    places = [list(map(int, re.search(r"lines (\d+) to (\d+) of (\d+), columns (\d+) to (\d+) of (\d+)", sheet["caption"]).groups())) for sheet in sheets]
    found = [[None] * size[1] for _ in range(size[0])]
    for sheet, (first, last, lines, left, right, columns) in zip(sheets, places):
        checks.same("the sizes that are told", ([lines, columns], [len(sheet["lines"]), len(sheet["columns"])]), (size, [last - first + 1, right - left + 1]))
        for line, cells in zip(range(first - 1, last), sheet["cells"]):
            found[line][left - 1:right] = cells
    checks.same("the cells", found, browser.run("return app.matrix.rows.map(row => Array.from(row.cells).slice(1).map(cell => cell.textContent))"))
    numbers = sorted({int(name.split()[0]) for sheet in sheets for name in sheet["lines"] + sheet["columns"]})
    checks.same("the numbers of the names", numbers, list(range(1, size[0] + 1)))


def main():
    checks = Checks()
    with open("large.json", "w", encoding="utf-8") as file:
        json.dump({"apiVersion": "v1", "kind": "List", "items": list(items())}, file)
    os.environ["SOURCE_DATE_EPOCH"] = "1000000000"
    make_page("page.html", "--title", "All of it", "large.json")
    with open(os.environ["ROOT"] + "/VERSION", encoding="utf-8") as file:
        version = file.read().strip()
    with Browser() as browser:
        browser.open("page.html")
        browser.devtools("Emulation.setDeviceMetricsOverride", {"width": WIDTH, "height": HEIGHT, "deviceScaleFactor": 1, "mobile": False})
        browser.devtools("Emulation.setEmulatedMedia", {"media": "print"})
        browser.run("window.dispatchEvent(new Event('beforeprint'))")
        sheets = browser.run(SHEET)
        whole = [sheet for sheet in sheets if sheet["caption"]]
        checks.same("sheets", len(whole), 6)
        check_sheets(browser, checks, whole)
        wide = [(sheet["width"], sheet["height"]) for sheet in whole if sheet["width"] > WIDTH or sheet["height"] > HEIGHT]
        checks.same("sheets that are too large", wide, [])
        said = "All of it · large.json · made 2001-09-09 01:46 UTC by np " + version
        checks.same("what each says", {sheet["running"] for sheet in sheets}, {said})
        checks.same("the names that are cut, in whole", [name.split()[1] for name in sheets[-1]["names"]], browser.run("return app.table.names"))
        checks.same("and each list", browser.texts("#beside thead .running"), [said])
        checks.same("what is hidden", browser.run("return ['.toolbar', '.matrix .scroll', 'nav'].map(name => getComputedStyle(document.querySelector(name)).display)"), ["none"] * 3)
        browser.devtools("Emulation.setEmulatedMedia", {"media": ""})
        browser.open("page.html", "#search=-01")
        checks.same("no sheet before it is printed", browser.texts(".sheet"), [])
        pages = base64.b64decode(browser.devtools("Page.printToPDF", {"preferCSSPageSize": True})["data"])
        checks.true("pages of paper", len(re.findall(rb"/Type\s*/Page\b", pages)) >= 3)
        checks.true("the filter", browser.texts(".sheet .running")[0].endswith(" · filter: -01"))
        checks.same("complaints", browser.complaints(), [])
    checks.end()


main()
