"""What the page shows of each example is what np says of it, read back out of the page by the browser."""
import glob
import os

from browser import Browser, Checks, make_page, np, rows_of

LEVELS = {"·": "none", "◐": "some", "●": "all"}
CELLS = """
    return app.matrix.senders.flatMap((from, r) => app.matrix.receivers.map((to, c) =>
        [from.full, to.full, app.matrix.rows[r].cells[c + 1].textContent]));
"""


def level(found):
    """The level of a cell by the connections of its rows."""
    if not found or all(text == "No Connections" for text in found):
        return "none"
    return "all" if all(text == "All Connections" for text in found) else "some"


def wanted_cell(table, source, destination):
    """A cell between workloads, or between one and addresses, or the controller."""
    def fits(end, name):
        if end == "addresses":
            return "[" not in name and not name.startswith("{")
        return name in (end, end + " (IPv4)", end + " (IPv6)")
    found = [row for row in table if fits(source, row[0]) and fits(destination, row[1])]
    if any(row[1].endswith((" (IPv4)", " (IPv6)")) for row in found):
        return "some"
    return level([row[2] for row in found])


def check_example(browser, checks, path):
    name = os.path.basename(path)
    make_page("page.html", path)
    table = rows_of("list", path)
    browser.open("page.html", "#view=list&passing=no&joined=no&cidrs=yes")
    checks.same(name + ": rows", browser.rows(), table)
    checks.same(name + ": CSV", browser.run("return listCsv(app)"), np("list", "--format", "csv", path))
    browser.run("change({ view: 'exposure' })")
    checks.same(name + ": exposure", browser.rows(), rows_of("exposure", path))
    browser.run("change({ view: 'unused' })")
    checks.same(name + ": unused rules", browser.texts("#view li"), np("unused", path).splitlines())
    browser.run("change({ view: 'matrix' })")
    for source, destination, sign in browser.run(CELLS) if table else []:
        if source != "{ingress-controller}" or destination != "addresses":
            if source != destination or source != "addresses":
                checks.same("%s: cell %s, %s" % (name, source, destination), LEVELS.get(sign), wanted_cell(table, source, destination))
    check_explained(browser, checks, name, path)
    checks.same(name + ": complaints", browser.complaints(), [])


def check_explained(browser, checks, name, path):
    """The answers that stand in the page are those of np explain, and its command is the one that gives them."""
    for ends, answer in browser.run("return Array.from(app.explained)"):
        source, destination = ends.split(" ")
        checks.same("%s: explain %s" % (name, ends), answer, np("explain", "--from", source, "--to", destination, path).splitlines())
    checks.same(name + ": the command", browser.run("return explainCommands('a/b[Pod]', '::')"),
                ["./np explain --from 'a/b[Pod]' --to :: " + path, "kubectl np explain --from 'a/b[Pod]' --to ::"])


def main():
    checks = Checks()
    with Browser() as browser:
        for path in sorted(glob.glob("examples/*.json")):
            check_example(browser, checks, path)
    checks.end()


main()
