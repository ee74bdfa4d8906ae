"""Two snapshots: what opened, what closed and what changed are the rows in which the tables of np differ."""
import json

from browser import Browser, Checks, make_page, rows_of

NOTHING = "No Connections"
CHANGES = """
    return Array.from(document.querySelectorAll('#view tbody tr'), row =>
        [row.querySelector('.sign').title].concat(Array.from(row.cells).slice(1).map(cell => cell.textContent)));
"""


def marked(name, before, after):
    """Workloads that stand in one snapshot alone are marked."""
    if "[" not in name or (name in before and name in after):
        return name
    return name + (" (gone)" if name in before else " (new)")


def wanted_changes(before, after):
    """The pair rows that differ, and those with addresses whose ranges are the same before and after."""
    tables = [{(row[0], row[1]): row[2] for row in table} for table in (before, after)]
    names = [{end for row in table for end in row[:2] if "[" in end} for table in (before, after)]
    found = []
    for ends in set(tables[0]) | set(tables[1]):
        old, new = (table.get(ends, NOTHING) for table in tables)
        if old != new and all("[" in end for end in ends):
            sort = "opened" if old == NOTHING else "closed" if new == NOTHING else "changed"
            found.append([sort, *(marked(end, *names) for end in ends), old, new])
    return sorted(found)


def check_equal(browser, checks):
    """Workloads that are equal before and after are one line, which counts as the rows that it stands for."""
    items = [{"apiVersion": "v1", "kind": "Pod", "metadata": {"name": name, "namespace": "a"}, "spec": {}} for name in "xyz"]
    shut = {"apiVersion": "networking.k8s.io/v1", "kind": "NetworkPolicy", "metadata": {"name": "shut", "namespace": "a"},
            "spec": {"podSelector": {}, "policyTypes": ["Ingress"]}}
    for path, listed in (("open.json", items), ("shut.json", items + [shut])):
        with open(path, "w", encoding="utf-8") as file:
            json.dump({"apiVersion": "v1", "kind": "List", "items": listed}, file)
    make_page("equal.html", "--before", "open.json", "shut.json")
    browser.open("equal.html", "#view=changes&sort=workloads")
    checks.same("equal workloads", browser.run(CHANGES), [["closed", "a/x[Pod] and 2 equal to it", "each other", "All Connections", NOTHING]])
    checks.same("their count", browser.texts("#view .count"), ["0 opened, 6 closed, 0 changed"])
    browser.click("#view tbody tr")
    checks.same("an opened line", browser.texts("#detail .rows code")[0], "a/x[Pod] => a/y[Pod] : No Connections")


def main():
    checks = Checks()
    with Browser() as browser:
        make_page("first.html", "--before", "examples/first.json", "examples/later.json")
        browser.open("first.html", "#view=changes")
        checks.same("one change", browser.run(CHANGES), [["changed", "default/a[Pod]", "default/b[Pod]", "TCP 80", "TCP 80,443"]])
        make_page("page.html", "--before=before.json", "--", "after.json")
        browser.open("page.html")
        browser.click(".facts a[href*='view=changes']")
        told = browser.run(CHANGES)
        checks.same("between workloads", sorted(change for change in told if all("[" in end for end in change[1:3])),
                    wanted_changes(rows_of("list", "before.json"), rows_of("list", "after.json")))
        checks.same("addresses that may send to web", [change for change in told if change[2] == "a/web[Pod]" and "[" not in change[1]],
                    [["changed", "addresses (IPv4)", "a/web[Pod]", "10.0.0.0/8 : TCP 80", "10.0.0.0/9 : TCP 80,443"]])
        checks.same("all IPv4 addresses to new", [change for change in told if change[2] == "a/new[Pod] (new)" and "." in change[1]],
                    [["opened", "0.0.0.0/0", "a/new[Pod] (new)", NOTHING, "All Connections"]])
        checks.same("the counts", browser.texts("#view .count")[0],
                    ", ".join("%d %s" % (sum(change[0] == sort for change in told), sort) for sort in ("opened", "closed", "changed")))
        browser.run("Array.from(document.querySelectorAll('#view tr')).find(row => row.textContent.includes('a/client[Pod]a/web[Pod]')).click()")
        checks.same("an opened change", browser.texts("#detail .rows code")[0], "a/client[Pod] => a/web[Pod] : TCP 80,443")
        browser.run("change({ search: 'gone' })")
        checks.same("search", {"gone" in change[1] + change[2] for change in browser.run(CHANGES)}, {True})
        check_equal(browser, checks)
        make_page("same.html", "--before", "after.json", "after.json")
        browser.open("same.html", "#view=changes")
        checks.same("the same twice", browser.texts("#view .hint"), ["Both snapshots have the same rows."])
        checks.same("complaints", browser.complaints(), [])
    checks.end()


main()
