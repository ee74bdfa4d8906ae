"""Each view of a page, with and without a row that is open, light and dark, on a wide window and on a phone, by the checks of WCAG 2.2 that
page/wcag.py has; and that these find what is wrong."""
from browser import Browser, Checks, make_page
from wcag import faults, focus_faults

WEB, API, DATABASE = ("shop/%s[Deployment]" % name for name in ("web", "api", "database"))
TAB, BACK = "\ue004", "\ue008"
WIDTHS = (320, 1400)
WRONG = """
    document.querySelector('#view').append(Object.assign(document.createElement('button'), { className: 'bad' }));
    const bad = document.querySelector('.bad');
    bad.style.cssText = 'width: 10px; min-width: 0; min-height: 0; height: 10px; padding: 0';
    const table = document.createElement('table');
    table.innerHTML = '<tr><td>x</td></tr>';
    table.style.color = '#999';
    table.style.background = '#fff';
    document.querySelector('#view').append(table);
    document.querySelector('.matrix-table td').removeAttribute('aria-label');
"""


def look(browser, checks, page, views):
    """All views, in each of the ways."""
    for scheme in ("light", "dark"):
        browser.devtools("Emulation.setEmulatedMedia", {"media": "screen", "features": [{"name": "prefers-color-scheme", "value": scheme}]})
        for width in WIDTHS:
            browser.devtools("Emulation.setDeviceMetricsOverride", {"width": width, "height": 800, "deviceScaleFactor": 1, "mobile": False})
            for view in views:
                browser.open(page, "#" + view)
                checks.same("%s, %s, %d wide, %s" % (page, scheme, width, view), faults(browser), [])


def check_labels(browser, checks):
    """A cell says in words what it is, before anybody points at it."""
    browser.open("page.html")
    label = browser.run("return app.matrix.rows[0].cells[2].getAttribute('aria-label')")
    checks.same("a cell", label, "%s => %s: some passes" % (API, DATABASE))


def check_focus(browser, checks):
    browser.devtools("Emulation.setDeviceMetricsOverride", {"width": 1400, "height": 500, "deviceScaleFactor": 1, "mobile": False})
    browser.open("page.html", "#view=list&passing=no")
    checks.same("forth by Tab", focus_faults(browser, TAB, 32), [])
    browser.run("scrollTo(0, document.body.scrollHeight)")
    checks.same("and back", focus_faults(browser, BACK + TAB, 10), [])


def check_finds(browser, checks):
    """The checks see what is wrong."""
    browser.open("page.html")
    browser.run(WRONG)
    found = {fault.split(" ")[0] for fault in faults(browser)}
    checks.same("what is wrong is seen", found, {"1.3.1", "1.4.3", "2.5.8", "4.1.2"})


def main():
    checks = Checks()
    make_page("page.html", "examples/shop.json")
    make_page("changes.html", "--before", "examples/reached.json", "examples/reached-later.json")
    views = ["view=" + name for name in ("matrix", "list", "overview", "exposure", "policies", "unused")]
    opened = "&from=%s&to=%s" % (WEB, API)
    with Browser() as browser:
        look(browser, checks, "page.html", views + ["focus=" + API, "view=matrix" + opened, "view=list" + opened, "view=list&search=nothing", "zoom=200"])
        look(browser, checks, "changes.html", ["view=changes", "view=matrix&from=addresses&to=shop/office[Deployment]"])
        for part in (check_labels, check_focus, check_finds):
            part(browser, checks)
        checks.same("complaints", browser.complaints(), [])
    checks.end()


main()
