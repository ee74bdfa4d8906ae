"""The shop as an auditor looks at it: each view, the filters, a cell that is opened, keys, links, print, light and dark."""
from browser import Browser, Checks, make_page, np

WEB, API, DATABASE = ("shop/%s[Deployment]" % name for name in ("web", "api", "database"))
RULE = "TCP 8080 : Allow by NetworkPolicy shop/web ingress[0]"
CELL = "app.matrix.rows[app.matrix.senders.findIndex(line => line.full === arguments[0])]" \
       ".cells[1 + app.matrix.receivers.findIndex(line => line.full === arguments[1])]"
DOWN, LEFT, ENTER, ESCAPE = "\ue015", "\ue012", "\ue007", "\ue00c"


def check_matrix(browser, checks):
    checks.same("the signs", browser.texts(".matrix-table tbody td"), list("·◐◐●" "····" "◐·◐●") + ["·", "·", "◐", ""] * 2)
    checks.same("nothing is open", browser.run("return document.getElementById('detail').hidden"), True)
    browser.run(CELL + ".click()", WEB, API)
    checks.same("an opened cell", browser.texts("#detail h2"), [WEB + " → " + API])
    checks.same("its row", browser.texts("#detail .rows code")[0], "%s => %s : TCP 8080" % (WEB, API))
    checks.same("its answer", browser.texts("#detail .answer")[0], np("explain", "--from", WEB, "--to", API, "examples/shop.json"))
    checks.same("the commands", browser.texts("#detail .command code"),
                ["./np explain --from '%s' --to '%s' examples/shop.json" % (WEB, API), "kubectl np explain --from '%s' --to '%s'" % (WEB, API)])
    checks.same("what new pods reach", browser.texts("#detail .rows code")[1:], [
        WEB + " => {any pod} : All Connections",
        "{namespace kubernetes.io/metadata.name In (shop) and pod app In (web)} => %s : TCP 8080" % API,
        "{namespace kubernetes.io/metadata.name In (shop)} => %s : No Connections" % API, "{any pod} => %s : No Connections" % API])
    browser.run("change({ from: '%s', to: '%s' })" % (WEB, DATABASE))
    checks.same("a cell without a row", browser.texts("#detail .rows code")[0], "%s => %s : No Connections" % (WEB, DATABASE))


def check_keys(browser, checks):
    browser.open("page.html")
    browser.run(CELL + ".focus()", API, API)
    browser.keys(DOWN + DOWN + ENTER)
    checks.same("arrows and Enter", browser.texts("#detail h2"), [WEB + " → " + API])
    checks.same("the cell in words", browser.run("return document.activeElement.title"), "%s => %s: some passes" % (WEB, API))
    browser.keys(ESCAPE)
    checks.same("Escape", browser.run("return document.getElementById('detail').hidden"), True)
    browser.keys("2")
    checks.same("the second view", browser.run("return document.body.dataset.view"), "list")
    browser.keys("/")
    browser.keys("database")
    checks.same("search", browser.rows(), [[API, DATABASE, "TCP 5432"]])
    checks.same("the link of a search", browser.run("return location.hash"), "#view=list&search=database")


def check_filters(browser, checks):
    def filtered(link):
        browser.open("page.html", "#view=list&" + link)
        return browser.rows()
    checks.same("a port", filtered("port=5432&sort=workloads"), [[API, DATABASE, "TCP 5432"]])
    checks.same("a protocol", {row[2] for row in filtered("protocol=UDP")}, {"All Connections"})
    checks.same("from anywhere", filtered("sort=fromAnywhere"), [["0.0.0.0/0", WEB, "TCP 8080"], ["::/0", WEB, "TCP 8080"]])
    checks.same("to anywhere", [row[:2] for row in filtered("sort=toAnywhere")], [[end, range] for end in (API, WEB) for range in ("0.0.0.0/0", "::/0")])
    checks.same("addresses", len(filtered("sort=addresses&passing=no")), 6)
    checks.same("another namespace", filtered("namespace=none"), [])
    browser.click("#reset")
    checks.same("reset", len(browser.rows()), 11)


def check_picture(browser, checks):
    browser.open("page.html", "#focus=" + API)
    checks.same("a link to a workload", browser.run("return document.body.dataset.view"), "graph")
    boxes = [["shop/web[Deployment]", "TCP 8080"], [DATABASE, "TCP 5432"], [WEB, "TCP 8080"], ["0.0.0.0/0", "All Connections"], ["::/0", "All Connections"]]
    checks.same("the picture", browser.run("return Array.from(document.querySelectorAll('svg .box'), box => Array.from(box.querySelectorAll('text'), text => text.textContent))"), boxes)
    browser.run("document.querySelector('svg .box').dispatchEvent(new MouseEvent('dblclick'))")
    checks.same("the picture of a neighbour", browser.run("return app.state.focus"), WEB)


def check_auditor(browser, checks):
    """Which workloads can the internet reach, and through which rule: two clicks."""
    browser.open("page.html")
    browser.click(".facts a")
    checks.same("what the internet reaches", browser.rows(), [[end, WEB, "TCP 8080"] for end in ("0.0.0.0/0", "::/0", "{ingress-controller}")])
    browser.click("#view tbody tr")
    checks.same("through which rule", browser.texts("#detail .answer .rule"), [RULE + "\n"])
    link = browser.run("return location.hash")
    browser.open("page.html", link)
    checks.same("a link keeps it", browser.texts("#detail .answer .rule"), [RULE + "\n"])


def check_media(browser, checks):
    def style(selector, name):
        return browser.run("return getComputedStyle(document.querySelector(arguments[0]))[arguments[1]]", selector, name)
    browser.devtools("Emulation.setEmulatedMedia", {"media": "print"})
    checks.same("print", [style(".toolbar", "display"), style("#view", "display")], ["none", "block"])
    for scheme, colour in (("light", "rgb(255, 255, 255)"), ("dark", "rgb(18, 22, 28)")):
        browser.devtools("Emulation.setEmulatedMedia", {"media": "screen", "features": [{"name": "prefers-color-scheme", "value": scheme}]})
        checks.same(scheme, style("body", "backgroundColor"), colour)


def check_refused(browser, checks):
    make_page("refused.html", "patterns.json")
    browser.open("refused.html", "#view=exposure")
    checks.same("exposure that np refuses", browser.texts("#view .hint"),
                ["np does not show what new pods would reach here: error: TooManyPatterns default/a[Pod] ingress: 131072"])
    browser.run("change({ view: 'list', passing: false })")
    checks.same("and the rest", len(browser.rows()), len(np("list", "patterns.json").splitlines()))


def main():
    checks = Checks()
    make_page("page.html", "examples/shop.json")
    with Browser() as browser:
        browser.open("page.html")
        for part in (check_matrix, check_keys, check_filters, check_picture, check_auditor, check_media, check_refused):
            part(browser, checks)
        checks.same("what was loaded besides", browser.run("return performance.getEntriesByType('resource').map(entry => entry.name)"), [])
        checks.same("complaints", browser.complaints(), [])
    checks.end()


main()
