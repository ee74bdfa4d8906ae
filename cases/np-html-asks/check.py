"""np.html, as somebody without a terminal uses it: lists that are dropped, each command asked, a list that np refuses, and too little
memory. What it answers is what np prints."""
import json
import re
import shlex
import subprocess
from pathlib import Path

from ask_browser import answer, asking, await_true, refusal, show
from browser import NP, Checks

SHOP = "examples/shop.json"
WEB, API, DATABASE = ("shop/%s[Deployment]" % name for name in ("web", "api", "database"))
STATEMENTS = "deny any address => any pod : TCP 22\ndeny any pod => any pod : TCP 5432\n"
ASKED = [
    ("evaluate", "shop/web-84d5c7b6fd-6rmp4", "192.0.2.1", "TCP", "443"),
    ("evaluate", "none", "192.0.2.1", "TCP", "443"),
    ("explain", WEB, DATABASE),
    ("explain", "192.0.2.1", WEB),
    ("check", STATEMENTS),
    ("exposure", API),
    ("exposure", ""),
    ("list", WEB, "to", "csv", "1", API),
    ("unused",),
    ("flatten",),
    ("sample", "35"),
    ("sample", "0"),
]


def from_terminal(line):
    """What np answers to the line that the page gives to type."""
    Path("statements.txt").write_text(STATEMENTS, encoding="utf-8")
    ended = subprocess.run([NP, *shlex.split(line)[1:]], cwd=".", check=False, capture_output=True, text=True)
    return ended.stdout, ended.stderr, ended.returncode


def pod_of_web():
    items = json.loads(Path(SHOP).read_text(encoding="utf-8"))["items"]
    return next("shop/" + item["metadata"]["name"] for item in items if item["kind"] == "Pod" and "web" in item["metadata"]["name"])


def check_given(browser, checks):
    """An example, a text that is pasted, and a list that is taken away again."""
    browser.click("#show-example")
    await_true(browser, "page && page.title[0] === 'shop.json'")
    browser.run("document.getElementById('load').open = true")
    browser.click("#inputs-now button[aria-label^=Remove]")
    browser.run("document.getElementById('paste').value = arguments[0]", Path(SHOP).read_text(encoding="utf-8"))
    browser.click("#add-pasted")
    await_true(browser, "page && page.title[0] === 'pasted.json'")
    checks.same("the line of a pasted list", browser.texts("#terminal code"), ["np list pasted.json"])
    checks.same("its rows", browser.run("return app.table.names"), [API, DATABASE, WEB])
    browser.run("inputs.now.length = 0")


def check_answers(browser, checks):
    for command, *values in ASKED:
        values = [pod_of_web() if "84d5c7b6fd" in value else value for value in values]
        report, said, status, line = answer(browser, command, *values)
        wanted = from_terminal(line)
        checks.same(line, (report.rstrip("\n"), said, status), (wanted[0].rstrip("\n"), wanted[1], wanted[2]))


def check_typing(browser, checks):
    """Statements are answered while they are typed, without a click."""
    answer(browser, "check", "")
    browser.keys("deny any pod => any pod : TCP 8080", "#ask-check-0")
    found = await_true(browser, "document.querySelector('.answers .report') && document.querySelector('.answers [data-status=\"5\"]') "
                                "&& document.querySelector('.answers .report').textContent")
    checks.true("the counterexample of what was typed: " + found, re.match("line 1: .* : TCP 8080 : Allow", found))


def check_cell(browser, checks):
    """Why a cell is denied, which a page that was made beforehand cannot say."""
    browser.run("change({ view: 'matrix', from: '%s', to: '%s' })" % (DATABASE, WEB))
    text = await_true(browser, "document.querySelector('#detail .live .answer') && document.querySelector('#detail .live .answer').textContent")
    wanted = subprocess.run([NP, "explain", "--from", DATABASE, "--to", WEB, SHOP], check=True, capture_output=True, text=True).stdout
    checks.same("a cell in which nothing passes", text.rstrip("\n"), wanted.rstrip("\n"))


def check_changes(browser, checks):
    items = json.loads(Path(SHOP).read_text(encoding="utf-8"))
    items["items"] = [item for item in items["items"] if item["metadata"]["name"] != "api" or item["kind"] != "NetworkPolicy"]
    Path("before.json").write_text(json.dumps(items), encoding="utf-8")
    show(browser, "before", "before.json")
    browser.run("change({ view: 'changes', from: '', to: '' })")
    checks.same("what changed", browser.rows(last=5), [[WEB, API, "No Connections", "TCP 8080"]])
    checks.same("the lines to type", browser.texts("#terminal code"), ["np list before.json", "np list shop.json"])


def check_refused(browser, checks):
    bad = json.loads(Path(SHOP).read_text(encoding="utf-8"))
    del bad["items"][3]["metadata"]["name"]
    Path("bad.json").write_text(json.dumps(bad), encoding="utf-8")
    browser.run("inputs.now.length = inputs.before.length = 0")
    checks.same("a list that is refused", refusal(browser, "bad.json"),
                ("error: item 4: metadata.name: BadField\n", "1", ["Object 4, Pod shop, of bad.json"]))
    browser.run("inputs.now.length = 0; document.getElementById('memory').value = 8.5")
    checks.same("too little memory", refusal(browser, SHOP)[:2], ("error: out of memory\n", "4"))


def check_silent(browser, checks):
    """Nothing is loaded, by the policy that stands in the page, and nothing was."""
    policy = browser.run("return document.querySelector('meta[http-equiv=Content-Security-Policy]').content")
    words = [part.split()[:2] for part in policy.split(";")]
    checks.true("the policy: " + policy, ["default-src", "'none'"] in words and "connect-src" not in policy and "http" not in policy)
    checks.same("what was loaded", browser.run("return performance.getEntriesByType('resource').map(entry => entry.name)"), [])
    checks.same("no name without a label", browser.run("""
        return Array.from(document.querySelectorAll('input, select, textarea, button'))
            .filter(made => !made.labels?.length && !made.getAttribute('aria-label') && !made.textContent.trim()).map(made => made.outerHTML)"""), [])
    checks.same("complaints", browser.complaints(), [])


def main():
    checks = Checks()
    with asking() as browser:
        check_given(browser, checks)
        show(browser, "now", SHOP)
        Path("shop.json").write_bytes(Path(SHOP).read_bytes())
        check_answers(browser, checks)
        check_typing(browser, checks)
        check_cell(browser, checks)
        check_changes(browser, checks)
        check_refused(browser, checks)
        check_silent(browser, checks)
    checks.end()


main()
