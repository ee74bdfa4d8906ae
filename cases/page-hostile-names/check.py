"""Names, titles, notes and file names are data: whatever is in them, the page shows it as text, and nothing of it runs."""
import json
import os
import subprocess

from browser import Browser, Checks, make_page, np, rows_of

TITLE = "<script>alert(1)</script> \"&amp;' </title> \u2028\u2029 <!-- \\ \t\n ${x} `x` é"
FILE = "<img src=x onerror=alert(1)>' $(touch hit) \"&.json"
NAMES = ["..", "-", ":", "__proto__", "constructor", "0.0.0.0", "a..b:c-d_e", "toString", "namespace"]


def cluster():
    """Pods of names that np accepts and that a page could take for something else."""
    items = []
    for place, name in enumerate(NAMES):
        for space in ("::", "__proto__", "0.0.0.0"):
            items.append({"apiVersion": "v1", "kind": "Pod", "metadata": {"name": name, "namespace": space, "labels": {"app": "p%d" % place}}, "spec": {}})
    items.append({"apiVersion": "networking.k8s.io/v1", "kind": "NetworkPolicy", "metadata": {"name": "__proto__", "namespace": "::"},
                  "spec": {"podSelector": {"matchLabels": {"app": "p3"}}, "ingress": [{"from": [{"podSelector": {"matchLabels": {"app": "p0"}}}]}]}})
    return {"apiVersion": "v1", "kind": "List", "items": items}


def main():
    checks = Checks()
    with open(FILE, "w", encoding="utf-8") as file:
        json.dump(cluster(), file)
    make_page("page.html", "--title", TITLE, FILE)
    make_page("named.html", FILE)
    with open("page.html", encoding="utf-8") as file:
        page = file.read()
    checks.same("elements of script that end", page.count("</script"), 2)
    with Browser() as browser:
        browser.open("page.html", "#view=list&passing=no&joined=no")
        checks.same("the title", browser.texts("h1"), [TITLE])
        checks.same("rows", browser.rows(), rows_of("list", FILE))
        checks.same("exposure", browser.run("change({ view: 'exposure' }); return 1") and browser.rows(), rows_of("exposure", FILE))
        for name in ("__proto__", "..", "0.0.0.0"):
            end = "::/%s[Pod]" % name
            browser.open("page.html", "#focus=" + end)
            checks.same("a picture of " + end, browser.texts("svg .centre text")[0], end + end)
        browser.open("page.html", "#view=matrix&from=::/..[Pod]&to=::/__proto__[Pod]")
        checks.same("an opened cell", browser.texts("#detail .rows code")[0], "::/..[Pod] => ::/__proto__[Pod] : All Connections")
        browser.open("page.html", "#view=matrix&from=namespace __proto__&to=namespace ::")
        checks.true("a cell of namespaces", browser.texts("#detail tbody tr"))
        for link in ("#view=<b>&from=<img>&to=%E0%A4%A", "#focus=<img src=x onerror=alert(1)>", "#__proto__=x&toggled=<b>|x&sort=constructor"):
            browser.open("page.html", link)
            checks.same("a link that says nothing known: " + link, browser.run("return document.querySelectorAll('img, b').length"), 0)
        browser.open("named.html", "#view=list&from=::/..[Pod]&to=::/__proto__[Pod]")
        checks.same("a file name as the title", browser.texts("h1"), [FILE])
        checks.same("markup that was made of names", browser.run("return document.querySelectorAll('img, b, iframe').length"), 0)
        command = browser.texts("#detail .command code")[0]
        said = subprocess.run(["bash", "-c", command.replace("./np", '"$NP"', 1)], capture_output=True, text=True, check=True).stdout
        checks.same("the command as a shell reads it", said, np("explain", "--from", "::/..[Pod]", "--to", "::/__proto__[Pod]", FILE))
        checks.same("what the file name would have done", os.path.exists("hit"), False)
        checks.same("complaints", browser.complaints(), [])
        # Were there markup after all, the policy of the page would let it neither run nor fetch anything.
        title = browser.run("""
            const made = document.createElement('div');
            made.innerHTML = '<img src="https://example.invalid/x.png" onerror="document.title = 1"><style>h1 { display: none }</style>';
            document.body.append(made);
            return new Promise(resolve => setTimeout(() => resolve([document.title, getComputedStyle(document.querySelector('h1')).display]), 300));
        """)
        refusals = browser.complaints()
        checks.same("markup does not run", title, [FILE + " – np", "block"])
        checks.same("it is refused", [any(word in text for text in refusals) for word in ("Loading the image", "inline event handler", "inline style")], [True] * 3)
    checks.end()


main()
