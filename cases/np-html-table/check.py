"""The table that np.html makes of np's rows is the one that np-page makes of them: of the examples, and of lists made by chance."""
import io
import json
import random
import subprocess
from pathlib import Path

import lists
from ask_browser import asking, show
from browser import NP, Checks
from plugin.page.reading import ListReader
from plugin.page.rows import Lines
from plugin.page.table import Table

RANDOM = 12


def table_of(path):
    """The table as np-page makes it."""
    reports = [subprocess.run([NP, command, "--format", "json", path], check=True, capture_output=True).stdout for command in ("exposure", "list")]
    table = Table("")
    table.read_exposure(reports[0].splitlines(keepends=True))
    ListReader(table, Lines(io.BytesIO(reports[1]))).read()
    return json.loads(table.json())


def expanded(table):
    """The table without the numbers of its texts, which come in another order where texts come in another one."""
    def texts(numbers):
        return [table["connections"][number] for number in numbers]
    count = len(table["names"])
    groups = []
    for inner, own, through, changes in table["groups"]:
        known, row, value = dict(map(int, change.split(":")) for change in changes.split()), [], 0
        for place in range(count):
            value = known.get(place, value)
            row.append(value)
        groups.append([texts([inner, own, through]), texts(row)])

    def rows(ends, of):
        sides = table[of]["lists"]
        return [None if number < 0 else [[(table[ends][end], texts([conns])) for end, conns in zip(side[::2], side[1::2])] for side in sides[number]]
                for number in table[of]["of"]]
    return [table["names"], table["groupOf"], groups, rows("ranges", "outside"), rows("ends", "exposure")]


def write_random(chance, number):
    path = Path("random-%d.json" % number)
    path.write_text(json.dumps({"apiVersion": "v1", "kind": "List", "items": lists.random_items(chance)}), encoding="utf-8")
    return str(path)


def main():
    chance, checks = random.Random(69), Checks()
    paths = ["examples/first.json", "examples/shop.json"] + [write_random(chance, number) for number in range(RANDOM)]
    with asking() as browser:
        for path in paths:
            browser.run("inputs.now.length = 0")
            show(browser, "now", path)
            checks.same(path, expanded(browser.run("return page.table")), expanded(table_of(path)))
    checks.end()


main()
