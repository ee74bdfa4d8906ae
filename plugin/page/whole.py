"""Makes a page: puts what np answers into the one file."""
from __future__ import annotations

import os
import time
from typing import TYPE_CHECKING, List, NamedTuple, Sequence, Tuple

from plugin import parts, said
from plugin.page.answers import Answers
from plugin.page.texts import listed, listed_lines, quoted
from plugin.program import Program
from plugin.room import Room
from plugin.said import say, stop, write

if TYPE_CHECKING:
    from plugin.caveats.caveat import Caveat, Ends

# The parts of the page, in their order.
STYLES = ("page.css",)
SCRIPTS = ("model.js", "ranges.js", "rows.js", "changes.js", "state.js", "element.js", "explained.js", "caveats.js", "detail.js",
           "list.js", "matrix.js", "picture.js", "graph.js", "overview.js", "policies.js", "exposure.js", "print.js", "main.js", "shown.js")

# How many bytes a page has at the most: what opens well. NP_PAGE_MOST in the environment may be another number.
_MOST_BYTES = "5000000"
# How many names of ends a caveat has in a page at the most.
_MOST_ENDS = 20
_TOO_LARGE = "the page would have %d bytes, and %s is the most that opens well: its rows differ too much to be shown together"
_SMALLER = "make a page of one namespace at a time, with --only NAMESPACE, or read the rows of one workload: np list --focus WORKLOAD"


class Request(NamedTuple):
    """What a page is to be made of.

    `files` are the lists, and `before` those of an earlier snapshot, if any: each is a path, or - for standard input.
    `source` says what the objects are, and `title` is that or another text.
    `only` is the one namespace whose rows the page has (empty: all). `commands` explain two ends: what stands before
    them, and what behind them. `caveats` are those of the list. `controller` is the workload that sends what comes through
    Ingresses (empty: it is not known).
    """

    files: List[str]
    before: List[str]
    title: str
    source: str
    only: str
    commands: List[Tuple[str, str]]
    caveats: Sequence[Caveat] = ()
    controller: str = ""


def write_page(program: Program, room: Room, request: Request) -> int:
    """Writes the page to standard output, and returns the status: 1 where it is too large. Where np gives no answer
    its status ends the script."""
    most = os.environ.get("NP_PAGE_MOST") or _MOST_BYTES
    if not most.isdecimal():
        stop(2, "NP_PAGE_MOST is no number of bytes: %s" % most)
    page = _html(_data(program, room, request))
    if len(page) <= int(most):
        write(page)
        return 0
    say(_TOO_LARGE % (len(page), most))
    say(_SMALLER)
    return 1


def join_parts(names: Sequence[str]) -> bytes:
    """The files of these names in the folder page/, one behind the other, squeezed; in the one file of the plugin they are so already."""
    found = [parts.part("page/" + name) for name in names]
    if not parts.is_packed():
        from plugin.page.squeeze import squeezed
        found = [squeezed(name, part) for name, part in zip(names, found)]
    return b"".join(found)


def _html(data: bytes) -> bytes:
    """page.html, in which a line @NAME@ stands for a part."""
    stands_for = {b"@style@\n": join_parts(STYLES), b"@data@\n": data, b"@script@\n": join_parts(SCRIPTS)}
    return b"".join(stands_for.get(line, line) for line in parts.part("page/page.html").splitlines(keepends=True))


def _data(program: Program, room: Room, request: Request) -> bytes:
    """All that the page shows, as one JSON object."""
    before = _before(program, room, request) if request.before else b"null"
    after = Answers(program, room, request.files, request.controller)
    table = after.table(request.only)
    commands = [quoted(text) for command in request.commands for text in command]
    return b"".join([
        b'{"version":2,"title":[', quoted(request.title), b'],"commands":[', b",".join(commands),
        b'],"source":', quoted(request.source), b',"made":', quoted(_date()), b',"np":', quoted(parts.version()),
        b',"controller":', quoted(request.controller),
        b',"notes":', listed_lines(said.with_all_pods(after.notes)), b',"caveats":', _caveats_json(request.caveats),
        b',"unused":', listed_lines(after.ask("unused")),
        b',"refused":', listed_lines(after.refused),
        b',"explained":', after.explained(table),
        b',"table":', table.json(), b',"before":', before, b"}\n"])


def _date() -> str:
    """When the page is made, in UTC; SOURCE_DATE_EPOCH in the environment may say another time, for pages that are to be the same."""
    given = os.environ.get("SOURCE_DATE_EPOCH") or ""
    return time.strftime("%Y-%m-%d %H:%M UTC", time.gmtime(int(given) if given.isdecimal() else None))


def _caveats_json(caveats: Sequence[Caveat]) -> bytes:
    """The caveats as caveats.js reads them: a line, and which connections it touches. Many ends stand for everyone, by an empty list."""
    def ends(names: Ends) -> bytes:
        return b"[%s]" % b",".join(map(quoted, sorted(names) if len(names) <= _MOST_ENDS else ()))

    def touched(caveat: Caveat) -> bytes:
        return b",".join(b"[%s,%s]" % (ends(pair.senders), ends(pair.receivers)) for pair in caveat.touched)
    return listed(b'{"key":%s,"line":%s,"touched":[%s]}' % (quoted(caveat.key), quoted(said.shown(caveat.line())), touched(caveat))
                  for caveat in caveats)


def _before(program: Program, room: Room, request: Request) -> bytes:
    """The table of the earlier snapshot. What np says of an item of it is not of the list that is shown, whose items alone
    have names: where np refuses it they stay without."""
    of_list, said.name_item, said.not_given = (said.name_item, said.not_given), None, {}
    table = Answers(program, room, request.before, request.controller).table(request.only).json()
    said.name_item, said.not_given = of_list
    return table
