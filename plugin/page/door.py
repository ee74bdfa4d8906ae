"""What `np-page` does: the page of lists that are named on its command line."""
from __future__ import annotations

import os
import sys
from typing import List, Tuple

from plugin import children, said
from plugin.page.whole import Request, write_page
from plugin.page.words import OPTIONS, PageWords, shell_word
from plugin.program import Program
from plugin.room import Room
from plugin.said import Stop

_USAGE = b"""\
usage: np-page [--before LIST]... [--only NAMESPACE] [--title TEXT] [--controller NAME] [LIST]...

Writes one HTML file to standard output, which any browser opens from disk: who reaches whom, of the objects of each LIST (a file as
kubectl get -o json prints it, or - for standard input, which is read where no LIST is named).

  --before LIST      an earlier snapshot: the page then has what opened, what closed and what changed since (repeat it for several files)
  --only NAMESPACE   only rows with an end in that namespace, where the page of the whole cluster would be too large
  --title TEXT       the title of the page (otherwise the names of the files)
  --controller NAME  the workload that sends what comes through Ingresses
"""


def main() -> int:
    """Writes the page that the words of the command line ask for; returns the status."""
    said.speaker = "np-page"
    children.catch_signals()
    words, files = _read_words(sys.argv[1:])
    source = _title(files, words.before)
    request = Request(files=files, before=words.before, title=words.title or source, source=source, only=words.only,
                      controller=words.controller,
                      commands=[("./np explain", _words_of_files(files)), ("kubectl np explain", "")])
    with Room() as room:
        return write_page(Program(os.environ.get("NP_PAGE_PROGRAM")), room, request)


def _read_words(words: List[str]) -> Tuple[PageWords, List[str]]:
    """The options, and the lists: standard input where none is named. Wrong words give the usage."""
    read, files, rest = PageWords(), [], list(words)
    while rest:
        word = rest.pop(0)
        option, equals, value = word.partition("=")
        if option in OPTIONS and (equals or rest):
            read.take(option, value if equals else rest.pop(0))
        elif word == "--":
            files += rest
            break
        elif word.startswith("-") and word != "-":
            raise Stop(2, said=_USAGE)
        else:
            files.append(word)
    return read, files or ["-"]


def _words_of_files(files: List[str]) -> str:
    """The lists as words behind a command of np."""
    is_like_option = files[0].startswith("-") and files[0] != "-"
    return (" --" if is_like_option else "") + "".join(" " + shell_word(file) for file in files)


def _title(files: List[str], before: List[str]) -> str:
    """The names of the files, and of those with which they are compared."""
    title = " ".join(map(os.path.basename, files))
    if title == "-":
        title = "standard input"
    return title + (" (changes since %s)" % " ".join(map(os.path.basename, before)) if before else "")
