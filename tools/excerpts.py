#!/usr/bin/env python3
"""Holds the excerpts of sources in documents against the sources.

    tools/excerpts.py DOCUMENT...

An excerpt is a fenced block right behind a line `<!-- PATH -->`, where PATH is a file of the repository. Its lines have to stand in that
file as they are, one after another. It writes nothing where all do; else it says which do not, and ends with status 1. A document
without an excerpt is a fault.
"""
import re
import sys
from pathlib import Path

TOP = Path(__file__).resolve().parent.parent
EXCERPT = re.compile(r"^<!-- (\S+) -->\n```\w*\n(.*?\n)```$", re.MULTILINE | re.DOTALL)


def faults(document):
    text = Path(document).read_text()
    found = list(EXCERPT.finditer(text))
    if not found:
        yield f"{document}: no excerpt"
    for excerpt in found:
        place = f"{document}:{text.count(chr(10), 0, excerpt.start()) + 1}"
        source = TOP / excerpt.group(1)
        if not source.is_file():
            yield f"{place}: there is no {excerpt.group(1)}"
        elif "\n" + excerpt.group(2) not in "\n" + source.read_text():
            yield f"{place}: these lines do not stand so in {excerpt.group(1)}"


def main(documents):
    if not documents:
        raise SystemExit(__doc__)
    told = [fault for document in documents for fault in faults(document)]
    if told:
        raise SystemExit("\n".join(told))


main(sys.argv[1:])
