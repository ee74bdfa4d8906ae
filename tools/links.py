#!/usr/bin/env python3
"""Checks that every link of the documents leads somewhere.

    tools/links.py [DOCUMENT]...

Without a DOCUMENT it takes README.md, SECURITY.md and every page below docs/. A link to a file must name one that exists, seen from the
folder of the page; a link with `#` must name a heading of the page that it leads to (by the name that GitHub gives it), or an `id` that
stands there in HTML. Links to other sites are not followed. What stands in a fenced block or between backquotes is no link.

It writes nothing where all links lead somewhere; else it names those that do not, a line each, and ends with status 1.
"""
from __future__ import annotations

import re
import sys
from pathlib import Path
from typing import Dict, Iterator, List, Set

TOP = Path(__file__).resolve().parent.parent

_CODE = re.compile(r"`(?:[^`\n]|\n(?!\n))*`")
_LINK = re.compile(r"\]\(([^)\s]+)\)")
_NAMED = re.compile(r"<\w+ (?:id|name)=\"([^\"]+)\"")
_OTHER_SITE = re.compile(r"[a-z]+:")


def prose(text: str) -> List[str]:
    """The lines of a page; those of its fenced blocks are empty."""
    kept: List[str] = []
    is_fenced = False
    for line in text.split("\n"):
        is_fence = line.lstrip(" ").startswith("```")
        kept.append("" if is_fence or is_fenced else line)
        is_fenced = is_fenced != is_fence
    return kept


def anchors(text: str) -> Set[str]:
    """The names that a link can give to places of a page. A second heading of the same words gets `-1` behind its name, and so on."""
    found: Set[str] = set(_NAMED.findall(text))
    counts: Dict[str, int] = {}
    for line in prose(text):
        if re.match("#+ ", line):
            name = _heading_name(line.lstrip("#").strip(" "))
            count = counts.get(name, 0)
            counts[name] = count + 1
            found.add("%s-%d" % (name, count) if count else name)
    return found


def _heading_name(heading: str) -> str:
    shown = re.sub(r"\[([^]]*)\]\([^)]*\)", r"\1", heading)
    return re.sub(r"[^\w\- ]", "", shown.lower()).replace(" ", "-")


def fault(page: Path, target: str) -> str:
    """What is wrong with a link of a page; an empty text where nothing is."""
    name, _, anchor = target.partition("#")
    if _OTHER_SITE.match(target):
        return ""
    file = page.parent / name if name else page
    if not file.exists():
        return "there is no %s" % name
    if anchor and anchor not in anchors(file.read_text(encoding="utf-8")):
        return "%s has no #%s" % (file.name, anchor)
    return ""


def faults(page: Path) -> Iterator[str]:
    """The links of a page that lead nowhere, a line each."""
    text = _CODE.sub(lambda code: "\n" * code[0].count("\n"), "\n".join(prose(page.read_text(encoding="utf-8"))))
    for link in _LINK.finditer(text):
        told = fault(page, link[1])
        if told:
            yield "%s:%d: %s" % (page, text.count("\n", 0, link.start()) + 1, told)


def main(words: List[str]) -> int:
    """Checks the pages that are named, or all, and returns the status."""
    pages = [Path(word) for word in words] or [TOP / "README.md", TOP / "SECURITY.md", *sorted((TOP / "docs").rglob("*.md"))]
    told = [line for page in pages for line in faults(page)]
    if told:
        print("\n".join(told))
    return 1 if told else 0


if __name__ == "__main__":
    sys.exit(main(sys.argv[1:]))
