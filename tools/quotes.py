#!/usr/bin/env python3
"""Holds what the documents quote against what is printed.

    tools/quotes.py PROGRAM [--plugin] [DOCUMENT]...

Without a DOCUMENT it takes README.md of the repository and every page of docs/use/ that has a quotation, but for RECIPES.md: the cases
recipe-... run that page. It reads the fenced blocks of each, and looks at three kinds:

- One that begins with `$ `. Each line that begins so is a command, and the lines up to the next are what it writes.
- One that begins with `./np `. That line is the command, and all lines behind it are what it writes.
- One of lines that all begin with `./`: commands to type. Where the next block begins with no command, it is what the first writes.

The quotations of a block whose first line says `kubectl np` are those of the plugin: with --plugin they alone are looked at, and without
it all others. They need the real kubectl, which finds the plugin of the repository.

A command is run by bash in a folder where `np` is PROGRAM and `examples` the examples. What it writes is its standard output, with
its standard error behind it, and has to be exactly what is quoted. What a quotation cuts on purpose it says in one of two ways:

- a line `...` stands for one line or more;
- a line that ends in `...` stands for a line that begins with what is before the dots, and is longer.

It writes nothing where all quotations are true; else it says which are not, and ends with status 1. A document
without a quotation is a fault.
"""
import difflib
import os
import re
import subprocess
import sys
import tempfile

ROOT = os.path.dirname(os.path.dirname(os.path.realpath(__file__)))
PAGES = "docs/use"
RUN_BY_CASES = ["RECIPES.md"]


def blocks(text):
    """The fenced blocks, each as the number of its first line, from 1, and its lines."""
    found, block = [], None
    for number, line in enumerate(text.splitlines(), 1):
        if line.startswith("```"):
            if block is None:
                block = (number + 1, [])
            else:
                found.append(block)
                block = None
        elif block is not None:
            block[1].append(line)
    return found


def transcript(start, lines):
    """The quotations of a block whose commands stand behind `$ `."""
    found = []
    for number, line in enumerate(lines, start):
        if line.startswith("$ "):
            found.append((number, line[2:], []))
        else:
            found[-1][2].append(line)
    return found


def is_of_the_plugin(first):
    """Whether a block that begins with this line quotes the plugin."""
    return "kubectl np" in first


def quotations(text, plugin):
    """What a document quotes, of the plugin or else of np: the numbers of the lines, the commands, and what they are said to write."""
    found, typed = [], None
    for start, lines in blocks(text):
        first = lines[0] if lines else ""
        if is_of_the_plugin(first) != plugin:
            typed = None
            continue
        if first.startswith("$ "):
            found += transcript(start, lines)
        elif all(line.startswith("./") for line in lines):
            typed = first
            continue
        elif first.startswith("./np "):
            found.append((start, first, lines[1:]))
        elif typed:
            found.append((start, typed, lines))
        typed = None
    return found


def pattern(quoted):
    """The expression that what is written has to match as a whole."""
    made = ""
    for line in quoted:
        if line == "...":
            made += r"(?:.*\n)+"
        elif line.endswith("..."):
            made += re.escape(line[:-3]) + r".+\n"
        else:
            made += re.escape(line) + r"\n"
    return made


def written(command, room):
    settings = dict(os.environ, PATH=room + ":" + os.environ["PATH"], KUBECTL_NP_PROGRAM=os.path.join(room, "np"))
    done = subprocess.run(["bash", "-c", command], cwd=room, env=settings, stdin=subprocess.DEVNULL, capture_output=True)
    return (done.stdout + done.stderr).decode("utf-8", "replace")


def quotations_of(document, plugin):
    with open(document, encoding="utf-8") as file:
        return quotations(file.read(), plugin)


def quoting_documents(plugin):
    """Of README.md and the pages for users those that quote something."""
    pages = sorted(name for name in os.listdir(PAGES) if name.endswith(".md") and name not in RUN_BY_CASES)
    documents = ["README.md"] + [os.path.join(PAGES, name) for name in pages]
    return [document for document in documents if quotations_of(document, plugin)]


def faults(document, plugin, room):
    """What is not true in a document, as lines."""
    quoted_ones = quotations_of(document, plugin)
    if not quoted_ones:
        return [document + ": there is no quotation"]
    told = []
    for number, command, quoted in quoted_ones:
        text = written(command, room)
        if not re.fullmatch(pattern(quoted), text):
            told.append("%s:%d: %s" % (document, number, command))
            told += list(difflib.unified_diff(quoted, text.splitlines(), "quoted", "written", lineterm=""))[2:]
    return told


def main(program, plugin, documents):
    with tempfile.TemporaryDirectory() as room:
        os.symlink(os.path.realpath(program), os.path.join(room, "np"))
        os.symlink(os.path.join(ROOT, "kubectl-np"), os.path.join(room, "kubectl-np"))
        os.symlink(os.path.join(ROOT, "examples"), os.path.join(room, "examples"))
        if not documents:
            os.chdir(ROOT)
        told = [line for document in documents or quoting_documents(plugin) for line in faults(document, plugin, room)]
    if told:
        print("\n".join(told))
    return 1 if told else 0


if __name__ == "__main__":
    words = [word for word in sys.argv[1:] if word != "--plugin"]
    if not words:
        sys.exit("usage: tools/quotes.py PROGRAM [--plugin] [DOCUMENT]...")
    sys.exit(main(words[0], "--plugin" in sys.argv, words[1:]))
