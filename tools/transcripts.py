#!/usr/bin/env python3
"""Holds transcripts against a program.

    tools/transcripts.py PROGRAM [TRANSCRIPT]...

A transcript is runs of the program, written down as lines, with the bytes that were worked out by hand for each. Without a TRANSCRIPT it
takes every file of transcripts/. It writes nothing where each run gives what stands there; else it says which do not, and ends with
status 1.

A transcript is blocks of lines, which stand apart by empty lines. A block tells of runs that all give the same.

    # ..        says what they show; a block may have such lines alone
    < ..        a line of standard input
    = ..        a line of the file `statements`, which is always there
    :NAME ..    a line of the file NAME
    0 list ..   a run on these words, apart by spaces, that ends with this status
    * list ..   two runs that end with 0, in report 1 and in report 2, of which the second writes `0.0.0.0/0` and `::/0` where the first
                writes all of a family
    > ..        a line that each of them writes
    ! ..        a line that each of them says, on standard error

Standard input and the files stay those of the blocks behind, until one of them has others. Where standard input is empty it cannot be
read, so that a run that begins it is told. A run stands in a folder that has these files, and a link to the folder examples/ of the
repository, and nothing else.

A line `=- ..` has no end, and so with `<-`, `>-` and `!-`: `=-` alone makes the file empty. A line `<5 ..` stands for five lines, one for
each place from 0 on. In its text `#` stands for the place, `%n` for the next one and `%k` for a number of four digits; `%-` and `%+` for
the place and the next one from the other end; `%h` and `%l` for the place as two digits of 256; `%;` for the end of a line; and `%xef` for
the byte of these two digits of 16. A word `''` of a run is empty.
"""
import difflib
import os
import re
import subprocess
import sys
import tempfile
from concurrent.futures import ThreadPoolExecutor
from dataclasses import dataclass
from itertools import zip_longest
from pathlib import Path

TOP = Path(__file__).resolve().parent.parent
TRANSCRIPTS = TOP / "transcripts"
TEXT_LINE = re.compile(r"([<=>!]|:\S+)(-|\d*)(?: (.*))?")
RUN_LINE = re.compile(r"([0-9*])(?: (.*))?")
WHOLE_FAMILIES = {"0.0.0.0-255.255.255.255": "0.0.0.0/0", "::-ffff:ffff:ffff:ffff:ffff:ffff:ffff:ffff": "::/0"}
MOST_LINES, MOST_COLUMNS = 20, 200


@dataclass(frozen=True)
class Run:
    """A run, and what is to come of it. `place` is where it is written down, and `files` has the text of each file by its name."""

    place: str
    words: list
    status: int
    input: str
    files: dict
    out: str
    err: str


def filled(text, place, count):
    """The line for one of so many places."""
    numbers = {"#": place, "%n": place + 1, "%k": place + 1000, "%-": count - place - 1, "%+": count - place,
               "%h": place // 256, "%l": place % 256, "%;": "\n"}
    text = re.sub("#|%[nk+hl;-]", lambda word: str(numbers[word.group()]), text) + "\n"
    return re.sub("%x([0-9a-f]{2})", lambda byte: bytes.fromhex(byte.group(1)).decode(errors="surrogateescape"), text)


def text_of(count, text):
    """What a line stands for, by what is between its mark and its text."""
    if count == "-":
        return text
    if not count:
        return text + "\n"
    return "".join(filled(text, place, int(count)) for place in range(int(count)))


def parts_of(transcript, start, lines):
    """The texts of a block, by their marks, and the lines of its runs, each with its place."""
    texts, runs = {}, []
    for number, line in enumerate(lines, start):
        place = f"{transcript}:{number}"
        text_line, run_line = TEXT_LINE.fullmatch(line), RUN_LINE.fullmatch(line)
        if text_line:
            mark, count, text = text_line.groups(default="")
            texts[mark] = texts.get(mark, "") + text_of(count, text)
        elif run_line:
            runs.append((place, *run_line.groups(default="")))
        elif not line.startswith("#"):
            raise SystemExit(f"{place}: no line of a transcript: {line}")
    if texts and not runs:
        raise SystemExit(f"{transcript}:{start}: there is no run in this block")
    return texts, runs


def in_cidrs(out):
    """A table of report 1 in which each range is all of a family, as report 2 writes it."""
    for ends, cidr in WHOLE_FAMILIES.items():
        out = out.replace(ends, cidr)
    return out


def blocks(path):
    """The blocks of a transcript, each as the number of its first line, from 1, and its lines."""
    number = 1
    for block in path.read_text(encoding="utf-8").rstrip("\n").split("\n\n"):
        lines = block.split("\n")
        yield number, lines
        number += len(lines) + 1


def runs_of(path):
    """The runs of a transcript, in its order."""
    kept = {"<": "", "=": ""}
    for start, lines in blocks(path):
        texts, runs = parts_of(path, start, lines)
        out, err = texts.pop(">", ""), texts.pop("!", "")
        kept = {**kept, **texts}
        files = {mark[1:] or "statements": text for mark, text in kept.items() if mark != "<"}
        for place, mark, words in runs:
            words = ["" if word == "''" else word for word in words.split()]
            if mark == "*":
                yield Run(place, [*words, "--report", "1"], 0, kept["<"], files, out, err)
                yield Run(place, words, 0, kept["<"], files, in_cidrs(out), err)
            else:
                yield Run(place, words, int(mark), kept["<"], files, out, err)


def outcome_of(program, run, room):
    """The status and both outputs of a run in a folder. What cannot be read as standard input is the folder itself."""
    Path(room, "examples").symlink_to(TOP / "examples")
    for name, text in run.files.items():
        Path(room, name).write_bytes(text.encode(errors="surrogateescape"))
    command = [program, *run.words]
    if run.input:
        made = subprocess.run(command, cwd=room, input=run.input.encode(errors="surrogateescape"), capture_output=True)
    else:
        folder = os.open(room, os.O_RDONLY)
        made = subprocess.run(command, cwd=room, stdin=folder, capture_output=True)
        os.close(folder)
    return made.returncode, made.stdout, made.stderr


def difference(name, wanted, written):
    """What is to be said of an output: the lines from the first that differs on."""
    wanted, written = wanted.encode().split(b"\n"), written.split(b"\n")
    if wanted == written:
        return []
    first = next(place for place, lines in enumerate(zip_longest(wanted, written)) if lines[0] != lines[1])
    cut = [[line.decode("utf-8", "backslashreplace") for line in lines[first:first + MOST_LINES]] for lines in (wanted, written)]
    told = list(difflib.unified_diff(*cut, lineterm="", n=0))[3:]
    return [f"  {name} from line {first + 1} on (-: wanted, +: written)", *("    " + line[:MOST_COLUMNS] for line in told)]


def faults(program, run):
    """What a run gives otherwise, as lines."""
    with tempfile.TemporaryDirectory() as room:
        status, out, err = outcome_of(program, run, room)
    told = [] if status == run.status else [f"  status {status}, wanted {run.status}"]
    told += difference("standard output", run.out, out) + difference("standard error", run.err, err)
    return [f"{run.place}: {' '.join(run.words)}", *told] if told else []


def main(program, *paths):
    program = os.path.realpath(program)
    paths = [Path(path) for path in paths] or sorted(TRANSCRIPTS.glob("*.txt"))
    runs = [run for path in paths for run in runs_of(path)]
    if not runs:
        raise SystemExit("there is no run")
    with ThreadPoolExecutor(os.cpu_count()) as pool:
        told = [line for lines in pool.map(lambda run: faults(program, run), runs) for line in lines]
    if told:
        print("\n".join(told))
    return 1 if told else 0


if __name__ == "__main__":
    if len(sys.argv) < 2:
        raise SystemExit("usage: tools/transcripts.py PROGRAM [TRANSCRIPT]...")
    sys.exit(main(*sys.argv[1:]))
