#!/usr/bin/env python3
"""What the limits of input cost: bench/slow.py [--program dist/np] [--seconds 60] [--table | --write] [--results FILE] [--tiny] [NAME..]

Each shape is an input that is hard in one of its parts, of 5 MB, or at a limit of what np reads (20,000 objects, 2,000 workloads, 32 MiB);
shapes_pods.py, shapes_rules.py and shapes_pairs.py make them. Each is measured with the commands, one run after the other: the seconds of
processor time, the status, the greatest memory, and how many bytes were printed. What breaks the bounds is told:

slow     it took longer than --seconds, and was ended
large    it took more than 1 GB, or ended because it had no more than the 2,000,000 kB that it is given
refused  there was no answer, so that nothing was measured

Then each that took more than a second or 100 MB is run at half the size, to tell how it grows; one that has no answer is tried at a half of
its size, at a quarter and at an eighth, until there is one, and at half of that.

--table      prints all of it as Markdown, and --write puts that into docs/develop/LIMITS.md
--results    keeps each run in a file, and takes those that are there already from it, so that an interrupted measurement goes on; another
             program wants another file
--tiny       takes tiny inputs of the same forms, which shows that np takes them
--whole      measures nothing at smaller sizes
--size       the sizes of the one shape that is named, as 700,20000, instead of its full ones
--names      prints the names of the shapes, with what they are

The status is 1 where a run breaks the bounds that is not in the list KNOWN, or is refused. No time is promised to users: the numbers tell
what the limits cost, on one machine, in one measurement.
"""
import argparse
import importlib
import json
import multiprocessing
import os
import sys
import tempfile

TOP = os.path.join(os.path.dirname(os.path.abspath(__file__)), "..")
sys.path.insert(0, os.path.join(TOP, "bench"))
from cost import listing  # noqa: E402
from shape import SHAPES, divided  # noqa: E402
from slow_runs import PARTS, breach, next_part, run  # noqa: E402
from slow_tables import SECONDS, Measured, growth_line, growth_of, line_of, table  # noqa: E402

# Each enters its shapes.
for module in ("shapes_pods", "shapes_rules", "shapes_pairs"):
    importlib.import_module(module)

DOCUMENT = os.path.join(TOP, "docs", "develop", "LIMITS.md")
BEGIN = "<!-- The tables begin here. bench/slow.py --write makes them. -->"
END = "<!-- The tables end here. -->"

# The runs that are known to break the bounds, and why. One that does so and is not here is a finding.
LONG_ANSWER = "the answer is as long as that"
HELD_ANSWER = "the answer is as long as that, and the rows of a workload are held until all of them are known"
HELD_POLICY = "the answer is as long as that, and each policy is held whole"
PATTERNS = "the rules are gone through for each pattern of the labels"
NAMED_GROUPS = "each of the policies that are printed names all workloads, and the rules are gone through for each of these once"
KNOWN = {(name, command): why for name, commands, why in (
    ("longNames", "list", LONG_ANSWER),
    ("samePorts", "list", LONG_ANSWER),
    ("pairPorts", "list", LONG_ANSWER),
    ("blockRules", "list", LONG_ANSWER),
    ("blocksAndPorts", "list", LONG_ANSWER),
    ("blocksAndPorts", "flatten", HELD_POLICY),
    ("pairPorts", "flatten", HELD_POLICY),
    ("groupKeys", "flatten", HELD_POLICY),
    ("podRules", "flatten", NAMED_GROUPS),
    ("exposureKeyPorts", "exposure", HELD_ANSWER),
    ("exposureNamespaces", "exposure", PATTERNS),
    ("ignored", "list", "the JSON is held whole, and an object of one member takes more than 500 bytes of memory"),
    ("mostBlocks", "list explain exposure evaluate unused check flatten",
     "the JSON and the policies are held whole, at 50 bytes of memory for each byte"),
) for command in commands.split()}


def words_of(shape, size, command, objects, statements):
    ends = [shape.source, shape.source + "[Pod]" if "/" in shape.source else shape.source]
    return [command, *{"explain": ["--from", ends[1], "--to", shape.workload],
                       "evaluate": ["--from", ends[0], "--to", shape.target, "--protocol", "TCP", "--port", "80"],
                       "check": ["--statement", statements],
                       "sample": [str(size[0])]}.get(command, []), *([] if command == "sample" else [objects])]


def write_files(name, size, objects, statements):
    """Makes the files of a shape. It runs in a process of its own: what is measured begins as a copy of this one, with its memory."""
    shape = SHAPES[name]
    with open(objects, "w") as f:
        f.write(json.dumps(listing(shape.make(*size)), separators=(",", ":")))
    with open(statements, "w") as f:
        f.writelines(line + "\n" for line in shape.lines(*size))


def made_files(folder, name, size):
    files = [os.path.join(folder, "objects.json"), os.path.join(folder, "statements")]
    maker = multiprocessing.get_context("fork").Process(target=write_files, args=(name, size, *files))
    maker.start()
    maker.join()
    if maker.exitcode:
        sys.exit("the shape %s could not be made" % name)
    return files


def measure(program, name, size, commands, seconds):
    """The runs of a shape at a size with some commands."""
    with tempfile.TemporaryDirectory() as folder:
        files = made_files(folder, name, size)
        for command in commands:
            done = run([program, *words_of(SHAPES[name], size, command, *files)], seconds)
            read = files if command == "check" else files[:1] if command != "sample" else []
            done.update(name=name, command=command, size=size, read=sum(os.path.getsize(f) for f in read))
            yield done


class Runs:
    """All runs so far, by shape, command and size, and the file that keeps them."""

    def __init__(self, path):
        self.path = path
        self.kept = {}
        if path and os.path.exists(path):
            with open(path) as f:
                self.kept = {(done["name"], done["command"], tuple(done["size"])): done for done in map(json.loads, f)}

    def keep(self, done):
        self.kept[done["name"], done["command"], tuple(done["size"])] = done
        if self.path:
            with open(self.path, "a") as f:
                f.write(json.dumps(done) + "\n")

    def measured(self, name, command, size):
        """What there is of a command at a size and at parts of it."""
        sizes = {part: divided(SHAPES[name], size, part) for part in PARTS}
        parts = {part: self.kept[name, command, one] for part, one in sizes.items() if (name, command, one) in self.kept}
        broken = breach(parts[1], SHAPES[name].refused) if 1 in parts else ""
        return Measured(name, command, parts, broken, KNOWN.get((name, command), ""))


def measure_whole(given, runs, name, size, out):
    """Makes the runs of a shape at its whole size, but for those that are kept, and tells all."""
    commands = SHAPES[name].commands
    wanted = [command for command in commands if (name, command, size) not in runs.kept]
    for done in measure(given.program, name, size, wanted, given.seconds) if wanted else ():
        runs.keep(done)
        one = runs.measured(name, done["command"], size)
        print(line_of(done, one.broken, one.known), flush=True, file=out)


def measure_parts(given, runs, name, size, out):
    """Makes the runs of a shape at parts of its size, as far as they are wanted to tell how it grows."""
    for part in PARTS[1:]:
        measured = [runs.measured(name, command, size) for command in SHAPES[name].commands]
        wanted = [one.command for one in measured if next_part(one.parts) == part]
        for done in measure(given.program, name, divided(SHAPES[name], size, part), wanted, given.seconds) if wanted else ():
            runs.keep(done)
            print(line_of(done, "", ""), flush=True, file=out)


def put_into_document(text):
    with open(DOCUMENT) as f:
        before, rest = f.read().split(BEGIN)
    with open(DOCUMENT, "w") as f:
        f.write("%s%s\n\n%s\n%s%s" % (before, BEGIN, text, END, rest.split(END)[1]))


def words_given():
    words = argparse.ArgumentParser(description=__doc__, formatter_class=argparse.RawDescriptionHelpFormatter)
    words.add_argument("--program", default=os.path.join(TOP, "dist", "np"))
    words.add_argument("--seconds", type=int, default=SECONDS)
    words.add_argument("--table", action="store_true")
    words.add_argument("--write", action="store_true")
    words.add_argument("--results", metavar="FILE")
    words.add_argument("--tiny", action="store_true")
    words.add_argument("--whole", action="store_true")
    words.add_argument("--size", type=lambda text: tuple(map(int, text.split(","))))
    words.add_argument("--names", action="store_true")
    words.add_argument("names_given", nargs="*", metavar="NAME")
    given = words.parse_args()
    unknown = [n for n in given.names_given if n not in SHAPES]
    if unknown:
        words.error("no shape is named %s" % unknown[0])
    if given.size and (len(given.names_given) != 1 or len(given.size) != len(SHAPES[given.names_given[0]].full)):
        words.error("--size wants one shape, and as many numbers as it has")
    if given.write and (given.names_given or given.tiny or given.whole):
        words.error("the document has all shapes at their full sizes, and how they grow")
    return given


def main():
    given = words_given()
    if given.names:
        return print("\n".join("%-20s %s" % (name, shape.says) for name, shape in SHAPES.items()))
    runs, out = Runs(given.results), sys.stderr if given.table else sys.stdout
    sizes = {name: given.size or (SHAPES[name].tiny if given.tiny else SHAPES[name].full) for name in given.names_given or SHAPES}
    for name, size in sizes.items():
        measure_whole(given, runs, name, size, out)
    for name, size in sizes.items() if not (given.tiny or given.whole) else ():
        measure_parts(given, runs, name, size, out)
    measured = [runs.measured(name, command, size) for name, size in sizes.items() for command in SHAPES[name].commands]
    for one in measured:
        if growth_of(one):
            print(growth_line(one), file=out)
    if given.table:
        print(table(measured), end="")
    if given.write:
        put_into_document(table(measured))
    if any(one.broken == "refused" or one.broken and not one.known for one in measured):
        sys.exit(1)


if __name__ == "__main__":
    main()
