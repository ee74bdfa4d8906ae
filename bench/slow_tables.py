"""What bench/slow.py measured, as lines and as the tables of docs/develop/LIMITS.md."""
import collections
import itertools
import os
import signal
import time

from shape import SHAPES
from slow_runs import MOST_BYTES, growth, has_answer, was_ended

TOP = os.path.join(os.path.dirname(os.path.abspath(__file__)), "..")
SECONDS = 60
# Ordinary clusters take at most so many times the bytes that are read; little memory is not compared, since the program itself takes some.
TIMES = 80
LITTLE = 30000000

# A command of a shape: its runs by the part of the full size, 1, 2, 4 and so on, and which bounds the one at full size breaks, and why that
# is known.
Measured = collections.namedtuple("Measured", "name command parts broken known")


def size_of(count):
    """A number of bytes with a unit of thousands, in three digits or so."""
    for unit, one in (("GB", 1e9), ("MB", 1e6), ("kB", 1e3)):
        if count >= one:
            return "%.*f %s" % (1 if count < 100 * one else 0, count / one, unit)
    return "%d B" % count


def numbers_of(sizes):
    return " x ".join("{:,}".format(size) for size in sizes)


def ending_of(done):
    if was_ended(done):
        return "> %d s" % done["seconds"], "ended"
    return "%.2f s" % done["took"], str(done["status"]) if done["status"] >= 0 else signal.Signals(-done["status"]).name


def line_of(done, broken, known):
    """A run, as a line."""
    took, ending = ending_of(done)
    told = " ".join([broken, "(known)" if broken and known else "", done["fault"][:60] if broken else ""])
    read, memory, printed = (size_of(done[what]) for what in ("read", "memory", "printed"))
    line = "%-20s %-18s %8s read  %-8s %9s  %-7s %8s  %8s printed  %s"
    return (line % (done["name"], numbers_of(done["size"]), read, done["command"], took, ending, memory, printed, told)).rstrip()


def growth_line(one):
    """How a command grows with a shape, as a line."""
    return "%-20s %-8s grows: %s" % (one.name, one.command, growth_of(one))


def growth_of(one):
    """How many times what it takes at half the size, in words; nothing where that was not measured."""
    told = growth(one.parts)
    if not told:
        return "" if len(one.parts) < 2 else "not told"
    part, seconds, memory = told
    return "time x%.1f, memory x%.1f%s" % (seconds, memory, "" if part == 1 else ", at 1/%d" % part)


def row(*cells):
    return "| %s |" % " | ".join(cells)


def under(columns):
    return "|" + "---|" * columns


def words_joined(measured):
    return ", ".join(one.command for one in measured)


def most(measured, what):
    return size_of(max(one.parts[1][what] for one in measured))


def processor():
    with open("/proc/cpuinfo") as f:
        return next((line.split(":", 1)[1].strip() for line in f if line.startswith("model name")), "a processor that has no name")


def heading(measured):
    version = open(os.path.join(TOP, "VERSION")).read().strip()
    day = time.strftime("%-d %B %Y", time.gmtime())
    given = " or ".join(str(s) for s in sorted({one.parts[1]["seconds"] for one in measured}))
    lines = ["Measured on %s with version %s of the program, on one of %d processors (%s). Each run had %s seconds of processor time, and"
             " %s of address space." % (day, version, os.cpu_count(), processor(), given, size_of(MOST_BYTES)), ""]
    if any("slow" in one.broken and one.parts[1]["seconds"] < SECONDS for one in measured):
        lines += ["Runs that were ended before %d seconds count as slow; some of them might have had an answer by then." % SECONDS, ""]
    return lines


def fastest_growing(measured):
    """Of those that were measured at half their size, how the one grows whose time grows most."""
    told = [one for one in measured if growth(one.parts)]
    return growth_of(max(told, key=lambda one: growth(one.parts)[1])) if told else "not told"


def breaches(measured):
    broken = [one for one in measured if one.broken]
    lines = ["### What breaks the bounds", ""]
    if broken:
        lines += ["Where commands share a row, the numbers are the greatest of them, and the growth is that whose time grows most.", "",
                  row("shape", "command", "bound", "time", "memory", "printed", "grows", "why"), under(8)]
    for (name, how, why), alike in itertools.groupby(broken, lambda one: (one.name, one.broken, one.known)):
        together = list(alike)
        took = ending_of(max((one.parts[1] for one in together), key=lambda done: done["took"]))[0]
        lines.append(row(name, words_joined(together), how, took, most(together, "memory"), most(together, "printed"),
                         fastest_growing(together), why or "**not known yet**"))
    if not broken:
        lines.append("Nothing does.")
    fine = ["%s with %s" % (one.command, one.name) for one in measured if one.known and not one.broken]
    if fine:
        lines += ["", "Listed as breaking a bound, and within all of them here: %s." % ", ".join(fine)]
    return [*lines, ""]


def large_ones(measured):
    lines = ["### What takes more memory than its size explains", "",
             "More than %s, and more than %d times the bytes that were read:" % (size_of(LITTLE), TIMES), "",
             row("shape", "command", "read", "memory", "times"), under(5)]
    large = [one for one in measured if one.parts[1]["read"] and one.parts[1]["memory"] > max(LITTLE, TIMES * one.parts[1]["read"])]
    for name, alike in itertools.groupby(large, lambda one: one.name):
        together = list(alike)
        times = max(one.parts[1]["memory"] / one.parts[1]["read"] for one in together)
        lines.append(row(name, words_joined(together), most(together, "read"), most(together, "memory"), "%d" % times))
    return [*lines, ""]


def run_row(one, part, grows, bound):
    done = one.parts[part]
    read, memory, printed = (size_of(done[what]) for what in ("read", "memory", "printed"))
    size = numbers_of(done["size"]) + ("" if part == 1 else " (1/%d)" % part)
    return row(one.name, size, read, one.command, *ending_of(done), memory, printed, grows, bound)


def all_runs(measured):
    """Each command at full size, and where it had no answer also at the greatest part of it that had one."""
    titles = row("shape", "size", "read", "command", "time", "status", "memory", "printed", "grows", "bound")
    lines = ["### All runs", "", titles, under(10)]
    for one in measured:
        lines.append(run_row(one, 1, growth_of(one), one.broken))
        answers = [part for part, done in one.parts.items() if has_answer(done)]
        if answers and min(answers) > 1:
            lines.append(run_row(one, min(answers), "", ""))
    return lines


def table(measured):
    """All that was measured, as Markdown."""
    names = {one.name for one in measured}
    shapes = [row(name, shape.says) for name, shape in SHAPES.items() if name in names]
    lines = [*heading(measured), *breaches(measured), *large_ones(measured), "### The shapes", "", row("shape", "what it is"), under(2),
             *shapes, "", *all_runs(measured)]
    return "\n".join(lines) + "\n"
