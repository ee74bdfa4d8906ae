"""The pages of docs/proof/THEOREM.txt."""
import re
import textwrap
from pathlib import Path

from theorem import code, kit, project, specs

WIDTH = 120

# The parts of the promises, each with the files at its top, of which the definitions stand in it that the promises reach. The last one
# has what else these and the head of the contract reach.
PARTS = [
    ("What the words ask for", ["np_args/specs/CommandLines.antt"]),
    ("What sources and sinks tell",
     ["np_io/src/inputs.rt", "np_io/src/sink.rt", "np_frame/specs/Sources.antt", "np_command/specs/Sinks.antt"]),
    ("What `list` says: the headline", ["np_command_list/specs/Promise.antt"]),
    ("What `explain` says", ["np_command_explain/specs/Promise.antt"]),
    ("What `exposure` says", ["np_command_exposure/specs/Promise.antt"]),
    ("What `evaluate` says", ["np_command_evaluate/specs/Promise.antt"]),
    ("What `unused` says", ["np_command_unused/specs/Promise.antt"]),
    ("What `check` says", ["np_command_check/specs/Promise.antt"]),
    ("What `flatten` says", ["np_command_flatten/specs/Promise.antt"]),
    ("What is promised of every run", []),
]
# Behind them a part for each other clause: its title, and the file and the name of what the clause says.
CLAUSES = [
    ("Which bytes", "np_cli/specs/Bytes.antt", "Bytes"),
    ("What it costs", "np_cli/specs/Counts.antt", "Counted"),
]
PROMISES = "np_cli/specs/Promises.antt"
# The files at the top of a part that do not stand first in it, and that which does in the last part of the promises.
NOT_FIRST, LAST_FIRST = {"np_frame/specs/Sources.antt", "np_command/specs/Sinks.antt"}, "np_cli/specs/Outcomes.antt"
# Stands where the contents are to stand.
CONTENTS = "CONTENTS"

# What is written by hand.
BY_HAND = ["front.txt", "headline.txt", "kit.txt", "parts.txt", "estates.txt"]
# Has the lists of the estates that are worked out by hand.
ESTATES = project.TOP / "transcripts" / "worked-estates.txt"


def prose(name):
    """The lines of a text that stands beside this file, written by hand."""
    return (Path(__file__).resolve().parent / name).read_text().rstrip("\n").split("\n")


def estates():
    """What is written by hand of two estates. For a line `@ ..` stands the input under that comment of their transcript."""
    blocks = [block.split("\n") for block in ESTATES.read_text().split("\n\n")]
    lists = {block[0].removeprefix("# "): [f"  {line[2:]}" for line in block if line.startswith("< ")] for block in blocks}
    return [line for entry in prose("estates.txt") for line in (lists[entry[2:]] if entry.startswith("@ ") else [entry])]


def said_of_parts(titles):
    """What is written by hand of each part, by its title."""
    found, title = {}, ""
    for line in prose("parts.txt"):
        if line.startswith("== "):
            title = line.removeprefix("== ")
            found[title] = []
        else:
            found[title].append(line)
    if list(found) != titles:
        raise SystemExit("theorem_text: parts.txt does not have the titles of the parts, in their order")
    return {title: "\n".join(lines).rstrip("\n").split("\n") for title, lines in found.items()}


class Document:
    def __init__(self, kit_line):
        self.kit_line = kit_line
        self.project = project.Project()
        self.main = code.function_item(self.project.file("np_cli", "src/run.rt"), "np_main")
        self.headline = code.function_item(self.project.file("np_cli", "src/in_memory.rt"), "answer")
        self.all = self.project.reached([self.main])
        self.in_memory = [item for item in self.project.reached([self.headline]) if item not in [self.headline, *self.all]]
        self.all += [self.headline, *self.in_memory]
        self.clauses = [next(item for item in self.all if (item.home.title(), item.name) == (path, name)) for _, path, name in CLAUSES]
        self.promised = self.project.reached([item for item in self.main.needs if item not in self.clauses])
        self.promises = [item for item in self.promised if item.home.title() == PROMISES]
        self.titles = [title for title, *_ in [*PARTS, *CLAUSES]]
        self.parts = self.in_parts()
        self.part_of = {item: number for number, part in enumerate(self.parts, 1) for items in part for item in items}
        self.said = said_of_parts(self.titles)
        for trait in [item for item in self.all if item.kind == "trait"]:
            trait.lines += [line for item in self.all if item.kind == "model" for line in code.ghosts_of_impl(trait, item)]
        self.spelled = {}
        for item in self.all:
            for name in [item.name, *item.constructors]:
                self.spelled.setdefault(name, []).append(item)
        self.check()

    def in_parts(self):
        """The items of each part: those of its promise, and behind them the others, each in order."""
        tops = [[item for item in self.promised if item.home.title() in files] for _, files in PARTS[:-1]]
        first = [*({*files} - NOT_FIRST for _, files in PARTS[:-1]), {LAST_FIRST}, *({path} for _, path, _ in CLAUSES)]
        done, parts = {*self.promises, self.main, self.headline, *self.in_memory}, []
        for roots, files in zip([*tops, self.promised, *([clause] for clause in self.clauses)], first):
            new = [item for item in self.project.reached(roots) if item not in done]
            ordered = project.in_order(new)
            promise = [item for item in ordered if "/".join(project.shelf(item)) in files]
            parts.append((promise, [item for item in ordered if item not in promise]))
            done.update(new)
        return parts

    def check(self):
        """Refuses where an item stands before one that it needs, but for those of a part's promise, or where one is in no part."""
        seen = {*self.promises, self.main, self.headline, *self.in_memory}
        for promise, others in self.parts:
            seen.update(promise)
            for item in others:
                for need in item.needs:
                    if need not in seen and need is not item:
                        raise SystemExit(f"theorem_text: {item.home.title()}: {item.name} stands before {need.name}")
                seen.add(item)
        for item in self.all:
            if item not in seen:
                raise SystemExit(f"theorem_text: {item.home.title()}: {item.name} is in no part")
        known = {word for item in self.all for line in item.lines for word in re.findall(r"\w+", line)}
        for file in BY_HAND:
            for name in re.findall(r"`([A-Za-z]\w*[A-Z_]\w*)(?: : )?`", "\n".join(prose(file))):
                if name not in known:
                    raise SystemExit(f"theorem_text: {file} speaks of {name}, which stands nowhere")

    # ---- counts

    @staticmethod
    def counts(items):
        """How many definitions, the contract among them, lines of these, types of code, lines of those, and lines of comments."""
        definitions = [item for item in items if isinstance(item.home, specs.Home) or item.kind == "function"]
        types = [item for item in items if item not in definitions]
        comments = sum(len(item.comment) + len(item.lines) - item.code_lines() for item in items)
        return (len(definitions), sum(item.code_lines() for item in definitions),
                len(types), sum(item.code_lines() for item in types), comments)

    def table(self):
        """How much there is to read, part by part: for the promises, and in all."""
        def together(rows):
            return tuple(map(sum, zip(*(numbers for _, numbers in rows))))
        parts = [(f"{number}. {title}", self.counts([*promise, *others]))
                 for number, (title, (promise, others)) in enumerate(zip(self.titles, self.parts), 1)]
        promised = [("The headline", self.counts([self.headline, *self.in_memory])),
                    ("The contract and its promises", self.counts([self.main, *self.promises])), *parts[:len(PARTS)]]
        rows = [*promised, ("All that is promised", together(promised)), *parts[len(PARTS):]]
        rows.append(("All of it", together([*promised, *parts[len(PARTS):]])))
        lines = [f"{'':<36}{'definitions':>12}{'lines':>7}{'types of code':>15}{'lines':>7}{'comments':>10}"]
        return lines + [f"{title:<36}{a:>12}{b:>7}{c:>15}{d:>7}{e:>10}" for title, (a, b, c, d, e) in rows]

    @classmethod
    def size_of(cls, items):
        """As `12 definitions, 140 lines; 3 types of code, 20 lines`."""
        def many(count, word):
            return f"{count} {word}{'' if count == 1 else 's'}"
        definitions, lines, types, type_lines, _ = cls.counts(items)
        said = f"{many(definitions, 'definition')}, {many(lines, 'line')}"
        return said + (f"; {many(types, 'type')} of code, {many(type_lines, 'line')}" if types else "")

    # ---- the text of items

    def remarks(self, items):
        """What names of these items stand for that an import renamed, or that several definitions have."""
        found, files, own = {}, {}, set(items)
        for item in items:
            for name, (module, source) in item.renamed.items():
                found[name if source else f"{name}.x"] = ("" if source else "x of ") + self.meant(module, source)
            for name, need in item.named.items():
                if need not in own and self.is_told_apart(name, need):
                    file = f"the kit's {need[0]}" if isinstance(need, tuple) else need.home.title()
                    files.setdefault(file, set()).add(name)
        told = [name for names in [found, *files.values()] for name in names]
        if len(set(told)) < len(told):
            raise SystemExit(f"theorem_text: {items[0].home.title()}: a name would be said to be two things: {told}")
        said = [f"`{name}` is {what}" for name, what in sorted(found.items())]
        return said + [f"{', '.join(f'`{name}`' for name in sorted(names))} {'is that' if len(names) == 1 else 'are those'} of {file}"
                       for file, names in sorted(files.items())]

    def is_told_apart(self, name, need):
        """Whether something else that stands here has the name, too."""
        return ">>" not in name and any(item is not need for item in self.spelled.get(name, []))

    def meant(self, module, source):
        """What a renamed name is, as `Job.List` of np_args."""
        crate, *place = module.removeprefix("Rattle.").split(".")
        if "declared" in place:
            place = place[place.index("declared") + 1:]
            variants = place[-1] == "TheVariants"
            place = place[:-1] if variants else place
            file = f"/src/{'/'.join(place[:-1])}.rt" if len(self.spelled.get(place[-1], [])) > 1 else ""
            return f"`{place[-1]}{f'.{source}' if source and variants else ''}` of {crate}{file}"
        path = f"{crate}/{'/'.join(place)}.antt" if (project.CRATES / crate).is_dir() else f"the kit's {module}"
        return f"`{source}` of {path}" if source else path

    def here(self, items):
        remarks = self.remarks(items)
        text = f"Here {'; '.join(remarks)}." if remarks else ""
        return textwrap.wrap(text, WIDTH, initial_indent="    ", subsequent_indent="    ", break_on_hyphens=False, break_long_words=False)

    @staticmethod
    def lines_of(item):
        if item.kind == "proof":
            return [*item.comment, specs.chunks(item.lines)[0], "-- (its proof is left out)"]
        return [*item.comment, *item.lines]

    def shelf_lines(self, items):
        """The items of one file, or types of code of one crate, that stand together."""
        home = items[0].home
        if isinstance(home, specs.Home):
            lines = [f"━━━ {home.title()}", *home.head, *self.here(items)]
        else:
            lines = [f"━━━ {home.crate}: types of the code"]
        section = None
        for item in items:
            if item.section and item.section != section:
                lines += ["", *item.section]
            section = item.section
            lines.append("")
            if not isinstance(home, specs.Home):
                lines.append(f"// {item.home.path}")
            lines += self.lines_of(item)
        return lines

    @staticmethod
    def shelves(items):
        """The items that stand together, of those in this order."""
        found = []
        for item in items:
            if found and project.shelf(found[-1][0]) == project.shelf(item):
                found[-1].append(item)
            else:
                found.append([item])
        return found

    def part_lines(self, number, promise, others):
        lines, crate = self.head_lines(number, promise, others), None
        for shelf in self.shelves(promise):
            lines += ["", *self.shelf_lines(shelf)]
        for shelf in self.shelves(others):
            if shelf[0].home.crate != crate:
                crate = shelf[0].home.crate
                lines += ["", "", *self.crate_lines(crate)]
            lines += ["", *self.shelf_lines(shelf)]
        return lines

    def head_lines(self, number, promise, others):
        """What is said at the head of a part: with what it begins, what it needs of others, and what is written of it by hand."""
        names = [item.name for item in promise if not any(item in other.needs for other in promise)]
        needs = {}
        for item in [*promise, *others]:
            for need in item.needs:
                part = self.part_of.get(need, number)
                if part != number:
                    needs.setdefault(part, set()).add(need.home.crate)
        order = project.crate_order()
        said = "; ".join(f"part {part} ({', '.join(sorted(needs[part], key=order.index))})" for part in sorted(needs))
        text = f"Its promise stands first: {', '.join(f'`{name}`' for name in names)}. It needs {said or 'no other part'}."
        return ["", *textwrap.wrap(text, WIDTH, break_on_hyphens=False), "", *self.said[self.titles[number - 1]]]

    def crate_lines(self, crate):
        """The name of a crate, with what its code says of it."""
        text = self.project.file(crate, "src/lib.rt").text
        said = " ".join(line.removeprefix("//!").strip() for line in re.match(r"(//!.*\n)*", text).group().split("\n"))
        said = said.split("  ")[0].strip()
        return textwrap.wrap(f"{crate.upper()}. {said}", WIDTH)

    # ---- the document

    def where_defined(self):
        """Where the definitions stand that the promises name."""
        found = {}
        for item in [self.headline, *self.in_memory, self.main, *self.promises]:
            for need in item.needs:
                if need in self.part_of:
                    found.setdefault(self.part_of[need], set()).add(need.name)
        return [line for number in sorted(found) for line in
                textwrap.wrap(f"Part {number}: {', '.join(sorted(found[number]))}.", WIDTH, initial_indent="  ", subsequent_indent="    ")]

    def front(self):
        main = code.function_item(self.project.file("np", "src/main.rt"), "main", with_body=True)
        counted = code.function_item(self.project.file("np", "src/main.rt"), "run_counted", with_body=True)
        lines = [*prose("front.txt"), "", "HOW MUCH THERE IS TO READ", "", *self.table(), ""]
        lines += ["Lines are counted without comments and empty lines; those of types as they stand in this document.",
                  "With comments, headings and empty lines the document has LINES lines, the appendix among them.", "", CONTENTS, ""]
        lines += ["", title_line("THE HEADLINE"), "", *prose("headline.txt"), "", f"━━━ {self.headline.home.title()}", ""]
        lines += [*self.headline.comment, *self.headline.lines, "", "The words of this contract stand here, or below:", ""]
        for shelf in self.shelves(project.in_order(self.in_memory)):
            lines += [*self.shelf_lines(shelf), ""]
        lines += [f"({self.size_of([self.headline, *self.in_memory])}.)", ""]
        lines += ["", title_line("THE CONTRACT"), "", f"━━━ {self.main.home.title()}", "", *self.main.comment, *self.main.lines, ""]
        lines += ["How the program calls it:", "", f"━━━ {main.home.title()}", "", *main.lines, ""]
        lines += [*counted.comment, *counted.lines, ""]
        lines += ["", title_line("THE PROMISES"), "",
                  "This is what the clause `promises` says. The words of the contract and of these stand below:", *self.where_defined(), ""]
        lines += [*self.shelf_lines(project.in_order(self.promises)), ""]
        lines += [f"({self.size_of([self.main, *self.promises])}.)", ""]
        return lines

    def lines(self):
        lines = self.front()
        for number, (title, (promise, others)) in enumerate(zip(self.titles, self.parts), 1):
            lines += ["", title_line(f"PART {number}. {title}"), *self.part_lines(number, promise, others), ""]
            lines += [f"(Part {number}: {self.size_of([*promise, *others])}.)", ""]
        names = {name for item in self.all for name in item.kit}
        lines += ["", title_line("TWO WORKED ESTATES"), "", *estates(), ""]
        lines += ["", title_line("THE KIT IN WORDS"), "", *prose("kit.txt"), ""]
        lines += ["", title_line("APPENDIX. Names of the kit"), "",
                  "What the definitions use of the kit (Rattle) and its logic, by the modules from which they import it. A line is what",
                  "the kit's own sources say of the name, or its equations or its type there; for some it is written by hand.",
                  *kit.appendix(names, self.kit_line)]
        return with_contents(lines)


def contents(lines):
    """The line of each part, and within it that of each crate."""
    found = []
    for number, line in enumerate(lines, 1):
        if line.startswith("════════ "):
            found.append([f"{line.strip('═ ')}: line {number}"])
        elif re.match(r"NP_[A-Z]+\. ", line):
            found[-1].append(f"{line.split('.')[0].lower()} {number}")
    return [line for title, *crates in found for line in
            textwrap.wrap(title + (f" ({', '.join(crates)})" if crates else ""), WIDTH, initial_indent="  ", subsequent_indent="    ")]


def with_contents(lines):
    """The lines with those of the contents in their place. They say where the others stand, so they are made until they are true."""
    place, made = lines.index(CONTENTS), []
    while True:
        whole = [*lines[:place], *made, *lines[place + 1:]]
        if contents(whole) == made:
            return [line.replace("LINES lines", f"{len(whole):,} lines") for line in whole]
        made = contents(whole)


def title_line(title):
    return f"{'═' * 8} {title} {'═' * max(8, WIDTH - 10 - len(title))}"
