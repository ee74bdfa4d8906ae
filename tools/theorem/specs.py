"""The definitions of a file of definitions (.antt), each with its comment and the names that it uses."""
import re

from theorem import scopes

HEADER = re.compile(r"^(?:(abbrev|unfoldable) )?(pub )?(?:(record|data) )?(\S+)(?: |$)(.*)$")
IMPORT = re.compile(r"^\s*(?:ghost )?(?:(?:unfoldable )?pub )?use ([\w.]+?)(?:\.\{([^}]*)\}| as (\w+))?;?\s*$", re.MULTILINE)


class Item:
    """What the document prints at once: a definition, or a type, constant or trait of the code."""

    def __init__(self, name, kind, home, place):
        self.name, self.kind, self.home, self.place = name, kind, home, place
        self.section = None     # the line `-- ---- ..` above it, where there is one
        self.comment = []       # the lines of its comment
        self.lines = []         # its lines
        self.constructors = []  # of a `data`
        self.needs = []         # the items that it names
        self.kit = []           # what it names of the kit, as (module, name)
        self.renamed = {}       # the names that an import changed, as the text has them, with what they are
        self.named = {}         # the items that it names by the name that they have, by these names

    def code_lines(self):
        """How many lines it has without comments."""
        return sum(1 for line in self.lines if line.strip() and not line.strip().startswith(("--", "//")))


class Names:
    """What the names of a file stand for: `items` are (module, name), `modules` are modules known by one name."""

    def __init__(self, text):
        self.items, self.modules = {}, {}
        for module, listed, renamed in IMPORT.findall(text):
            module = module.removeprefix("Rattle.") if module.startswith("Rattle.np") else module
            if listed:
                for entry in listed.split(","):
                    source, _, name = entry.strip().partition(" as ")
                    if source:
                        self.items[name or source] = (module, source)
            else:
                self.modules[renamed or module.split(".")[-1]] = module


class Home:
    """A file: its crate, its path in the crate, its first comment, its names and its items."""

    def __init__(self, crate, path, text):
        self.crate, self.path = crate, path
        self.names = Names(text)
        self.head, self.items, self.by_name = [], [], {}

    def title(self):
        return f"{self.crate}/{self.path}"


def header_of(line):
    """The kind and the name that a line begins to define, or None."""
    found = HEADER.match(line)
    if not found or line.startswith(("use ", "pub use ", "unfoldable pub use ", "pub mod ", "infix", "--", " ", "(", "}", ")")):
        return None
    opened, public, shape, name, rest = found.groups()
    if shape:
        return shape, name
    if opened:
        return "definition", name
    return ("proof", name) if rest.startswith(": ") or (public and ":" in rest) else None


def read_file(crate, path, text):
    """The file with its items."""
    home = Home(crate, path, text)
    comment, fixity, section, item, at_head = [], [], None, None, True
    for line in text.split("\n"):
        if line.startswith(("use ", "pub use ", "unfoldable pub use ", "pub mod ")):
            at_head = False
        elif not line.strip():
            if comment and comment[0].startswith("-- ----"):
                section = comment
            item, comment, at_head = None, [], False
        elif line.startswith("--"):
            (home.head if at_head else comment).append(line)
        elif line.startswith("infix"):
            fixity.append(line)
        elif header_of(line):
            kind, name = header_of(line)
            item = Item(name, kind, home, len(home.items))
            item.comment, item.section = comment, section
            item.lines = [*fixity, line]
            comment, fixity = [], []
            home.items.append(item)
        elif item is None:
            raise SystemExit(f"theorem_text: {home.title()} has a line of no definition: {line}")
        else:
            item.lines += [*comment, line]
            comment = []
    for item in home.items:
        item.constructors = [line.split(" : ")[0].strip() for line in item.lines[1:]
                             if item.kind == "data" and re.match(r"^ {1,4}[^\s-]", line) and " : " in line]
        for name in [item.name, *item.constructors]:
            home.by_name[name] = item
    return home


def chunks(lines):
    """Lines with those that go on from them: indented ones, and closing brackets."""
    found = []
    for line in lines:
        if line.strip().startswith("--"):
            continue
        if found and line[0] in " })":
            found[-1] += "\n" + line
        else:
            found.append(line)
    return found


def entries(lines):
    """The fields of a record or the constructors of a data, each with the lines that go on from it."""
    found = []
    for line in lines:
        if line.strip().startswith("--"):
            continue
        if re.match(r"^  \S", line):
            found.append(line)
        else:
            found[-1] += "\n" + line
    return [re.sub(r"^\s*(?:pub )?", "", entry).split(" : ", 1) for entry in found]


def walk_item(item, note, is_constructor):
    """Calls `note` with each name that a definition uses and does not bind."""
    code = [line for line in item.lines if not line.startswith("infix")]
    if item.kind in ("record", "data"):
        start = next(number for number, line in enumerate(code) if line.rstrip().endswith("where"))
        head = " ".join(code[:start + 1]).split(f" {item.name} ", 1)[1].rsplit(" where", 1)[0]
        bound = scopes.walk_telescope(head, note)
        for name, kind in entries(code[start + 1:]):
            scopes.walk(scopes.tree(kind), bound, note)
            if item.kind == "record":
                bound.add(name.strip())
        return
    first, *clauses = chunks(code)
    scopes.walk(scopes.tree(first.split(" : ", 1)[1]), set(), note)
    if item.kind != "proof":
        for clause in clauses:
            scopes.walk_clause(clause, item.name, note, is_constructor)
