"""The sources of the project: which items there are, what each names, and in which order the document has them."""
import re
from pathlib import Path

from theorem import code, specs

TOP = Path(__file__).resolve().parent.parent.parent
CRATES = TOP / "crates"

# Types of the code that come with the language or the kit.
KIT_TYPES = {"String", "Vec", "Option", "Result", "Box", "Self"}
# Names of the kit that a pattern takes apart, though they are small and no module says that they are variants.
SMALL_CONSTRUCTORS = {"true", "false", "zero", "suc", "pos", "negsuc", "inl", "inr", "[]"}


class Project:
    def __init__(self):
        self.homes, self.files, self.types, self.declared = {}, {}, {}, {}
        self.linked = set()

    # ---- files

    def home(self, module):
        """The file of definitions of a module of a crate of the project."""
        if module not in self.homes:
            crate, _, *place = module.split(".")
            path = "/".join(["specs", *place]) + ".antt"
            if not (CRATES / crate / path).is_file():
                raise SystemExit(f"theorem_text: the module {module} stands in no file")
            self.homes[module] = specs.read_file(crate, path, (CRATES / crate / path).read_text())
        return self.homes[module]

    def file(self, crate, path):
        """A file of code."""
        if (crate, path) not in self.files:
            self.files[crate, path] = code.CodeFile(crate, path, (CRATES / crate / path).read_text())
        return self.files[crate, path]

    def type(self, crate, path, name):
        """A type, constant or trait that a file of code declares."""
        key = (crate, path, name)
        if key not in self.types:
            self.types[key] = code.type_item(self.file(crate, path), name)
        return self.types[key]

    # ---- what a name stands for

    @staticmethod
    def is_of_the_kit(module):
        return not (CRATES / module.split(".")[0]).is_dir()

    def find(self, module, name):
        """The item of a name of a module, or None where it is of the kit."""
        if self.is_of_the_kit(module):
            return None
        place = module.split(".")
        if "declared" in place:
            crate, *rest = place
            path = rest[rest.index("declared") + 1:]
            if path[-1] == "TheConstants":
                return self.type(crate, f"src/{'/'.join(path[:-1])}.rt", name)
            path = path[:-1] if path[-1] == "TheVariants" else path
            return self.type(crate, f"src/{'/'.join(path[:-1])}.rt", path[-1])
        home = self.home(module)
        if name in home.by_name:
            return home.by_name[name]
        if name in home.names.items:
            return self.find(*home.names.items[name])
        raise SystemExit(f"theorem_text: the module {module} has no {name}")

    def origin(self, module, name):
        """The module that a name comes from, where others pass it on (a crate's Types, or its Prelude), and its name there."""
        while "declared" not in module and module and not self.is_of_the_kit(module):
            home = self.home(module)
            if name in home.by_name or name not in home.names.items:
                break
            module, name = home.names.items[name]
        return module, name

    @staticmethod
    def spelled(names, word, known):
        """A word, an operator or a path as the names of a file have it: the known name, and what is left of a path."""
        for name in (word, f"◌{word}◌", "if◌then◌else◌" if word == "if" else word, f"◌{word}"):
            if name in known or name in names.items:
                return name, None
        head, _, rest = word.partition(".")
        return head, rest

    def resolve(self, item, names, known, word):
        """The item that a word of an item stands for, or its (module, name) in the kit."""
        name, rest = self.spelled(names, word, known)
        if name in known:
            return known[name]
        if name in names.items:
            module, source = self.origin(*names.items[name])
            found = self.find(module, source) or (module, source)
            if name == source:
                item.named[name] = found
            else:
                item.renamed[name] = (module, source)
            return found
        if name in names.modules:
            module, member = names.modules[name], rest.split(".")[0] if rest else name
            if module.split(".")[-1] != name:
                item.renamed[name] = (module, None)
            return self.find(module, member) or (module, member)
        if hasattr(item.home, "uses") and name in item.home.uses:
            return self.rust_type(item.home, name)
        if word.startswith("Prim."):
            return ("Prim", word.removeprefix("Prim."))
        raise SystemExit(f"theorem_text: {item.home.title()}: the name {word} of {item.name} is not found")

    def is_constructor(self, home, word):
        """Whether a word of a pattern takes a value apart, and is no variable."""
        name, rest = self.spelled(home.names, word, home.by_name)
        if name in home.by_name:
            return name in home.by_name[name].constructors
        if rest is not None and name in home.names.modules:
            return True
        module, source = self.origin(*home.names.items.get(name, ("", "")))
        if self.is_of_the_kit(module or "?"):
            return bool(module) and ("TheVariants" in module or module.endswith(".Data") or source in SMALL_CONSTRUCTORS
                                     or "◌" in source or source[0].isupper())
        if "declared" in module:
            return "TheVariants" in module
        found = self.find(module, source)
        return found is not None and source in found.constructors

    def rust_type(self, file, name):
        """The item of a type that a file of code names, or None where it is of the kit."""
        if name in KIT_TYPES or re.match(r"[iu](8|16|32|64|128|size)$", name):
            return None
        if re.search(rf"^(?:pub(?:\([a-z]+\))? )?(?:struct|enum|type|trait) {name}\b", file.text, re.MULTILINE):
            return self.type(file.crate, file.path, name)
        if name not in file.uses:
            raise SystemExit(f"theorem_text: {file.title()}: the type {name} is not found")
        path, source = file.uses[name]
        crate, *place = path.split("::")
        crate = file.crate if crate == "crate" else crate
        if not (CRATES / crate).is_dir():
            return None
        return self.type(crate, self.declaring(crate, "/".join(place), source), source)

    def declaring(self, crate, place, name):
        """The path of the file of a crate that declares a type."""
        if place and (CRATES / crate / f"src/{place}.rt").is_file():
            return f"src/{place}.rt"
        if crate not in self.declared:
            self.declared[crate] = {}
            for path in sorted((CRATES / crate / "src").rglob("*.rt")):
                for _, declared in code.DECLARED.findall(path.read_text()):
                    self.declared[crate].setdefault(declared, []).append(str(path.relative_to(CRATES / crate)))
        places = self.declared[crate].get(name, [])
        if len(places) != 1:
            raise SystemExit(f"theorem_text: {crate} declares {name} in {len(places)} files")
        return places[0]

    # ---- what an item needs

    def link(self, item):
        """Finds what an item names, once."""
        if id(item) in self.linked:
            return
        self.linked.add(id(item))

        def keep(found):
            if isinstance(found, tuple):
                if found not in item.kit:
                    item.kit.append(found)
            elif found is not None and found is not item and found not in item.needs:
                item.needs.append(found)

        if isinstance(item.home, specs.Home):
            home = item.home
            specs.walk_item(item, lambda word: keep(self.resolve(item, home.names, home.by_name, word)),
                            lambda word: self.is_constructor(home, word))
        else:
            names = getattr(item, "names", item.home.names)
            code.walk_item(item, lambda word: keep(self.resolve(item, names, {}, word)), lambda word: keep(self.rust_type(item.home, word)))

    def reached(self, tops):
        """All items that these need, themselves among them, in the order in which they are met."""
        found, todo = {}, list(reversed(tops))
        while todo:
            item = todo.pop()
            if item not in found:
                self.link(item)
                found[item] = True
                todo += reversed(item.needs)
        return list(found)


def crate_order():
    """The crates, the lowest first."""
    return re.findall(r"^([a-z]\w*)\b.*:", (TOP / "crates.txt").read_text(), re.MULTILINE)


def shelf(item):
    """Where an item stands in the document: its file, or the types of code of its crate."""
    return (item.home.crate, item.home.path if isinstance(item.home, specs.Home) or item.kind == "trait" else "src")


def by_need(items):
    """The number of each shelf, those that others need first: in the order in which a walk from the last items leaves them."""
    met, numbers, among = set(), {}, set(items)

    def leave(item):
        met.add(item)
        for need in item.needs:
            if need in among and need not in met:
                leave(need)
        numbers[shelf(item)] = len(met)

    for item in items:
        if item not in met:
            leave(item)
    return numbers


def in_order(items):
    """Items behind all that they need of these, those of a file together where that can be."""
    crates, numbers = {crate: number for number, crate in enumerate(crate_order())}, by_need(items)
    left, ordered, here = dict.fromkeys(items), [], None

    def ready(among):
        return [item for item in among if not any(need in left and need is not item for need in item.needs)]

    def finished(among):
        """Whether the rest of a file needs nothing that is left but itself."""
        return all(need in among or need not in left for item in among for need in item.needs)

    while left:
        shelves = {}
        for item in left:
            shelves.setdefault(shelf(item), []).append(item)
        if here not in shelves or not ready(shelves[here]):
            open_ = [place for place in shelves if ready(shelves[place])]
            if not open_:
                raise SystemExit("theorem_text: definitions need one another: " + ", ".join(item.name for item in left))
            here = min(open_, key=lambda place: (crates[place[0]], not finished(shelves[place]), numbers[place]))
        item = min(ready(shelves[here]), key=lambda item: (item.home.path, item.place))
        ordered.append(item)
        del left[item]
    return ordered
