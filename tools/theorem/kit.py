"""What the kit's own sources say of its names: a line each.

A name is looked for in the file of its module, and from there where that file passes it on from. Its line is the comment above its
definition, or what the head of the file says of it, or its equations where they are short, or else its type. The kit is the folder of the
command `rt`; where there is none, the lines are those that the document has already.
"""
import re
import shutil
from pathlib import Path

from theorem.specs import IMPORT

WIDTH = 200

# What names are of which the kit's sources say it for who knows it already, or not at all.
PLAIN = {
    "std": {
        "◌+◌": "the sum", "◌-◌": "the difference, and 0 where that is negative", "◌*◌": "the product", "◌^◌": "the power",
        "◌/◌": "the quotient, rounded down", "◌%◌": "what a division leaves", "max": "the greater one", "min": "the smaller one",
        "◌<◌": "a is less than b", "◌≤◌": "a is at most b", "◌≡◌": "a and b are equal", "nat_eq": "whether they are equal",
        "nat_le": "whether m is at most n", "nat_lt": "whether m is less than n", "ℕ": "the natural numbers, from 0 on", "zero": "0",
        "suc": "suc n is n + 1", "ℤ": "the integers: pos n, and negsuc n", "pos": "pos n is n, as an integer",
        "negsuc": "negsuc n is -(n + 1)", "Bool": "true and false", "true": "as in Haskell", "false": "as in Haskell",
        "if◌then◌else◌": "as in Haskell", "Ordering": "Less, Equal or Greater", "Less": "the first is less",
        "Equal": "they are equal", "Global": "the allocator", "w32": "a word of 32 bits, which has four bytes",
        "◌∷◌": "x ∷ xs is the list of x and then xs (infixr 67)", "replicate": "replicate n x: the list of n times x",
        "option_map_or": "option_map_or f None d = d; option_map_or f (Some x) d = f x",
        "option_and_then": "option_and_then f None = None; option_and_then f (Some x) = f x",
        "flat_map": "flat_map f xs: what f gives of each item, one list after another", "string_bytes": "the bytes of a String",
        "is_digit": "is_digit c radix: whether c is a digit of the radix, of either case",
        "digits": "digits base upper n: the digits of n in the base, those from 10 on as letters, small ones unless `upper`",
    },
    "clap": {
        "all_of": "all_of id rows: the values that were found for the argument of this name, where there are any",
        "first_of": "first_of id rows: the first of these", "Rule": "an argument, as a parse reads it",
        "new_rule": "new_rule id: an argument of this name, without a long name, a default and a need to be given",
        "new_shape": "new_shape name: a command of this name without arguments",
    },
}

def root():
    """The folder of the kit's sources, or None."""
    command = shutil.which("rt")
    folder = Path(command).resolve().parent.parent / "rattle" if command else None
    return folder if folder and folder.is_dir() else None


# The crates of the kit that the library `std` passes on.
STANDARD = ["core", "std_alloc", "std_collections", "std_heap", "std_io"]


def candidates(kit, module):
    """The files in which a module of the kit may stand."""
    library, *place = module.removeprefix("Rattle.").split(".")
    path = "/".join(place)
    if module.startswith("Rattle."):
        suffix = "antt"
        if "declared" in place:
            place = place[place.index("declared") + 1:]
            path, suffix = "src/" + "/".join(name for name in place if name[0].islower()), "rt"
        return [kit / crate / f"{path}.{suffix}" for crate in [library, *(STANDARD if library == "std" else [])]]
    roots = [kit / "logic" / "Lib", kit / "antt/port/mathlib/src", kit / "antt/lib/src", kit / "antt/lib/native/src"]
    return [folder / f"{path}.antt" for folder in roots]


def passed_on(text, name):
    """The modules from which a file passes a name on, each with the name there."""
    for module, listed, _ in IMPORT.findall(re.sub(r"^unfoldable ", "", text, flags=re.MULTILINE)):
        for entry in listed.split(","):
            source, _, known = entry.strip().partition(" as ")
            if (known or source) == name:
                yield module, source


def comment_above(lines, number, mark):
    """The comment above a line, as one text."""
    found = []
    while number > 0 and lines[number - 1].strip().startswith(mark):
        number -= 1
        found.insert(0, lines[number].strip().lstrip("-/! ").strip())
    return " ".join(found) if found and not found[0].startswith("----") else ""


def said_at_head(lines, name):
    """What the head of a file says of a name, where it lists its words."""
    for line in lines:
        if not line.startswith("--"):
            break
        found = re.match(rf"--\s+((?:[^ ]+ )*?{re.escape(name)}\b.*?\s{{3,}}\S.*)", line)
        if found:
            return re.sub(r"\s{3,}", ": ", found.group(1))
    return ""


def defined(lines, name):
    """The number of the line that defines a name, or None."""
    form = re.compile(rf"\s*(?:abbrev |unfoldable |opaque |pub |record |data )*{re.escape(name)}( |$)(?=[:({{w]|$)")
    return next((number for number, line in enumerate(lines) if form.match(line)), None)


def equations(lines, number, name):
    """The equations of a definition on one line, where they are few and short; else its type."""
    operator = name.replace("◌", "")
    indent = len(lines[number]) - len(lines[number].lstrip())
    kind = re.sub(r"^(?:(?:abbrev|unfoldable|opaque|pub) )+", "", lines[number].strip()).removesuffix(" where")
    found = []
    for line in lines[number + 1:]:
        if not line.strip() or len(line) - len(line.lstrip()) != indent or " = " not in line or operator not in line:
            break
        if line.rstrip().endswith(("{", "do", "in")):
            return kind
        found.append(line.strip())
    text = "; ".join(found)
    return text if found and len(text) <= WIDTH - 40 else kind


def fixity(lines, name):
    """How an operator binds, where its file says so."""
    found = [line.strip() for line in lines if re.fullmatch(rf"\s*infix[lr]? \d+ {re.escape(name)}", line)]
    return f" ({found[0].rsplit(' ', 1)[0]})" if found else ""


def look_up(kit, module, name, depth=0):
    """The line of a name, or an empty one."""
    library = module.split(".")[1] if module.startswith("Rattle.") else "std"
    if name in PLAIN.get(library, {}):
        return PLAIN[library][name]
    if depth > 6:
        return ""
    for path in candidates(kit, module):
        if not path.is_file():
            continue
        text = path.read_text()
        lines = text.split("\n")
        if path.suffix == ".rt":
            lines = [line for line in lines if not line.strip().startswith("#[")]
            form = re.compile(rf"\s*(?:pub )?(?:struct|enum|type) {re.escape(name)}\b|\s+{re.escape(name)}[,({{]")
            number = next((number for number, line in enumerate(lines) if form.match(line)), None)
            if number is not None:
                return comment_above(lines, number, "///") or lines[number].strip().rstrip("{ ")
            continue
        number = defined(lines, name)
        if number is not None:
            said = comment_above(lines, number, "--") or said_at_head(lines, name) or equations(lines, number, name)
            return said + fixity(lines, name)
        for further, source in passed_on(text, name):
            found = look_up(kit, further, source, depth + 1)
            if found:
                return found
    return ""


def kept_lines(document):
    """The lines that a document has already, by module and name."""
    found, module = {}, None
    for line in document.split("\n"):
        if re.fullmatch(r"[A-Za-z_]+(\.[A-Za-z0-9_]+)+", line):
            module = line
        elif module and (entry := re.fullmatch(r"  (\S+)(?:\s+(.*))?", line)):
            found[module, entry.group(1)] = entry.group(2) or ""
        else:
            module = None
    return found


def kept_line(kept, module, name):
    """The line that a document has for a name, though it be under another module that passes it on."""
    line = kept.get((module, name))
    return next((line for (_, other), line in kept.items() if other == name), "") if line is None else line


def once(names, said):
    """The names, each under one module of those that pass it on, the Prelude before others. `said` gives the line of a name: what two
    modules say otherwise they have otherwise."""
    found = {}
    for module, name in sorted(names, key=lambda entry: (not entry[0].endswith(".Prelude"), entry)):
        found.setdefault((name, said(module, name)), (module, name))
    return found.values()


def appendix(names, said):
    """The lines of the appendix, by module; `said` gives the line of a name."""
    lines, modules = [], {}
    for module, name in once(names, said):
        modules.setdefault(module, set()).add(name)
    for module in sorted(modules):
        lines += ["", module]
        listed = sorted(modules[module], key=lambda name: (name.replace("◌", "").lower(), name))
        width = min(28, max(len(name) for name in listed))
        for name in listed:
            text = re.sub(r"\s+", " ", said(module, name))
            text = text if len(text) <= WIDTH else text[:WIDTH].rsplit(" ", 1)[0] + " .."
            lines.append(f"  {name:<{width}}  {text}".rstrip())
    return lines
