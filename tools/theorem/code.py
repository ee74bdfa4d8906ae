"""What definitions name of the code: structs, enums, aliases and constants, and the traits that np_main is called at.

A type is printed short: its comment, and its fields or variants with theirs. Where it has a model, contracts see the value of that, so
the model's lines stand in place of the fields.
"""
import re

from theorem import scopes
from theorem.specs import Item, Names

DECLARED = re.compile(r"^(?:pub(?:\([a-z]+\))? )?(struct|enum|type|const|static|trait) (\w+)", re.MULTILINE)
RUST_USE = re.compile(r"^\s*(?:pub )?use ([\w:]+)::(?:\{([^}]*)\}|(\w+)(?: as (\w+))?);", re.MULTILINE)
WIDTH = 140


class CodeFile:
    """A file of code, with what its `use` lines say."""

    def __init__(self, crate, path, text):
        self.crate, self.path, self.text = crate, path, text
        self.names = Names(text)
        self.uses = {}
        for path_, listed, name, renamed in RUST_USE.findall(text):
            for entry in (listed or f"{name} as {renamed or name}").split(","):
                source, _, known = entry.strip().partition(" as ")
                if source:
                    self.uses[known or source] = (path_, source)

    def title(self):
        return f"{self.crate}/{self.path}"


def closing(text, start):
    """The place behind the bracket that closes the one at `start`."""
    depth = 0
    for place in range(start, len(text)):
        depth += (text[place] in "{([") - (text[place] in "})]")
        if depth == 0:
            return place + 1
    raise SystemExit("theorem_text: a bracket of the code is not closed")


def declaration(file, name):
    """The place of a declaration, and what it declares."""
    for found in DECLARED.finditer(file.text):
        if found.group(2) == name:
            return found.start(), found.group(1)
    raise SystemExit(f"theorem_text: {file.title()} declares no {name}")


def comment_above(text, start):
    """The comment that stands above a place, without attributes."""
    lines = []
    for line in reversed(text[:start].split("\n")[:-1]):
        if not line.startswith(("//", "#[")):
            break
        if line.startswith("//"):
            lines.insert(0, line)
    return lines


def ghost_members(block):
    """The `ghost name = { term };` of an impl, by name."""
    found = {}
    for start in re.finditer(r"ghost (\w+)\s*=\s*(?=\{)", block):
        end = closing(block, start.end())
        found[start.group(1)] = re.sub(r"\s*\n\s*", " ", block[start.end() + 1:end - 1]).strip()
    return found


def impl_of(file, trait, name):
    """The block `impl TRAIT for NAME`, or None."""
    found = re.search(rf"^impl(?:<[^{{]*?>)? {trait} for {name}\b[^{{]*", file.text, re.MULTILINE)
    return file.text[found.end():closing(file.text, found.end())] if found else None


def ghosts_of_impl(trait, item):
    """A line with what contracts see of a type by a trait, where the type meets it; its laws are left out."""
    block = impl_of(item.home, trait.name, item.name)
    if block is None:
        return []
    declared = re.findall(r"ghost (\w+): \{ (.*) \};", "\n".join(trait.lines))
    names = [name for name, kind in declared if not re.search("[≡≤<]", kind)]
    members = ghost_members(block)
    return [f"impl {trait.name} for {item.name}: " + "; ".join(f"{name} = {{ {members[name]} }}" for name in names if name in members)]


def parts_of(body):
    """The fields or variants of a body, each as its comment and its text on one line."""
    parts, comment, text, depth = [], [], "", 0
    for line in body.split("\n"):
        line = line.strip()
        if not line or line.startswith("#["):
            continue
        if line.startswith("//") and depth == 0 and not text:
            comment.append(line)
            continue
        text += (" " if text else "") + line
        depth += sum((sign in "{([<") - (sign in "})]>") for sign in line.replace("->", "").replace("=>", "").replace(" < ", ""))
        if depth == 0:
            text = re.sub(r"^pub(\([a-z]+\))? ", "", text.rstrip(","))
            text = re.sub(r"([({]) (?=\S)", r"\1 ", re.sub(r", \}", " }", text))
            parts.append((comment, re.sub(r"\bpub (?=\w+: )", "", text)))
            comment, text = [], ""
    return parts


def laid_out(head, parts):
    """On one line where there is no comment and it fits, else a line for each part."""
    line = f"{head} {{ {', '.join(text for _, text in parts)} }}"
    if len(line) <= WIDTH and not any(comment for comment, _ in parts):
        return [line]
    lines = [f"{head} {{"]
    for comment, text in parts:
        lines += [f"    {entry}" for entry in [*comment, text + ","]]
    return [*lines, "}"]


def type_item(file, name):
    """A struct, an enum, an alias or a constant, printed short; with the terms and the types in which it names others."""
    start, kind = declaration(file, name)
    item = Item(name, {"const": "constant", "static": "constant", "trait": "trait"}.get(kind, "type"), file, start)
    item.comment = comment_above(file.text, start)
    item.terms, item.types, item.generics = [], "", []
    rest = re.sub(r"^pub(\([a-z]+\))? ", "", file.text[start:])
    head = re.match(r"[^{;(=]*", rest).group().strip()
    item.generics = re.findall(r"[<,]\s*(\w+)", head)
    model = impl_of(file, "Model", name)
    if kind == "trait":
        return trait_item(item, file, rest)
    if model is not None:
        item.names = Names(file.text[:start] + model)
        members = ghost_members(model)
        item.lines = [f"{head}, which contracts see by its model:"]
        item.lines += [f"    {key} = {{ {members[key]} }}" for key in ("Value", "view", "invariant") if key in members]
        item.terms = [members[key] for key in ("Value", "view", "invariant") if key in members]
        item.kind, item.types = "model", head.partition("<")[2]
    elif kind in ("type", "const", "static") or rest[len(re.match(r"[^{;(]*", rest).group())] in ";":
        item.lines = [rest.split(";")[0].replace("\n", " ") + ";"]
        item.types = item.lines[0].split("=")[-1] if kind == "type" else ""
    else:
        opening = re.search(r"[{(]", rest).start()
        parts = parts_of(rest[opening + 1:closing(rest, opening) - 1])
        item.lines = laid_out(head, parts) if rest[opening] == "{" else [f"{head}({', '.join(text for _, text in parts)})"]
        ghosts = [text.split(": ", 1)[1].strip("{} ") for _, text in parts if text.startswith("ghost ")]
        item.terms = ghosts
        if kind == "enum":
            item.types = " ".join(re.sub(r"^\w+", "", text) for _, text in parts)
        else:
            item.types = " ".join(text for _, text in parts if not text.startswith("ghost "))
        item.fields = [text.split(":")[0].replace("ghost ", "") for _, text in parts]
    return item


def clauses(text, form):
    """The terms in braces behind all that has a form."""
    return [text[found.end() + 1:closing(text, found.end()) - 1] for found in re.finditer(form, text)]


def trait_item(item, file, rest):
    """A trait with its comments and contracts, as it stands."""
    end = closing(rest, rest.index("{"))
    item.lines = rest[:end].split("\n")
    text = re.sub(r"//[^\n]*", "", rest[:end])
    item.fields = [*re.findall(r"ghost (\w+)", text), *re.findall(r"(\w+): ", text), "self", "Self", "result", "into", "P", "S"]
    item.terms = clauses(text, r"(?:ensures|requires)(?: \w+)? (?=\{)|ghost \w+: (?=\{)")
    return item


def function_item(file, name, with_body=False):
    """The head of a function with its clauses, and its body where it is wanted."""
    start = re.search(rf"^(?:pub )?fn {name}\b", file.text, re.MULTILINE).start()
    head = file.text[start:].split("\n{\n" if "\n{\n" in file.text[start:] else " {\n")[0]
    item = Item(name, "function", file, start)
    item.comment = comment_above(file.text, start)
    item.lines = file.text[start:].split("\n}\n")[0].split("\n") + ["}"] if with_body else head.split("\n")
    text = re.sub(r"//[^\n]*", "", head)
    item.generics = re.findall(r"[<,]\s*(\w+):", text)
    item.fields = [*re.findall(r"(\w+): ", text), "result"]
    item.terms = clauses(text, r"(?:ensures|requires)(?: \w+)? (?=\{)")
    item.types = re.split(r"\n\s*(?:ensures|requires)", text)[0]
    return item


def walk_item(item, note, note_type):
    """Calls `note` with each name of the terms of a piece of code, and `note_type` with each of its types."""
    bound = {*item.generics, *getattr(item, "fields", []), "Self", "self"}
    for term in item.terms:
        scopes.walk(scopes.tree(term), bound, note)
    for word in re.findall(r"\b[A-Z]\w*", item.types):
        if word not in item.generics and word != item.name:
            note_type(word)
