"""The names that a term of antt uses and does not bind itself.

A term is read as a tree of tokens: words, and groups in brackets. A binder is in scope to the end of the group that it stands in, which is
what antt itself says of `λ`, of `(x : A) →` and of `let`.
"""
import re

TOKEN = re.compile(r'"(?:[^"\\]|\\.)*"|--[^\n]*|\[\]|[(){}\[\],;]|[^\s(){}\[\],;"]+')
CLOSING = {"(": ")", "{": "}", "[": "]"}

# What antt has without an import.
BUILT_IN = {"→", "×", ":", "=", "|", "↦", "then", "else", "as", "in", "Type", "Unit", "tt", "⊥", "absurd", "_", "elim", "record",
            "use", "open", "do"}


class Group(list):
    """What stands between two brackets; `mark` is the opening one."""

    def __init__(self, mark):
        super().__init__()
        self.mark = mark


def tree(text):
    """The tokens of a text, in groups; comments are left out."""
    stack = [Group("")]
    for token in TOKEN.findall(text):
        if token.startswith("--"):
            continue
        if token in CLOSING:
            stack.append(Group(token))
        elif len(stack) > 1 and token == CLOSING[stack[-1].mark]:
            group = stack.pop()
            stack[-1].append(group)
        else:
            stack[-1].append(token)
    if len(stack) != 1:
        raise SystemExit(f"theorem_text: brackets do not match in: {text}")
    return stack[0]


def is_group(item, marks="({["):
    return isinstance(item, Group) and item.mark in marks


def split(items, *marks):
    """The parts of a group between marks of its own level."""
    parts = [[]]
    for item in items:
        if not isinstance(item, Group) and item in marks:
            parts.append([])
        else:
            parts[-1].append(item)
    return parts


def bound_by(group):
    """The names of a group `(x y : A)`, and what stands behind the colon; or None where it is no such group."""
    if not is_group(group, "({") or ":" not in group:
        return None
    place = group.index(":")
    names = group[:place]
    if not names or any(isinstance(name, Group) for name in names):
        return None
    return names, group[place + 1:]


def names_of(items):
    """All words of a pattern of λ."""
    for item in items:
        if isinstance(item, Group):
            yield from names_of(item)
        elif item not in (",", "_"):
            yield item.rstrip(".")


def bind_lambda(items, start, bound, note):
    """Binds what stands between λ and its dot; gives the place behind the dot."""
    place = start
    while place < len(items):
        item = items[place]
        place += 1
        binder = bound_by(item)
        if binder:
            walk(binder[1], bound, note)
            bound.update(binder[0])
        elif isinstance(item, Group):
            bound.update(names_of(item))
        else:
            bound.update(names_of([item]))
            if item.endswith("."):
                break
    return place


def walk_fields(group, bound, note):
    """`{ field = term; .. }` behind `record`, or `{name = term}` as an argument: the names of fields are none of the term's."""
    for part in split(group, ";", ","):
        if len(part) > 1 and part[1] == "=":
            walk(part[2:], bound, note)
        else:
            walk(part, bound, note)


def walk_group(group, bound, note):
    if group.mark == "{":
        walk_fields(group, bound, note)
    elif group.mark == "[":
        for part in split(group, "|"):
            if "↦" in part:
                place = part.index("↦")
                walk(part[place + 1:], bound | set(names_of(part[:place])), note)
            else:
                walk(part, bound, note)
    else:
        for part in split(group, ",", ";"):
            walk(part, bound, note)


def walk(items, bound, note):
    """Calls `note` with each word of a term that is not bound in it."""
    bound, lets, place = set(bound), [], 0
    while place < len(items):
        item = items[place]
        place += 1
        binder = bound_by(item)
        if binder:
            walk(binder[1], bound, note)
            bound.update(binder[0])
        elif isinstance(item, Group):
            walk_group(item, bound, note)
        elif item == "λ":
            place = bind_lambda(items, place, bound, note)
        elif item == "←":
            note(">>=")
        elif item == "let":
            lets.append(items[place])
            place += 1
        elif item == "in" and lets:
            bound.add(lets.pop())
        elif not is_plain(item) and item.split(".")[0] not in bound and item not in bound:
            note(item)


def is_plain(word):
    """Whether a word is no name: a number, a text, a projection, or what antt has itself."""
    return word in BUILT_IN or word[0] in '".' or word.isdigit()


def walk_pattern(items, bound, note, is_constructor):
    """Binds the names of a pattern, and notes its constructors."""
    for item in items:
        if is_group(item, "{") and len(item) > 1 and item[1] == "=":
            walk_pattern(item[2:], bound, note, is_constructor)
        elif isinstance(item, Group):
            walk_pattern(item, bound, note, is_constructor)
        elif item in (",", ";") or is_plain(item):
            continue
        elif is_constructor(item):
            note(item)
        else:
            bound.add(item)


def without_do(text):
    """A clause without the `do` block at its end: what that stands for has `>>=` behind a step `x ← e`, and `>>` behind one without
    a name. A `(← e)` in a step is such a step before it."""
    head, mark, block = text.partition(" do\n")
    if not mark:
        return text
    steps = []
    for line in block.split("\n"):
        if len(line) - len(line.lstrip()) == len(block) - len(block.lstrip()):
            steps.append(line)
        else:
            steps[-1] += " " + line
    term = steps.pop()
    for step in reversed(steps):
        name, arrow, value = step.partition(" ← ")
        if step.strip().startswith("let "):
            term = f"{step} in {term}"
        else:
            term = f"({value}) >>= λ {name}. {term}" if arrow else f"({step}) >> {term}"
    return f"{head} {term}"


def walk_clause(text, name, note, is_constructor):
    """A clause `name patterns = term`, or `pattern op pattern = term`."""
    items = tree(without_do(text))
    place = items.index("=")
    operator = name.replace("◌", "")
    patterns = [item for item in items[:place] if isinstance(item, Group) or item not in (name, operator)]
    bound = set()
    walk_pattern(patterns, bound, note, is_constructor)
    walk(items[place + 1:], bound, note)


def walk_telescope(text, note):
    """The parameters in front of a colon, `(a : A) {b : B}`, and the type behind it; gives the names that they bind."""
    bound = set()
    for item in tree(text):
        binder = bound_by(item)
        if binder:
            walk(binder[1], bound, note)
            bound.update(binder[0])
        elif isinstance(item, Group):
            walk(item, bound, note)
        elif not is_plain(item) and item not in bound:
            note(item)
    return bound
