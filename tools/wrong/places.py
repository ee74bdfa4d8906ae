"""The functions that an edit touches, by the names that the prover gives them.

Sources stand in the kit's layout, so what a line belongs to is told by how far lines are indented: the function is the nearest `fn`
above that stands further left, and its type the nearest `impl` or `trait` further left again.
"""
import re

FUNCTION = re.compile(r"( *)(?:pub(?:\([^)]*\))? )?(?:const )?(?:unsafe )?fn (\w+)")
HOME = re.compile(r"( *)(?:pub(?:\([^)]*\))? )?(?:impl|trait)\b(.*)")


def module_of(path):
    """The module of a file of src/, as the words of its path below the crate."""
    words = path.removeprefix("src/").removesuffix(".rt").split("/")
    return [it for it in words if it not in ("lib", "main", "mod")]


def indent(line):
    return len(line) - len(line.lstrip(" "))


def above(lines, number, pattern, room):
    """The nearest match above the line, or in it, that is indented less than `room`, with the number of its line."""
    for at in range(number, 0, -1):
        found = pattern.match(lines[at - 1])
        if found and len(found[1]) < room:
            return at, found
    return None, None


def without_brackets(text):
    """The text without what stands between < and >."""
    kept, depth = [], 0
    for char in text.replace("->", ""):
        depth += char == "<"
        if not depth:
            kept.append(char)
        depth -= char == ">"
    return "".join(kept)


def homes(header):
    """The names under which the prover may have the methods of an `impl` or a `trait`: with the name of the trait behind the type's."""
    trait, is_for, kind = without_brackets(header.split("{")[0]).partition(" for ")
    names = [re.match(r"[\s&]*(?:\w+::)*(\w*)", it)[1] for it in (trait, kind)]
    return [names[1] + names[0], names[1]] if is_for else [names[0]]


def function_names(crate, text, path, number):
    """Names to look for what stands in this line of the file, the closest first and the module last."""
    lines, module = text.split("\n"), [crate, *module_of(path)]
    own = FUNCTION.match(lines[number - 1])
    at, found = above(lines, number, FUNCTION, len(own[1]) + 1 if own else indent(lines[number - 1]))
    names = []
    if found:
        _, home = above(lines, at, HOME, len(found[1]))
        types = homes(home[2]) if home else []
        names = ["::".join([*module, it, found[2]]) for it in types] or ["::".join([*module, found[2]])]
    return names + ["::".join(module)] * (len(module) > 1)
