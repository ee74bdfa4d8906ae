#!/usr/bin/env python3
"""Finds statements and definitions of crates/ that stand more than once, so that each is written, and proved, in one place.

    tools/twice.py [FOLDER]

FOLDER is the repository, or a folder like it. What is found is printed, the dearest first: how often it stands, how many lines are
too many, and each place as `FILE:LINE NAME`. The status is 1 where something is found, or where an exception of this script is none any
more.

Compared are the items of the files in specs/ and proofs/: of a statement its type, however it is proved, and of a definition its type and
its equations, up to the names of variables, white space and comments. A name counts as that of its crate, and one that
is not public as that of its file: two types called `Side` are two. What a module is given counts as far as an item speaks of it.
Statements behind a `where` count, where they speak of nothing outside. Answers to goals do not, nor what a module abbreviates for itself.
A statement that stands in one place and in the kit is not found.
"""
from __future__ import annotations

import re
import sys
from pathlib import Path
from typing import Dict, Iterator, List, NamedTuple, Set

TOP = Path(__file__).resolve().parent.parent

# Crates whose items nobody has looked at yet: they are compared with nothing.
NOT_YET = ["np_check", "np_unused", "np_statements", "np_flatten", "np_table"]

# What stands twice on purpose, since sharing it would cost more: its places, in the order of their names, and why.
EXCEPTIONS = {}

SIGNATURE = re.compile(r"(?:(?:abbrev|unfoldable|pub) )*([^\s(){}:]+) : ")
DECLARATION = re.compile(r"(?:pub )?(?:data|record) ([^\s(){}]+) (?:.* )?: ")
IMPORT = re.compile(r"^ *(?:(?:unfoldable )?pub )?use (\S+?)(?:\.\{([^}]*)\}| as (\S+))$", re.MULTILINE)
COMMENT = re.compile(r'^((?:[^"]|"(?:[^"\\]|\\.)*")*?)(?:^|(?<=\s))--(?:\s.*)?$')
TOKEN = re.compile(r'"(?:[^"\\]|\\.)*"|[^\s(){}\[\].,;"]+|[(){}\[\].,;]')
# Several variables of one type: `(x y : T)`.
VARIABLES = re.compile(r"([({])([^\s(){}:]+(?: [^\s(){}:]+)+) : ([^(){}]*)([)}])")
RELATIONS = {"≡", "≢", "≤", "<", "⊥", "⊎"}
# Words of the language, which no file imports.
WORDS = set(
    "Type Unit tt absurd let in elim if then else rw at by where with record data unfolding search grind omega simp cc assumption subst "
    "first_of hlevel abbrev pub unfoldable λ".split()
)


class Item(NamedTuple):
    """An item: its place, its name, its type, its equations or fields, how many lines it has, and what the names of its file stand for."""

    place: str
    name: str
    type: str
    body: str
    lines: int
    names: Dict[str, str]
    is_declared: bool
    is_inner: bool


class Block(NamedTuple):
    """The lines of an item without their indent: where it begins, the parameters of its module, and whether it stands in another one."""

    begin: int
    parameters: str
    lines: List[str]
    is_inner: bool


def name_of(line: str) -> str:
    """The name of the item that begins with a line, or nothing."""
    found = DECLARATION.match(line) or SIGNATURE.match(line)
    return found.group(1) if found else ""


def depth_of(line: str) -> int:
    """How far in a line begins."""
    return len(line) - len(line.lstrip())


def end_of(lines: List[str], begin: int, depth: int) -> int:
    """The line behind the item that begins at one: it goes on where lines are further in, or begin with its name."""
    ours = re.compile(r"(?:%s|unfolding)(?:\s|$)" % re.escape(name_of(lines[begin][depth:])))
    end = at = begin + 1
    while at < len(lines) and (not lines[at] or depth_of(lines[at]) > depth or ours.match(lines[at][depth:])):
        at += 1
        end = at if lines[at - 1] else end
    return end


def blocks(lines: List[str]) -> Iterator[Block]:
    """The items of a file that stand in no other one."""
    parameters, depth, at = "", 0, 0
    while at < len(lines):
        line, begin = lines[at], at
        at += 1
        if line and depth_of(line) == 0:
            parameters, depth = "", 0
        if line.startswith("module "):
            while not lines[at - 1].endswith(" where"):
                at += 1
            given = " ".join(part.strip() for part in lines[begin:at])
            parameters, depth = given[len("module _ "):-len(" where")], 2
        elif depth_of(line) == depth and name_of(line[depth:]):
            at = end_of(lines, begin, depth)
            yield Block(begin, parameters, [one[depth:] for one in lines[begin:at]], False)


def within(block: Block) -> Iterator[Block]:
    """The items behind a `where` of another one."""
    for at, line in enumerate(block.lines):
        depth = depth_of(line)
        if depth and SIGNATURE.match(line[depth:]) and not DECLARATION.match(block.lines[0]):
            yield Block(block.begin + at, "", [one[depth:] for one in block.lines[at:end_of(block.lines, at, depth)]], True)


def imported(text: str) -> Dict[str, str]:
    """What the names that a file imports stand for: a name of this repository is that of its crate."""
    names: Dict[str, str] = {}
    for module, listed, alias in IMPORT.findall(text):
        home = module.split(".")[1] + "." if module.startswith("Rattle.np_") else ""
        if alias:
            names[alias] = module
        for one in listed.split(","):
            name, _, other = one.strip().partition(" as ")
            names[other or name] = home + name
    return names


def one_by_one(text: str) -> str:
    """The text with variables of one type apart: `(x : T) (y : T)`."""
    def apart(found: "re.Match[str]") -> str:
        opening, variables, kind, closing = found.groups()
        return " ".join(f"{opening}{name} : {kind}{closing}" for name in variables.split())
    return VARIABLES.sub(apart, VARIABLES.sub(apart, text))


def spoken_of(parameters: str, text: str) -> str:
    """The parameters of a module of which a text speaks, and those of which these speak."""
    kept: List[str] = []
    for group in reversed(re.findall(r"[({](?:[^(){}]|\([^()]*\)|\{[^{}]*\})*[)}]", one_by_one(parameters))):
        if set(group[1:].partition(" : ")[0].split()) & set(TOKEN.findall(" ".join([text] + kept))):
            kept.insert(0, group)
    return " ".join(kept + ["→ "]) if kept else ""


def items(path: Path, place: str) -> Iterator[Item]:
    """The items of a file, without the answers to goals."""
    lines = [COMMENT.sub(r"\1", line).rstrip() for line in path.read_text().split("\n")]
    outer = list(blocks(lines))
    names = imported("\n".join(lines))
    for block in outer:
        home = place.partition("/")[0] + "." if re.match(r"(?:abbrev |unfoldable )?pub ", block.lines[0]) else place + " "
        names[name_of(block.lines[0])] = home + name_of(block.lines[0])
    for block in outer + [inner for one in outer for inner in within(one)]:
        name, is_declared, end = name_of(block.lines[0]), bool(DECLARATION.match(block.lines[0])), 1
        while end < len(block.lines) and block.lines[end].startswith(" ") and not block.lines[end - 1].endswith(" where"):
            end += 1
        kind = " ".join(line.strip() for line in block.lines[:end]).partition(name)[2].strip(" :")
        body = "\n".join(line for line in block.lines[end:] if line)
        is_short = block.parameters and block.lines[0].startswith("abbrev ") and not block.lines[0].startswith("abbrev pub ")
        if not kind.startswith("goal.") and not is_short:
            given = spoken_of(block.parameters, kind + " " + body)
            yield Item(f"{place}:{block.begin + 1}", name, given + kind, body, len(block.lines), names, is_declared, block.is_inner)


def bound_in(tokens: List[str]) -> Set[str]:
    """The variables that a text binds: `(x : ..)`, `{x : ..}`, `λ x y. ..`."""
    text = " ".join(tokens)
    told = re.findall(r"[({] (\S+) :|λ ([^.()]+) \.", text)
    return {name for group, more in told for name in [group] + more.split() if name}


def written(text: str, item: Item, variables: Dict[str, str], is_open: bool) -> str:
    """The text with each name as what it stands for, each variable by its number; if it is open, a name that nothing knows is one."""
    tokens, told, before = TOKEN.findall(one_by_one(text)), [], ""
    bound = bound_in(tokens)
    for token in tokens:
        is_name = bool(re.match(r"[^\W\d]|«", token)) and token not in WORDS and before != "."
        if is_name and token == item.name and token not in bound:
            told.append("@")
        elif is_name and (token in variables or token in bound or (is_open and token not in item.names)):
            told.append(variables.setdefault(token, f"${len(variables)}"))
        else:
            told.append(item.names.get(token, token) if is_name else token)
        before = token
    return " ".join(told)


def conclusion(text: str) -> str:
    """What stands behind the last arrow of a type that is in no parentheses."""
    depth, last = 0, 0
    for at, sign in enumerate(text):
        depth += (sign in "({[") - (sign in ")}]")
        last = at + 1 if sign == "→" and depth == 0 else last
    return text[last:]


def key(item: Item) -> str:
    """What two items have in common that say the same. An item behind a `where` counts if it is a statement by itself."""
    variables: Dict[str, str] = {}
    kind = written(item.type, item, variables, True)
    binders = re.findall(r"([({]) (\$\d+) :", kind)
    end = set(conclusion(kind).split())
    if not item.is_declared and (RELATIONS | {name for sign, name in binders if sign == "("}) & end:
        is_closed = set(variables) <= bound_in(TOKEN.findall(one_by_one(item.type)))
        return kind if is_closed or not item.is_inner else item.place
    if item.is_inner:
        return item.place
    lines = item.body.split("\n") if item.is_declared else re.sub(r"\n +", " ", item.body).split("\n")
    return " | ".join([kind] + [written(line, item, dict(variables), not item.is_declared) for line in lines])


def groups(top: Path) -> List[List[Item]]:
    """The items that stand more than once, the dearest first."""
    by_key: Dict[str, List[Item]] = {}
    for path in sorted(top.glob("crates/*/specs/**/*.antt")) + sorted(top.glob("crates/*/proofs/**/*.antt")):
        place = path.relative_to(top / "crates")
        for item in items(path, place.as_posix()) if place.parts[0] not in NOT_YET else []:
            by_key.setdefault(key(item), []).append(item)
    found = [each for each in by_key.values() if len(each) > 1]
    return sorted(found, key=lambda each: -too_many(each))


def too_many(group: List[Item]) -> int:
    """How many lines one item of a group would save."""
    return sum(item.lines for item in group) - max(item.lines for item in group)


def names_of(group: List[Item]) -> str:
    """The places of a group as an exception names them."""
    return ", ".join(sorted(f"{item.place.rpartition(':')[0]} {item.name}" for item in group))


def main(words: List[str]) -> int:
    """Prints what is found; the status says whether there is something."""
    top = Path(words[0]) if words else TOP
    found = groups(top)
    told = [group for group in found if names_of(group) not in EXCEPTIONS]
    for group in told:
        places = ", ".join(f"crates/{item.place} {item.name}" for item in group)
        print(f"{len(group)} times, {too_many(group)} lines too many: {places}")
    stale = sorted(set(EXCEPTIONS) - {names_of(group) for group in found}) if top == TOP else []
    for names in stale:
        print(f"an exception that is none: {names}")
    return 1 if told or stale else 0


if __name__ == "__main__":
    sys.exit(main(sys.argv[1:]))
