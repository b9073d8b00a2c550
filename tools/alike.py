#!/usr/bin/env python3
"""Lists definitions that are the same but for the names in them, of two or more modules: python3 tools/alike.py [ROOT]

Two definitions of specs/ are the same where their types and clauses are, once each variable is known by its place in its clause, the definition itself
as itself, and what it names of others by what that is: two that name two others which are the same are the same too, so that a family of definitions
that stands twice is found whole. It reads texts alone, in seconds. What it lists may still be two things: a constant of a sample, a record of three
lists."""
import os
import re
import sys
from collections import defaultdict

from twice import texts

TOKEN = re.compile(r"""\"[^\"]*\"|«\w+»|[A-Za-z_◌][\w'\-◌]*(?:\.[\w«»][\w'\-«»]*)*|[^\s\w]|\d+""")
USE = re.compile(r"(?m)^(?:pub )?use (Rattle\.[^\s{}]*?)(?:\.\{([^}]*)\})?(?: as (\S+?))?$")
HEAD = re.compile(r"(\s*)((?:abbrev |pub |unfoldable |pattern )*)(record |data )?([A-Za-z_][\w'\-]*)((?: *[({][^=]*?[)}])*)\s*:(?![=:])\s")
BETWEEN = re.compile(r"(?:pub )?use |pub mod |module |abbrev mutual|mutual")
KEPT = {"if", "then", "else", "let", "in", "record", "where", "data"}
MODIFIERS = {"pub", "abbrev", "unfoldable", "pattern"}
SHORTEST = 40


def modules(root):
    """The modules of definitions: of each its crate, its name and its text without comments."""
    for crate in sorted(os.listdir(os.path.join(root, "crates"))):
        for path, text in texts(root, crate, "specs"):
            yield crate, path[: -len(".antt")].replace(os.sep, "."), re.sub(r"--[^\n]*", "", text)


def home(path, aliases):
    """The crate and the module that a path leads to, through those that pass it on."""
    crate, *rest = path.split(".")[1:]
    rest = rest[1:] if rest[:1] in (["specs"], ["proofs"]) else rest
    while rest and rest[0] in aliases:
        crate, *rest = aliases[rest[0]], *rest[1:]
    return crate, ".".join(rest)


def imports(text, aliases):
    """What the names of a module's imports are, and what modules its other names for modules stand for."""
    named, renamed = {}, {}
    for path, names, other in USE.findall(text):
        crate, module = home(path, aliases)
        for name in filter(None, (it.strip() for it in names.split(","))):
            first, _, last = name.partition(" as ")
            named[(last or first).strip()] = (crate, module, first.strip())
        if other and not names:
            renamed[other] = (crate, module)
    return named, renamed


def definitions(text):
    """The definitions of a module in order, each with its name and its lines; what stands deeper than a record's head is the record's."""
    found, is_record = [], False
    for line in text.split("\n"):
        if not line.strip() or BETWEEN.match(line.strip()):
            continue
        head = HEAD.match(line)
        if head and (head[2] or head[3] or not line.startswith(" ")) and not (is_record and line.startswith("  ")):
            found.append((head[4], [line]))
            is_record = bool(head[3])
        elif found:
            found[-1][1].append(line)
    return found


def words(name, lines, own, named, renamed):
    """A definition as a list of words: what it names of other definitions stands there as a tuple."""
    said = []
    for line in lines:
        places = {}
        for token in TOKEN.findall(line):
            first, _, rest = token.partition(".")
            if token == name:
                said.append("@")
            elif token in named or token in own:
                said.append(named.get(token) or own[token])
            elif first in renamed and rest:
                said.append((*renamed[first], rest))
            elif rest and token[0].islower():
                said += [places.setdefault(first, f"v{len(places)}"), f".{rest}"]
            elif token[0].isalpha() and token not in KEPT and (token[0].islower() or len(token) < 3):
                said.append(places.setdefault(token, f"v{len(places)}"))
            elif token not in MODIFIERS:
                said.append(token)
        said.append("\n")
    return said


def alike(defined):
    """Parts the definitions until two are in one part exactly where they say the same by the parts of what they name."""
    part, count = dict.fromkeys(defined, 0), 1
    while True:
        numbers, new = {}, {}
        for key, said in defined.items():
            seen = tuple(part.get(word, word) if isinstance(word, tuple) else word for word in said)
            new[key] = numbers.setdefault(seen, len(numbers))
        part = new
        if len(numbers) == count:
            return part
        count = len(numbers)


def main(root):
    found = [*modules(root)]
    aliases = {crate.removeprefix("go_"): crate for crate, _, _ in found}
    defined, length = {}, {}
    for crate, module, text in found:
        named, renamed = imports(text, aliases)
        own = {name: (crate, module, name) for name, _ in definitions(text)}
        for name, lines in definitions(text):
            defined[own[name]] = words(name, lines, own, named, renamed)
            length[own[name]] = len(" ".join(lines))
    parts = defaultdict(list)
    for key, number in alike(defined).items():
        parts[number].append(key)
    same = [keys for keys in parts.values() if len({key[:2] for key in keys}) > 1 and length[keys[0]] > SHORTEST]
    for keys in sorted(same, key=lambda it: -length[it[0]]):
        print(*(f"{crate}/{module}.{name}" for crate, module, name in keys))
    print(f"{len(same)} of {len(defined)} definitions")


if __name__ == "__main__":
    main(os.path.abspath(sys.argv[1]) if len(sys.argv) > 1 else os.path.dirname(os.path.dirname(os.path.realpath(__file__))))
