#!/usr/bin/env python3
"""Writes workspaces that a whole check finds no fault in. The same arguments give the same bytes.

usage: checked.py FOLDER

writes into the folder
    one_N.txtar    for 512, 1,024 and 2,048 units of 1,000 bytes: one package in files of nearly 1 MB, with types, methods, embedding, composite
                   literals, calls, constants and the headers of `if` and `for`
    files_N.txtar  the same in files of 5 KB
    packages_N.txtar  the same in packages of one file of 5 KB, of which each imports up to three of those before it and uses what they show
    chain_N.txtar  for 10,000 and 20,000 constants: a package in which each is defined by the one behind it
    keys_N.txtar   for 5,000 and 10,000 keys: a struct type of so many fields, and a literal with all of them
    long_N.txtar   for 15,000 and 30,000 statements: a package with one function of so many (linked.py)
A file that is there, and newer than these scripts, is kept.
"""
import os
import sys

import generate
import linked
import programs
import workspaces
from generate import Numbers
from workspaces import MODULE, archive, write

UNITS = (512, 1_024, 2_048)  # of 1,000 bytes
LARGE, SMALL = 1_000_000, 5_120  # bytes of a file, at most
CONSTANTS = (10_000, 20_000)
KEYS = (5_000, 10_000)
INDENT = "\t"


class Scope:
    """The locals of a block by their type, those of the blocks round it among them, and which of its own are not used yet."""

    def __init__(self, outer=None):
        self.names = {kind: list(names) for kind, names in outer.names.items()} if outer else {"int": [], "string": [], "bool": []}
        self.unused = []


class Unit:
    """Declarations that belong together: some types with methods, constants, variables and functions. Its names end with its number, which is
    not below that of the first unit of its package. The imports are names of packages, with the number of a unit of each."""

    def __init__(self, numbers, number, first=0, imports=()):
        self.numbers, self.number, self.first, self.imports = numbers, number, first, imports
        self.locals = 0
        self.word = numbers.pick(programs.WORDS)

    def one_in(self, count):
        return self.numbers.below(count) == 0

    def other(self):
        """The number of this unit or of one shortly before it."""
        return max(self.first, self.number - self.numbers.below(8))

    def shown(self, name):
        """What a unit of the package, or of one that it imports, declares by a name and its number."""
        if self.imports and self.one_in(3):
            qualifier, number = self.numbers.pick(self.imports)
            return f"{qualifier}.{name}{number}"
        return f"{name}{self.other()}"

    def fresh(self, scope, kind):
        self.locals += 1
        name = f"{self.numbers.pick(programs.SHORT)}{self.locals}"
        scope.unused.append(name)
        return name

    def known(self, scope, kind, name):
        scope.names[kind].append(name)

    def local(self, scope, kind):
        """A local of a type, which is used by that."""
        name = self.numbers.pick(scope.names[kind])
        if name in scope.unused:
            scope.unused.remove(name)
        return name

    def whole(self, scope, depth=0):
        """An expression of type int."""
        form = self.numbers.below(14)
        if form < 4 and scope.names["int"]:
            return self.local(scope, "int")
        if form < 6 or depth > 2:
            return str(1 + self.numbers.below(999))
        if form < 8:
            return f"{self.whole(scope, depth + 1)} {self.numbers.pick('+-*')} {self.whole(scope, depth + 1)}"
        if form == 8:
            return f"({self.whole(scope, depth + 1)} - {self.whole(scope, depth + 1)}) % {7 + self.numbers.below(90)}"
        if form == 9:
            return f"self.{self.numbers.pick(['rank', 'size', 'id', 'next.id', 'next.size', f'weight{self.embedded}'])}"
        if form == 10:
            return self.shown("Limit")
        if form == 11:
            return f"len({self.text(scope, depth + 1)})"
        if form == 12:
            return f"self.Area({self.whole(scope, depth + 1)})"
        return f"{self.shown('Count')}({self.whole(scope, depth + 1)}, {self.text(scope, depth + 1)})"

    def text(self, scope, depth=0):
        """An expression of type string."""
        form = self.numbers.below(8)
        if form < 3 and scope.names["string"]:
            return self.local(scope, "string")
        if form < 5 or depth > 2:
            return f'"{self.numbers.pick(programs.WORDS)}"'
        if form == 5:
            return f"{self.text(scope, depth + 1)} + {self.text(scope, depth + 1)}"
        return self.numbers.pick(["self.title", "self.Name()", self.shown("Label"), "string(self.mark)"])

    def truth(self, scope, depth=0):
        """An expression of type bool, which holds no literal."""
        form = self.numbers.below(8)
        if form == 0 and scope.names["bool"]:
            return self.local(scope, "bool")
        if form < 5 or depth > 1:
            return f"{self.whole(scope, 1)} {self.numbers.pick(programs.COMPARED)} {self.whole(scope, 2)}"
        if form == 5:
            return f"{self.truth(scope, depth + 1)} {self.numbers.pick(['&&', '||'])} {self.truth(scope, depth + 1)}"
        return self.numbers.pick(["self.next != nil", "!self.isLast", f'self.title == "{self.word}"'])

    def value(self, scope, kind):
        return {"int": self.whole, "string": self.text, "bool": self.truth}[kind](scope)

    def literal(self, scope):
        """A composite literal of the unit's type Node."""
        n = self.number
        if self.one_in(3):
            return f"Node{n}{{Base{n}: Base{n}{{{self.whole(scope)}, {self.whole(scope)}, First{n}, {self.text(scope)}}}, size: {self.whole(scope)}}}"
        return f"Node{n}{{next: self, size: {self.whole(scope)}, isLast: {self.truth(scope)}, mark: Mark{n}({self.text(scope)})}}"

    def simple(self, scope):
        form, kind = self.numbers.below(12), self.numbers.pick(["int", "int", "int", "string", "bool"])
        if form < 4:
            value, name = self.value(scope, kind), self.fresh(scope, kind)
            self.known(scope, kind, name)
            return f"{name} := {value}"
        if form == 4:
            value, name = self.value(scope, kind), self.fresh(scope, kind)
            self.known(scope, kind, name)
            return f"var {name} {kind} = {value}"
        if form == 5 and scope.names["int"]:
            return f"{self.local(scope, 'int')} {self.numbers.pick(['+=', '-=', '*='])} {self.whole(scope)}"
        if form == 6 and scope.names["int"]:
            return f"{self.local(scope, 'int')}{self.numbers.pick(['++', '--'])}"
        if form == 7:
            return f"self.next = &{self.literal(scope)}"
        if form == 8:
            return f"*self = {self.literal(scope)}"
        if form == 9:
            return f"total{self.other()} = {self.whole(scope)}"
        if form == 10:
            return f"println({self.whole(scope)}, {self.text(scope)})"
        return f"self.{self.numbers.pick(['rank', 'size', 'next.rank'])} = {self.whole(scope)}"

    def statement(self, scope, tab, depth):
        form = self.numbers.below(12)
        if depth > 2 or form < 7:
            return self.simple(scope)
        if form < 9:
            text = f"if {self.truth(scope)} {self.block(scope, tab, depth)}"
            return text + (f" else {self.block(scope, tab, depth)}" if self.one_in(3) else "")
        if form == 9:
            inner = Scope(scope)
            value, name = self.whole(scope), self.fresh(inner, "int")
            self.known(inner, "int", name)
            inner.unused.remove(name)
            return f"if {name} := {value}; {name} > {self.whole(scope)} {self.block(inner, tab, depth)}"
        if form == 10:
            inner = Scope(scope)
            name = self.fresh(inner, "int")
            self.known(inner, "int", name)
            inner.unused.remove(name)
            return f"for {name} := 0; {name} < {self.whole(scope)}; {name}++ {self.block(inner, tab, depth, True)}"
        return f"for {self.truth(scope)} {self.block(scope, tab, depth, True)}"

    def block(self, outer, tab, depth, is_loop=False):
        inner, tab = Scope(outer), tab + INDENT
        lines = [self.statement(inner, tab, depth + 1) for _ in range(1 + self.numbers.below(3))]
        if is_loop and self.one_in(3):
            lines.append(f"if {self.truth(inner)} {{\n{tab}{INDENT}{self.numbers.pick(['break', 'continue'])}\n{tab}}}")
        lines += [f"_ = {name}" for name in inner.unused]
        return "{\n" + "".join(f"{tab}{line}\n" for line in lines) + tab[1:] + "}"

    def body(self, scope, result):
        lines = [self.statement(scope, INDENT, 0) for _ in range(2 + self.numbers.below(5))]
        ending = f"return {self.value(scope, result)}"
        lines += [f"_ = {name}" for name in scope.unused] + [ending]
        return "{\n" + "".join(f"{INDENT}{line}\n" for line in lines) + "}"

    def sentence(self):
        return f"tells the {self.numbers.pick(programs.WORDS)} of the {self.word}, as its {self.numbers.pick(programs.WORDS)} has it."

    def method(self, name, receiver, parameters, result):
        scope = Scope()
        for parameter, kind in parameters:
            self.known(scope, kind, parameter)
        written = ", ".join(f"{parameter} {kind}" for parameter, kind in parameters)
        return f"// {name} {self.sentence()}\nfunc {receiver}{name}({written}) {result} {self.body(scope, result)}\n\n"

    def types(self):
        n, j = self.number, self.embedded
        return (
            f"// A Node{n} {self.sentence()}\n"
            f"type Node{n} struct {{\n\tBase{n}\n\t*Link{j}\n\tnext, prev *Node{n}\n\tsize int `json:\"size\"`\n\tisLast bool\n\tmark Mark{n}\n}}\n\n"
            f"type Base{n} struct {{\n\tid, rank int\n\tkind Kind{n}\n\ttitle string\n}}\n\n"
            f"type Link{n} struct {{\n\tweight{n} int\n\towner{n} *Base{n}\n}}\n\n"
            f"// Kind{n} {self.sentence()}\ntype Kind{n} int\n\ntype Mark{n} string\n\n"
            f"type Shape{n} interface {{\n\tArea(scale int) int\n\tName() string\n}}\n\n"
        )

    def values(self):
        n, j = self.number, self.embedded
        before = f"Limit{j} % 100" if j < n else "3"
        return (
            f"// The {self.word} is one of these.\nconst (\n\tFirst{n} Kind{n} = {self.numbers.below(9)}\n\tSecond{n} = First{n} + {1 + self.numbers.below(9)}\n"
            f'\tLimit{n} = ({before} + {1 + self.numbers.below(50)}) * 7\n\tLabel{n} = "{self.word}: " + "{self.numbers.pick(programs.WORDS)}"\n'
            f"\tisWide{n} = Limit{n} > 10 && Second{n} != First{n}\n)\n\n"
            f"var total{n} int = Limit{n} - 3\n\nvar shape{n} Shape{n}\n\n"
        )

    def write(self):
        n = self.number
        self.embedded = self.other()
        text = self.values() + self.types()
        text += self.method("Name", f"(self *Node{n}) ", [], "string")
        text += self.method("Area", f"(self *Node{n}) ", [("scale", "int")], "int")
        text += self.method(f"visit{n}", f"(self *Node{n}) ", [("name", "string"), ("depth", "int"), ("isFirst", "bool")], "bool")
        return text + (
            f"// Count{n} {self.sentence()}\nfunc Count{n}(size int, name string) int {{\n"
            f"\tself := &Node{n}{{size: size, mark: Mark{n}(name)}}\n\tvar shape Shape{n} = self\n\tshape{n} = shape\n"
            f"\tif self.visit{n}(name, size, isWide{n}) {{\n\t\treturn shape.Area(size)\n\t}}\n\treturn self.size + self.Base{n}.id\n}}\n\n"
        )


def package(units, most):
    """The archive of one package of so many units of 1,000 bytes, in files of at most so many bytes."""
    numbers, texts, size, file, number = Numbers(units), [], 0, 0, 0
    room = units * 1_000
    head = f"-- {MODULE}/checked/file{{:04}}.go --\npackage checked\n\n"
    while room > 0:
        if size == 0:
            texts.append(head.format(file))
            file += 1
        text = Unit(numbers, number).write()
        if size > 0 and size + len(text) > most:
            size = 0
            texts.append(head.format(file))
            file += 1
        texts.append(text)
        size += len(text)
        room -= len(text)
        number += 1
    return "".join(texts)


def packages(units):
    """The archive of packages of one file of at most 5 KB, which have so many units of 1,000 bytes together."""
    numbers, texts, room, number, known = Numbers(units + 1), [], units * 1_000, 0, []
    while room > 0:
        name, first = f"part{len(known):04}", number
        imports = known[-3:]
        text = f"package {name}\n\n" + "".join(f'import "{MODULE}/{path}"\n' for path, _ in imports)
        text += "".join(f"\nvar sum{path} int = {path}.Limit{unit}\n" for path, unit in imports) + "\n"
        while True:
            unit = Unit(numbers, number, first, imports).write()
            if number > first and len(text) + len(unit) > SMALL:
                break
            text += unit
            number += 1
        known.append((name, first))
        texts.append(f"-- {MODULE}/{name}/{name}.go --\n{text}")
        room -= len(text)
    return "".join(texts)


def chain(count):
    """The archive of a package of constants of which each is defined by the one behind it."""
    lines = [f"const c{n} = c{n + 1} + 1\n" for n in range(count - 1)]
    return f"-- {MODULE}/chain/chain.go --\npackage chain\n\n{''.join(lines)}const c{count - 1} = 1\n"


def keys(count):
    """The archive of a package with a struct type of so many fields, and a literal with a key for each."""
    fields = "".join(f"\tfield{n} int\n" for n in range(count))
    elements = "".join(f"\t\tfield{n}: {n},\n" for n in range(count))
    return f"-- {MODULE}/keys/keys.go --\npackage keys\n\ntype wide struct {{\n{fields}}}\n\nfunc f() wide {{\n\treturn wide{{\n{elements}\t}}\n}}\n"


FORMS = (
    ("one", lambda units: package(units, LARGE), UNITS),
    ("files", lambda units: package(units, SMALL), UNITS),
    ("packages", packages, UNITS),
    ("chain", chain, CONSTANTS),
    ("keys", keys, KEYS),
    ("long", lambda count: "".join(linked.long(count)), linked.STATEMENTS),
)


def main(folder):
    os.makedirs(folder, exist_ok=True)
    newest = max(os.path.getmtime(it.__file__) for it in (sys.modules[__name__], generate, linked, programs, workspaces))
    for form, made, counts in FORMS:
        for count in counts:
            file = archive(folder, form, count)
            if not os.path.exists(file) or os.path.getmtime(file) <= newest:
                write(file, made(count))


if __name__ == "__main__":
    if len(sys.argv) != 2:
        sys.exit(__doc__)
    main(sys.argv[1])
