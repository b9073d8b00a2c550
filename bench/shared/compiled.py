#!/usr/bin/env python3
"""Writes workspaces of many packages as folder trees, in which a whole check finds no fault. The same arguments give the same bytes.

usage: compiled.py FOLDER

writes into the folder
    N/ex.com/m   for 512, 1,024, 2,048 and 4,096 packages: the folder of the module ex.com/m. Each package is a folder with one file of at most 5 KB, which
                 imports 60 packages of higher number, or as many as there are, and uses each: its constants, types, fields, methods, interfaces and functions
A tree that is there whole, and newer than these scripts, is kept.
"""
import os
import shutil
import sys

import checked
import generate
import programs
import workspaces
from checked import Scope, Unit
from generate import Numbers
from workspaces import FILE_BYTES, MODULE, spread

PACKAGES = (512, 1_024, 2_048, 4_096)
LAST = "whole"  # a file that is written last


def name_of(package):
    return f"p{package:04}"


class Package(Unit):
    """The file of a package, whose declarations all have the number 0."""

    def __init__(self, number, imports):
        names = [name_of(other) for other in imports]
        super().__init__(Numbers(number), 0, 0, [(name, 0) for name in names])
        self.name, self.embedded = name_of(number), 0
        self.uses = {form: names[start::4] for start, form in enumerate(("constant", "field", "call", "constant"))}
        self.uses["constant"] = sorted(self.uses["constant"] + names[0::4])

    def shown_types(self):
        """Types that importers use: one of its fields has a type that is not exported."""
        return (
            "type Shown0 struct {\n\tRank int\n\tTitle string\n\tInner inner0\n}\n\ntype inner0 struct{ Depth int }\n\n"
            "func (shown *Shown0) Weigh(scale int) int { return shown.Rank*scale + shown.Inner.Depth }\n\n"
        )

    def links(self):
        """A use of each import: constants, fields that are embedded and not, methods, literals, interfaces, calls."""
        fields, calls = self.uses["field"], self.uses["call"]
        lines = []
        for at, name in enumerate(fields):
            if at == 1:
                lines += [f"var shape {name}.Shape0 = links.{name}", f"total += shape.Area({at})"]
            else:
                lines.append(f"total += links.{name}.{'Area(total)' if at % 2 else 'Rank'}")
        for at, name in enumerate(calls):
            lines.append(
                (
                    f"total += {name}.Count0(total, {name}.Label0)",
                    f"total += (&{name}.Shown0{{Rank: total}}).Weigh({at})",
                    f"total = {name}.Limit0",
                    f"total += {name}.Shown0{{Title: title}}.Inner.Depth",
                )[at % 4]
            )
        kinds = ["Shown0" if at % 2 == 0 else "Node0" for at in range(len(fields))]
        written = "".join(f"\t{name} *{name}.{kind}\n" for name, kind in zip(fields, kinds))
        promoted = f"\t*{calls[0]}.Shown0\n" if calls else ""
        if calls:
            lines.append("total += links.Rank + links.Inner.Depth")
        body = "".join(f"\t{line}\n" for line in lines)
        return f"type Links0 struct {{\n{promoted}{written}}}\n\nfunc (links *Links0) Total(title string) int {{\n\ttotal := len(title)\n{body}\treturn total\n}}\n\n"

    def reach(self):
        """A constant that is made of those of imports."""
        names = self.uses["constant"]
        return f"const Reach0 = {' + '.join(f'{name}.Limit0' for name in names)}\n\n" if names else ""

    def small(self, name, receiver, parameters, result):
        """A function of few statements."""
        scope = Scope()
        for parameter, kind in parameters:
            self.known(scope, kind, parameter)
        lines = [self.simple(scope) for _ in range(1 + self.numbers.below(2))]
        lines += [f"_ = {local}" for local in scope.unused] + [f"return {self.value(scope, result)}"]
        written = ", ".join(f"{parameter} {kind}" for parameter, kind in parameters)
        return f"func {receiver}{name}({written}) {result} {{\n" + "".join(f"\t{line}\n" for line in lines) + "}\n\n"

    def file(self):
        head = f"package {self.name}\n\n"
        if self.imports:
            head += "import (\n" + "".join(f'\t"{MODULE}/{name}"\n' for name, _ in self.imports) + ")\n\n"
        made = head + self.reach() + self.links() + self.shown_types() + self.values() + self.types()
        made += self.small("Name", "(self *Node0) ", [], "string") + self.small("Area", "(self *Node0) ", [("scale", "int")], "int")
        made += "func Count0(size int, name string) int {\n\tself := &Node0{size: size, mark: Mark0(name)}\n\tvar shape Shape0 = self\n\tshape0 = shape\n\treturn self.Area(size)\n}\n\n"
        parameters = [("name", "string"), ("depth", "int"), ("isFirst", "bool")]
        for form in (self.method, self.small):
            for number in range(1_000):
                more = form(f"{form.__name__}{number}", "(self *Node0) ", parameters, self.numbers.pick(["bool", "int", "string"]))
                if len(made) + len(more) > FILE_BYTES:
                    break
                made += more
        return made


def module(folder, count):
    return os.path.join(folder, str(count), *MODULE.split("/"))


def main(folder):
    newest = max(os.path.getmtime(it.__file__) for it in (sys.modules[__name__], checked, generate, programs, workspaces))
    for count in PACKAGES:
        tree = os.path.join(folder, str(count))
        last = os.path.join(tree, LAST)
        if os.path.exists(last) and os.path.getmtime(last) > newest:
            continue
        shutil.rmtree(tree, ignore_errors=True)
        for number, imports in enumerate(spread(count)):
            package = Package(number, imports)
            home = os.path.join(module(folder, count), package.name)
            os.makedirs(home)
            workspaces.write(os.path.join(home, f"{package.name}.go"), package.file())
        workspaces.write(last, "")


if __name__ == "__main__":
    if len(sys.argv) != 2:
        sys.exit(__doc__)
    main(sys.argv[1])
