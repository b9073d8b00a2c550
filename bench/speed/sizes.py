#!/usr/bin/env python3
"""Measures what `govisd check` holds in memory for a package, a name that it declares, an import and an occurrence, and prints a table. README.md beside
this file says how."""
import argparse
import os
import shutil
import subprocess
import sys

PACKAGES = (512, 1_024)  # with one file each, and nothing in it
FEWER = (8, 16)  # with declarations, imports or statements
ITEMS = (128, 256)
BASES = 16


def numbered(text):
    """So many lines, each with its number in the place of `%`."""
    return lambda count: "".join(text.replace("%", f"{it:03}") + "\n" for it in range(count))


def within(before, text, behind):
    return lambda count: before + numbered(text)(count) + behind


def body(before, text):
    """A function with so many statements."""
    return within(f"{before}\nfunc f() {{\n", text, "}\n")


# What is counted, how many occurrences it has, and the declarations of a package with so many.
FORMS = [
    ("a constant that is exported", 0, numbered("const C% = 1")),
    ("a constant that is not", 0, numbered("const c% = 1")),
    ("a variable of type int that is exported", 1, numbered("var V% int")),
    ("a variable of type int that is not", 1, numbered("var v% int")),
    ("a function without parameters that is exported", 0, numbered("func F%() {}")),
    ("a function without parameters that is not", 0, numbered("func f%() {}")),
    ("a function of two int with a result that is exported", 2, numbered("func F%(a, b int) int { return 1 }")),
    ("a type struct{} that is exported", 0, numbered("type T% struct{}")),
    ("a type struct{} that is not", 0, numbered("type t% struct{}")),
    ("a field of type int of one struct type", 1, within("type T struct {\n", "\tF% int", "}\n")),
    ("a method of one type", 1, within("type T struct{}\n", "func (T) M%() {}", "")),
    ("an import that is not used by name", 1, None),
    ("an occurrence of a predeclared name", 1, body("", "\t_ = true")),
    ("an occurrence of a local", 1, within("func f(x int) {\n", "\t_ = x", "}\n")),
    ("an occurrence of a constant of the package", 1, body("const c = 1", "\t_ = c")),
    ("the name of a package and a constant that it shows", 2, body('import "ex.com/m/base00"', "\t_ = base00.C")),
    ("a variable and a field that is selected", 2, body("type T struct{ f int }\nvar v T", "\t_ = v.f")),
    ("a variable and a field of an embedded type", 2, body("type E struct{ f int }\ntype T struct{ E }\nvar v T", "\t_ = v.f")),
    ("a call of a function of the package, with its name", 2, body("func g() {}", "\tg()")),
    ("a local that a function declares, of type int", 1, body("", "\tvar x% int")),
    ("a local that a function declares, a constant", 0, body("", "\tconst x% = 1")),
]


def imports(count):
    return "".join(f'import _ "ex.com/m/base{it:02}"\n' for it in range(count))


class Counter:
    """Runs the program on generated packages, and tells what it had allocated before it let go of all."""

    def __init__(self, given):
        self.govisd, self.library, self.folder = given.govisd, given.library, given.folder

    def write(self, packages, text):
        shutil.rmtree(self.folder, ignore_errors=True)
        for number in range(BASES):
            self.put(f"base{number:02}", f"package base{number:02}\n\nconst C = 1\n")
        for number in range(packages):
            self.put(f"p{number:04}", text)

    def put(self, name, text):
        os.makedirs(f"{self.folder}/{name}")
        with open(f"{self.folder}/{name}/a.go", "w", encoding="utf-8") as file:
            file.write(text)

    def run(self, packages, text, wanted):
        """Bytes and blocks, without the bytes of what is printed."""
        self.write(packages, text)
        count = f"{self.folder}.count"
        words = [self.govisd, "check", self.folder, "--module", "ex.com/m"]
        ran = subprocess.run(words, env={"LD_PRELOAD": self.library, "COUNT_ALLOC": count}, stdout=subprocess.PIPE, stderr=subprocess.PIPE, check=False)
        last = ran.stdout.decode().splitlines()[-1:]
        if last != [wanted]:
            sys.exit(f"sizes.py: not as wanted ({wanted}): {ran.stdout.decode()[:300]} {ran.stderr.decode()[:300]}")
        with open(count, encoding="utf-8") as file:
            found, blocks = map(int, file.read().split())
        return found - len(ran.stdout), blocks

    def of_package(self, counts, text, faults):
        """Bytes and blocks for each package more."""
        runs = []
        for packages in counts:
            told = f"{packages} faults" if faults else "no faults"
            runs.append(self.run(packages, text, f"{told} in {packages + BASES} packages"))
        return [(b - a) / (counts[1] - counts[0]) for a, b in zip(*runs)]

    def both(self, counts, declarations):
        """What a package costs with its part, and what its text and its tree do alone: a package that is named `_` has no part."""
        whole = self.of_package(counts, f"package p\n\n{declarations}", False)
        bare = self.of_package(counts, f"package _\n\n{declarations}", True)
        return [a - b for a, b in zip(whole, bare)], bare


def main():
    arguments = argparse.ArgumentParser(description=__doc__)
    for name in ("govisd", "library", "folder"):
        arguments.add_argument(f"--{name}", required=True)
    counter = Counter(arguments.parse_args())
    print(f"{'bytes':>9} {'blocks':>7} {'bytes':>9}  of the part, and of the text and the tree, for each")
    part, tree = counter.both(PACKAGES, "")
    print(f"{part[0]:>9.1f} {part[1]:>7.2f} {tree[0]:>9.1f}  package with one file and no declaration")
    for name, _, made in FORMS:
        few, many = ITEMS if made else (1, BASES)
        made = made or imports
        one, other = counter.both(FEWER, made(few)), counter.both(FEWER, made(many))
        part, tree = [[(b - a) / (many - few) for a, b in zip(*pair)] for pair in zip(one, other)]
        print(f"{part[0]:>9.1f} {part[1]:>7.2f} {tree[0]:>9.1f}  {name}", flush=True)


if __name__ == "__main__":
    main()
