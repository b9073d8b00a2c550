#!/usr/bin/env python3
"""Writes workspaces of packages of 5 KB that import many others, and long functions. The same arguments give the same bytes.

usage: linked.py FOLDER

writes into the folder
    linked_N.txtar   for 1,024, 2,048 and 4,096 packages: an archive in which each package is a file of 5 KB, as a person would write
                     it (programs.py), which imports 60 of higher number, or as many as there are, and some of the library
    long_N.txtar     for 15,000 and 30,000 statements: an archive of one package with one function of so many
A file that is there, and newer than these scripts, is kept.
"""
import os
import sys

import generate
import programs
import workspaces
from generate import Numbers
from workspaces import FILE_BYTES, MODULE, SIZES, archive, name_of, spread, write

STATEMENTS = (15_000, 30_000)
IN_PART = 4  # statements
PART = "\tx{n} := a + b\n\ta = x{n} * b\n\tif a > x{n} {{\n\t\tb = a - 1\n\t}}\n"


def linked(count):
    """The archive of a workspace."""
    for package, imports in enumerate(spread(count)):
        name = name_of(package)
        paths = [f"{MODULE}/{name_of(other)}" for other in imports]
        text = programs.program(Numbers(package), name, paths, FILE_BYTES)
        yield f"-- {MODULE}/{name}/{name}.go --\n{text}"


def long(count):
    """The archive of a package whose one function has so many statements. One in four declares a name of its own, which those behind
    it use."""
    yield f"-- {MODULE}/long/long.go --\npackage long\n\nfunc f(a, b int) int {{\n"
    for number in range(count // IN_PART):
        yield PART.format(n=number)
    yield "\treturn a\n}\n"


def main(folder):
    os.makedirs(folder, exist_ok=True)
    newest = max(os.path.getmtime(it.__file__) for it in (sys.modules[__name__], generate, programs, workspaces))
    for form, made, counts in ("linked", linked, SIZES), ("long", long, STATEMENTS):
        for count in counts:
            file = archive(folder, form, count)
            if not os.path.exists(file) or os.path.getmtime(file) <= newest:
                write(file, "".join(made(count)))


if __name__ == "__main__":
    if len(sys.argv) != 2:
        sys.exit(__doc__)
    main(sys.argv[1])
