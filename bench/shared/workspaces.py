#!/usr/bin/env python3
"""Writes workspaces of many packages. The same arguments give the same bytes.

usage: workspaces.py plan FOLDER

writes into the folder, for 1,024, 2,048 and 4,096 packages with 60 imports each:
    spread_N.txtar   an archive in which each package imports 60 of higher number, or as many as there are, so that no
                     import lies on a cycle
    ring_N.txtar     the same, and each package imports the next one too, the last the first, so that every import lies
                     on a cycle
    module_N/        the packages of spread_N.txtar as a module on disk; one that is there is kept

usage: workspaces.py held FOLDER

writes into the folder, for 2,048 and 4,096 packages:
    held_N.txtar     an archive in which each package is a file of 5 KB, as a person would write it (programs.py); one that
                     is there, and newer than these scripts, is kept
"""
import os
import sys

import programs
from generate import Numbers

MODULE = "ex.com/m"
SIZES = (1024, 2048, 4096)
IMPORTS = 60
HELD = (2048, 4096)
FILE_BYTES = 5120  # the most that a file of such a workspace has


def spread(count):
    """For each package the numbers of those that it imports: one of each 60th of those that stand behind the next."""
    numbers = Numbers(count)
    for package in range(count):
        first = package + 2  # the next one is left for the ring
        behind = max(0, count - first)
        starts = [first + behind * part // IMPORTS for part in range(IMPORTS + 1)]
        yield [low + numbers.below(high - low) for low, high in zip(starts, starts[1:]) if low < high]


def ring(count):
    """The same, and the next one, which for the last is the first."""
    for package, imports in enumerate(spread(count)):
        yield [*imports, (package + 1) % count]


FORMS = {"spread": spread, "ring": ring}


def archive(folder, form, count):
    return os.path.join(folder, f"{form}_{count}.txtar")


def module(folder, count):
    return os.path.join(folder, f"module_{count}")


def text(package, imports):
    """The one file of a package."""
    lines = "".join(f'\t_ "{MODULE}/p{number}"\n' for number in imports)
    return f"package p{package}\n" + (f"\nimport (\n{lines})\n" if lines else "")


def write(file, content):
    with open(file, "w", encoding="ascii", newline="") as it:
        it.write(content)


def write_archive(file, workspace):
    parts = (f"-- {MODULE}/p{n}/p.go --\n{text(n, imports)}" for n, imports in enumerate(workspace))
    write(file, "".join(parts))


def write_module(folder, workspace):
    """The file `go.mod` comes last, so that a module that has one is whole."""
    last = os.path.join(folder, "go.mod")
    if os.path.exists(last):
        return
    for number, imports in enumerate(workspace):
        home = os.path.join(folder, f"p{number}")
        os.makedirs(home, exist_ok=True)
        write(os.path.join(home, "p.go"), text(number, imports))
    write(last, f"module {MODULE}\n\ngo 1.19\n")


def imported(numbers, package):
    """Paths of up to three packages of lower number, in order."""
    others = sorted({numbers.below(package) for _ in range(numbers.below(4))} if package else ())
    return [f"{MODULE}/{name_of(other)}" for other in others]


def name_of(package):
    return f"{programs.WORDS[package % len(programs.WORDS)]}{package}"


def held_file(package):
    """The place and the text of the one file of a package."""
    numbers, name = Numbers(package), name_of(package)
    return f"-- {MODULE}/{name}/{name}.go --\n{programs.program(numbers, name, imported(numbers, package), FILE_BYTES)}"


def write_held(folder):
    files = [archive(folder, "held", count) for count in HELD]
    scripts = [__file__, programs.__file__, sys.modules["generate"].__file__]
    newest = max(os.path.getmtime(script) for script in scripts)
    if all(os.path.exists(file) and os.path.getmtime(file) > newest for file in files):
        return
    texts = [held_file(package) for package in range(max(HELD))]
    for file, count in zip(files, HELD):
        write(file, "".join(texts[:count]))


def write_planned(folder):
    for count in SIZES:
        for form, workspace in FORMS.items():
            write_archive(archive(folder, form, count), workspace(count))
        write_module(module(folder, count), spread(count))


def main(what, folder):
    os.makedirs(folder, exist_ok=True)
    if what == "held":
        write_held(folder)
    elif what == "plan":
        write_planned(folder)
    else:
        sys.exit(__doc__)


if __name__ == "__main__":
    if len(sys.argv) != 3:
        sys.exit(__doc__)
    main(*sys.argv[1:])
