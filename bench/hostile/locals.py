#!/usr/bin/env python3
"""Measures `govisd check` on texts of very many local variables, whose types are held for what asks later.

    bench/hostile/locals.py --govisd FILE [--only NAME,..]

Each class is a folder with one file of half the size and of the whole (1,048,576 bytes unless the class says less). The whole may take 3 seconds and 1 GB
at most, and 2.6 times the time of the half. Status 1 where a bound does not hold.
"""
import argparse
import os
import pathlib
import sys
import tempfile

from shapes import LEAST_SECONDS, MOST_BYTES, MOST_GROWTH, MOST_MEGABYTES, MOST_SECONDS, best, shown

CLASSES = {}


def hostile(make):
    CLASSES[make.__name__] = make
    return make


def body(head, lines, size):
    """A function behind the head, with so many of the lines as the size has room for."""
    found, length = [], len(head) + 20
    for line in lines:
        length += len(line)
        if length > size:
            break
        found.append(line)
    return head + "func f() {\n" + "".join(found) + "}\n"


def numbers():
    number = 0
    while True:
        yield number
        number += 1


@hostile
def types_of_packages(size):
    """Locals of types that stand at the same place of 2,000 packages."""
    count = 2000
    beside = {f"p{it}": "package p\n\ntype T struct{ A int }\n" for it in range(count)}
    head = "package m\n\n" + "".join(f'import p{it} "ex.com/m/p{it}"\n' for it in range(count))
    return body(head, (f"var x{it} p{it % count}.T\n" for it in numbers()), size), beside


@hostile
def types_of_a_package(size):
    """Locals of the types of a package, of each in turn."""
    count = 2000
    head = "package m\n\n" + "".join(f"type T{it} struct{{ A int }}\n" for it in range(count))
    return body(head, (f"var x{it} T{it % count}\n" for it in numbers()), size), {}


@hostile
def written_struct(size):
    """Locals of one struct type that is written out, in 128 KB."""
    size //= 8
    fields = "".join(f"a{it} int\n" for it in range(size // 24))
    head = f"package m\n\nvar y struct {{\n{fields}}}\n\n"
    return body(head, (f"x{it} := {f'x{it - 1}' if it else 'y'}\n" for it in numbers()), size), {}


@hostile
def pointers_to_a_type(size):
    """Locals of pointers to a declared type, with up to 40 stars."""
    return body("package m\n\ntype T int\n\n", (f"var x{it} {'*' * (it % 41)}T\n" for it in numbers()), size), {}


def folder_of(made, home):
    text, beside = made
    for name, other in {"": text, **beside}.items():
        os.makedirs(f"{home}/{name}", exist_ok=True)
        pathlib.Path(f"{home}/{name}/a.go").write_text(other, encoding="utf-8")
    return home


def measure(govisd, label, make, folder):
    def taken(size):
        home = folder_of(make(size), f"{folder}/{label}-{size}")
        return best([govisd, "check", home, "--module", "ex.com/m"], os.devnull)

    (s1, _, _), (s2, mb, status) = taken(MOST_BYTES // 2), taken(MOST_BYTES)
    growth = s2 / s1 if s1 and s2 and s1 >= LEAST_SECONDS else None
    checks = (
        ("time", s2 is None or s2 > MOST_SECONDS),
        ("memory", mb > MOST_MEGABYTES),
        ("growth", bool(growth) and growth > MOST_GROWTH),
        (f"status {status}", status not in (0, 1)),
    )
    failed = [what for what, is_so in checks if is_so]
    print("| " + " | ".join([label, shown(s1, ".3f"), shown(s2, ".3f"), shown(growth, ".2f"), shown(mb, ".0f"), ", ".join(failed)]) + " |", flush=True)
    return not failed


def main():
    said = argparse.ArgumentParser(description=__doc__, formatter_class=argparse.RawDescriptionHelpFormatter)
    said.add_argument("--govisd", default="crates/govisd/out/govisd")
    said.add_argument("--only")
    args = said.parse_args()
    names = args.only.split(",") if args.only else list(CLASSES)
    print("| class | half s | whole s | growth | MB | |\n|---|---|---|---|---|---|")
    with tempfile.TemporaryDirectory(prefix="locals-") as folder:
        passed = [measure(os.path.abspath(args.govisd), it, CLASSES[it], folder) for it in names]
    print(f"{sum(passed)} of {len(passed)} classes within the bounds")
    return 0 if all(passed) else 1


if __name__ == "__main__":
    sys.exit(main())
