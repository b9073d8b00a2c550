#!/usr/bin/env python3
"""Measures texts whose names all have one hash: `govisd resolve`, `govisd check` and a session of `govisd script`.

    bench/hostile/names.py --govisd FILE [--only NAME,..]

Each class is a text of half the size and of the whole (1,048,576 bytes). The whole may take 3 seconds and 1 GB at most, and 2.6 times the time of the half,
by each of the three. A session edits the file, builds, and asks `complete`, `define`, `doc` and `list` once. Status 1 where a bound does not hold.
"""
import argparse
import json
import os
import pathlib
import sys
import tempfile

from collisions import name
from shapes import LEAST_SECONDS, MOST_BYTES, MOST_GROWTH, MOST_MEGABYTES, MOST_SECONDS, best, made, shown

CLASSES = {}


def hostile(make):
    CLASSES[make.__name__] = make
    return make


def each(form, count, is_exported=False):
    return "".join(form.replace("%", name(it, is_exported)) for it in range(count))


@hostile
def consts(count):
    return each("const % = 1\n", count)


@hostile
def exported_consts(count):
    return each("const % = 1\n", count, True)


@hostile
def local_variables(count):
    return "func f() {\n" + each("\tvar % int\n", count) + "}\n"


@hostile
def short_declarations(count):
    names = ", ".join(name(it) for it in range(count))
    return f"func f() {{\n\t{names} := {', '.join('1' * count)}\n}}\n"


@hostile
def types(count):
    return each("type % int\n", count)


@hostile
def aliases(count):
    return each("type % = int\n", count)


@hostile
def fields(count):
    return "type T struct {\n" + each("\t% int\n", count) + "}\n"


@hostile
def parameters(count):
    return "func f(" + ", ".join(name(it) for it in range(count)) + " int) {}\n"


@hostile
def methods(count):
    return "type T struct{}\n" + each("func (T) %() {}\n", count)


@hostile
def interface_methods(count):
    return "type T interface {\n" + each("\t%()\n", count) + "}\n"


@hostile
def keys(count):
    return "type T struct {\n" + each("\t% int\n", count) + "}\nvar v = T{" + ", ".join(f"{name(it)}: 1" for it in range(count)) + "}\n"


@hostile
def functions(count):
    return each("func %() {}\n", count)


@hostile
def imports(count):
    return each('import % "x"\n', count)


@hostile
def import_paths(count):
    return "".join(f'import _ "ex.com/{name(it)}"\n' for it in range(count))


@hostile
def embedded(count):
    return each("type % struct{}\n", count) + "type T struct {\n" + each("\t%\n", count) + "}\n"


def session(text, folder):
    place = {"path": "ex.com/m", "s": 1}
    at = len("package a\n")
    lines = [
        {"cmd": "open", "module": "ex.com/m", "s": 1},
        {"cmd": "edit", "file": "a.go", "text": text, **place},
        {"cmd": "edit", "file": "b.go", "text": "package a\n\nvar last = first\n\nvar first = 1\n", **place},
        {"cmd": "build", "s": 1},
        {"cmd": "complete", "file": "b.go", "offset": at + 12, **place},
        {"cmd": "define", "file": "b.go", "offset": at + 12, **place},
        {"cmd": "doc", "from": "ex.com/m", "type": None, **place},
        {"cmd": "doc", "from": "ex.com/m", "type": "T", **place},
        {"cmd": "list", "from": "ex.com/m", "s": 1},
        {"cmd": "close", "s": 1},
    ]
    file = f"{folder}/session"
    pathlib.Path(file).write_text("".join(json.dumps(it) + "\n" for it in lines), encoding="utf-8")
    return file


def ways(govisd, text, folder, size):
    """Of each way to hand the text to the program the words and the file for its standard input."""
    home = f"{folder}/{size}"
    os.makedirs(f"{home}/m")
    pathlib.Path(f"{home}/m/a.go").write_text(text, encoding="utf-8")
    return {
        "resolve": ([govisd, "resolve"], f"{home}/m/a.go"),
        "check": ([govisd, "check", f"{home}/m", "--module", "ex.com/m"], os.devnull),
        "session": ([govisd, "script"], session(text, home)),
    }


def measure(label, make, govisd, folder):
    home, good = f"{folder}/{label}", True
    half = ways(govisd, made(make, MOST_BYTES // 2), home, "half")
    for way, (words, file) in ways(govisd, made(make, MOST_BYTES), home, "whole").items():
        (s1, _, _), (s2, mb, status) = best(*half[way]), best(words, file)
        growth = s2 / s1 if s1 and s2 and s1 >= LEAST_SECONDS else None
        checks = (
            ("time", s2 is None or s2 > MOST_SECONDS),
            ("memory", mb > MOST_MEGABYTES),
            ("growth", bool(growth) and growth > MOST_GROWTH),
            (f"status {status}", status not in (0, 1)),
        )
        failed = [what for what, is_so in checks if is_so]
        print("| " + " | ".join([label, way, shown(s1, ".3f"), shown(s2, ".3f"), shown(growth, ".2f"), shown(mb, ".0f"), ", ".join(failed)]) + " |", flush=True)
        good = good and not failed
    return good


def main():
    said = argparse.ArgumentParser(description=__doc__, formatter_class=argparse.RawDescriptionHelpFormatter)
    said.add_argument("--govisd", default="crates/govisd/out/govisd")
    said.add_argument("--only")
    args = said.parse_args()
    names = args.only.split(",") if args.only else list(CLASSES)
    print("| class | by | half s | whole s | growth | MB | |\n|---|---|---|---|---|---|---|")
    with tempfile.TemporaryDirectory(prefix="hostile-") as folder:
        passed = [measure(it, CLASSES[it], os.path.abspath(args.govisd), folder) for it in names]
    print(f"{sum(passed)} of {len(passed)} classes within the bounds")
    return 0 if all(passed) else 1


if __name__ == "__main__":
    sys.exit(main())
