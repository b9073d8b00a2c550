#!/usr/bin/env python3
"""Compares which imports `test_cases packages` refuses by I3 with those that `go list` refuses as the use of an
internal package. The same pairs each time, of importer and imported package."""
import argparse
import json
import os
import re
import shutil
import subprocess
import sys

HERE = os.path.dirname(os.path.abspath(__file__))
sys.path.insert(0, f"{HERE}/../shared")
from generate import Numbers

MODULE = "ex.com"  # in whose folder the go command runs
OTHERS = ("ex.org", "internal", "ex.net/a", "ex.net/internal/m")
ELEMENTS = ("a", "ab", "b", "internal", "c")
MOST_ELEMENTS = 5  # below the module, by chance
RANDOM = 300
FILE = "p.go"
GO = {"GOFLAGS": "-mod=mod", "GOPROXY": "off", "GO111MODULE": "on", "GOWORK": "off", "GOTOOLCHAIN": "local"}
REFUSED = re.compile(r"use of internal package (\S+) not allowed")
MISSING = re.compile(r"cannot find|no required module provides|is not in GOROOT|is not in std|no Go files in")
STANDARD, ABSENT = "of the standard library", "no such package"
NOT_IN_TREE = "in no module of the tree"

# Each form: the packages that import, and those that each of them imports.
TABLE = {
    "without internal": (
        (("ex.com", "ex.com/a", "ex.com/a/b", "ex.com/ab", "ex.org"), ("ex.com/b", "ex.com/b/c", "ex.com")),
        (("ex.org/a", "ex.com"), ("ex.net/a", "ex.org/b")),
    ),
    "first in the path": (
        (("ex.com", "ex.com/a", "ex.org/a/b", "internal/a", "ex.net/internal/m"), ("internal/b", "internal/b/c")),
        (("ex.com/a", "internal/a"), ("internal/b/internal", "internal/internal/c", "internal/internal")),
    ),
    "first below the module": (
        (("ex.com", "ex.com/a", "ex.com/a/b/c", "ex.com/internal/y", "ex.org"), ("ex.com/internal", "ex.com/internal/x")),
    ),
    "in the middle": (
        (
            ("ex.com", "ex.com/a", "ex.com/a/b", "ex.com/a/b/c/d", "ex.com/b", "ex.com/b/a", "ex.org/a"),
            ("ex.com/a/internal/x", "ex.com/a/internal/x/y/z"),
        ),
        (
            ("ex.com/a/internal", "ex.com/a/internal/y", "ex.com/a/internal/x/y", "ex.com/internal", "ex.com/b/internal/x"),
            ("ex.com/a/internal/x", "ex.com/a/internal/z"),
        ),
        (("ex.com/a", "ex.com/a/b", "ex.com/a/b/c", "ex.com/a/c", "ex.com/b"), ("ex.com/a/b/internal/x",)),
    ),
    "last": (
        (
            ("ex.com", "ex.com/a", "ex.com/a/b", "ex.com/b", "ex.com/internal", "ex.com/a/internal/x", "ex.org"),
            ("ex.com/a/internal",),
        ),
        (("ex.com/a", "ex.com/a/b", "ex.com/a/b/c", "ex.com/a/c"), ("ex.com/a/b/internal",)),
    ),
    "twice": (
        (
            (
                "ex.com",
                "ex.com/a",
                "ex.com/a/b",
                "ex.com/b",
                "ex.com/a/internal",
                "ex.com/a/internal/d",
                "ex.com/a/internal/b",
                "ex.com/a/internal/b/d",
                "ex.com/a/internal/b/internal",
                "ex.com/a/internal/bc",
            ),
            ("ex.com/a/internal/b/internal/c", "ex.com/a/internal/b/internal/e"),
        ),
        (
            ("ex.com", "ex.com/a", "ex.com/b", "ex.com/a/internal", "ex.com/a/internal/b", "ex.com/a/internal/internal/y"),
            ("ex.com/a/internal/internal", "ex.com/a/internal/internal/x", "ex.com/internal/internal"),
        ),
    ),
    "prefixes of bytes alone": (
        (("ex.com/ab", "ex.com/a.b", "ex.com/a-b", "ex.com/a~", "ex.com/ab/c"), ("ex.com/a/internal/x", "ex.com/a/internal")),
        (("ex.com/a/bc", "ex.com/a/b.c", "ex.com/a/b"), ("ex.com/a/b/internal/x", "ex.com/a/b/internal")),
        (("ex.com/a", "ex.com/a/b"), ("ex.com/ab/internal", "ex.com/a-b/internal/x")),
        (("ex.com/a/internals", "ex.com/a/internal.x"), ("ex.com/a/internal/internal/x",)),
    ),
    "elements with the word in them": (
        (
            ("ex.com", "ex.com/b", "ex.org/a"),
            (
                "ex.com/a/internals",
                "ex.com/a/internals/x",
                "ex.com/a/xinternal",
                "ex.com/a/xinternal/x",
                "ex.com/a/internal.x",
                "ex.com/a/internal.x/x",
                "ex.com/a/x.internal/x",
                "ex.com/a/internal-/x",
                "ex.com/a/internal_x/x",
                "ex.com/a/Internal/w",
                "ex.com/internals/x",
                "ex.com/a/interna",
            ),
        ),
        (("ex.com/b", "ex.com/a/internals", "ex.com/a"), ("ex.com/a/internals/internal/x", "ex.com/a/internal.x/internal")),
    ),
    "modules below internal": (
        (
            ("ex.com/a", "ex.net/a", "ex.net/a/b", "ex.net/internal/m/y", "ex.org"),
            ("ex.net/internal/m", "ex.net/internal/m/x", "ex.net/internal/m/internal/x", "ex.net/a/internal"),
        ),
    ),
    "of itself": (
        (("ex.com/a",), ("ex.com/a",)),
        (("ex.com/a/internal",), ("ex.com/a/internal",)),
        (("ex.com/a/internal/x",), ("ex.com/a/internal/x",)),
        (("ex.com/a/internal/b/internal/c",), ("ex.com/a/internal/b/internal/c",)),
    ),
    NOT_IN_TREE: (
        (("ex.com/a", "internal/a"), ("internal", "internal/cpu", "net/http/internal", "go/internal/gcimporter", "io")),
        (("ex.com/a", "ex.com/ab"), ("ex.com/a/internal/absent", "ex.com/absent")),
    ),
}


class Pair:
    """An importer and what it imports, of a form, with what both say."""

    def __init__(self, form, importer, imported):
        self.form, self.importer, self.imported = form, importer, imported
        self.ours = self.theirs = self.left_out = None

    def text(self):
        return f'package p\n\nimport _ "{self.imported}"\n'

    def place(self):
        """The place of the import as test_cases tells it: the offset is that of the string."""
        offset = self.text().index('"')
        return f"{self.importer}/{FILE}:{offset}"

    def wanted(self):
        """What test_cases must answer, if the go command says what it says."""
        if self.theirs == "refused":
            return "I3"
        return "I4" if self.importer == self.imported else self.imported

    def differs(self):
        return self.theirs not in ("refused", "allowed") or self.ours != self.wanted()


def module_of(path):
    """The module that a path lies in."""
    return next(module for module in (MODULE, *OTHERS) if path == module or path.startswith(module + "/"))


def by_chance(numbers):
    """Two paths below the module. One of two importers begins as what it imports does."""

    def elements(most):
        return [numbers.pick(ELEMENTS) for _ in range(numbers.below(most + 1))]

    imported = elements(MOST_ELEMENTS)
    importer = imported[: numbers.below(len(imported) + 1)] if numbers.below(2) else []
    importer += elements(MOST_ELEMENTS - len(importer))
    return "/".join([MODULE, *importer]), "/".join([MODULE, *imported])


def all_pairs():
    """Those of the table, and then so many others by chance, each once."""
    pairs = {}
    for form, groups in TABLE.items():
        for importers, imports in groups:
            for importer in importers:
                for imported in imports:
                    if form == "of itself" or importer != imported:
                        pairs.setdefault((importer, imported), Pair(form, importer, imported))
    numbers, most = Numbers(4), len(pairs) + RANDOM
    while len(pairs) < most:
        importer, imported = by_chance(numbers)
        pairs.setdefault((importer, imported), Pair("by chance", importer, imported))
    return list(pairs.values())


class Tree:
    """Pairs that stand in one tree: no package of it imports twice, or imports and is imported, so that there is no
    cycle and no error hides another. A package that imports itself is alone there."""

    def __init__(self):
        self.pairs, self.importers, self.imported = [], set(), set()

    def takes(self, pair):
        if pair.importer in self.importers | self.imported or pair.imported in self.importers:
            return False
        self.pairs.append(pair)
        self.importers.add(pair.importer)
        self.imported.add(pair.imported)
        return True

    def files(self):
        """The text of the one file of each package."""
        texts = {pair.imported: "package p\n" for pair in self.pairs if pair.form != NOT_IN_TREE}
        return {**texts, **{pair.importer: pair.text() for pair in self.pairs}}

    def write(self, folder):
        """The modules, each in a folder, and the archive."""
        files = self.files()
        for module in (MODULE, *OTHERS):
            write(os.path.join(home(folder, module), "go.mod"), go_mod(module))
        for path, text in files.items():
            module = module_of(path)
            below = path[len(module) :].lstrip("/")
            write(os.path.join(home(folder, module), below, FILE), text)
        write(archive(folder), "".join(f"-- {path}/{FILE} --\n{text}" for path, text in files.items()))


def trees(pairs):
    grown = []
    for pair in pairs:
        if not any(tree.takes(pair) for tree in grown):
            grown.append(Tree())
            grown[-1].takes(pair)
    return grown


def home(folder, module):
    return os.path.join(folder, module.replace("/", "_"))


def archive(folder):
    return os.path.join(folder, "workspace.txtar")


def go_mod(module):
    lines = [f"module {module}", "go 1.19"]
    if module == MODULE:
        lines += [f"require {other} v0.0.0" for other in OTHERS]
        lines += [f"replace {other} => {os.path.join('..', home('', other))}" for other in OTHERS]
    return "\n".join(lines) + "\n"


def write(file, text):
    os.makedirs(os.path.dirname(file), exist_ok=True)
    with open(file, "w", encoding="ascii", newline="") as it:
        it.write(text)


def said_by(words, **options):
    ran = subprocess.run(words, stdin=subprocess.DEVNULL, stdout=subprocess.PIPE, stderr=subprocess.PIPE, **options)
    if ran.returncode != 0:
        sys.stderr.write(f"internal.py: {' '.join(words)[:200]} ended with status {ran.returncode}\n")
        sys.stderr.buffer.write(ran.stderr)
        sys.exit(2)
    return ran.stdout.decode()


def records(text):
    """The values of a text of JSON, one after another."""
    decoder, at = json.JSONDecoder(), 0
    while at < len(text.rstrip()):
        value, at = decoder.raw_decode(text, at)
        at += len(text[at:]) - len(text[at:].lstrip())
        yield value


def ask_go(given, folder, tree):
    """Sets what the go command says of each pair: refused, allowed, or another error in its words."""
    variables = {**os.environ, **GO, "GOCACHE": os.path.abspath(given.cache)}
    words = [given.go, "list", "-e", "-deps", "-json", *sorted(tree.importers)]
    listed = list(records(said_by(words, cwd=home(folder, MODULE), env=variables)))
    standard = {record["ImportPath"] for record in listed if record.get("Standard")}
    importers = {record["ImportPath"]: record for record in listed if record["ImportPath"] in tree.importers}
    for pair in tree.pairs:
        record = importers.get(pair.importer, {})
        errors = [*filter(None, [record.get("Error")]), *(record.get("DepsErrors") or ())]
        told = [error["Err"].strip() for error in errors]
        refused = [found[1] for found in map(REFUSED.search, told) if found]
        pair.theirs = "allowed" if record.get("Imports") == [pair.imported] else "not listed"
        if refused == [pair.imported] * len(told) and told:
            pair.theirs = "refused"
        elif told and not (pair.importer == pair.imported and all("import cycle" in it for it in told)):
            pair.theirs = "; ".join(told)
        if pair.imported in standard:
            pair.left_out = STANDARD
        elif pair.form == NOT_IN_TREE and told and all(map(MISSING.search, told)):
            pair.left_out = ABSENT


def ask_govisd(given, folder, tree):
    """Sets what test_cases answers for the import of each pair."""
    lines = said_by([given.probe, "packages", archive(folder)]).splitlines()
    imports = [line.split(" ") for line in lines if line.startswith("import ")]
    answers = {words[1]: words[2] for words in imports if len(words) == 3}
    if len(imports) != len(answers) or set(answers) != {pair.place() for pair in tree.pairs}:
        sys.stderr.write(f"internal.py: {archive(folder)}: test_cases answers for other imports than there are\n")
        sys.exit(2)
    for pair in tree.pairs:
        pair.ours = answers[pair.place()]


def report(pairs):
    """Prints the counts by form, and each difference. Tells how many pairs were compared and how many differ."""
    compared = [pair for pair in pairs if not pair.left_out]
    print(f"{'form':<32} {'pairs':>6} {'refused':>8} {'differ':>7}")

    def row(name, some):
        refused = sum(pair.theirs == "refused" for pair in some)
        print(f"{name:<32} {len(some):>6} {refused:>8} {sum(pair.differs() for pair in some):>7}")

    for form in dict.fromkeys(pair.form for pair in compared):
        row(form, [pair for pair in compared if pair.form == form])
    row("together", compared)
    for reason in (STANDARD, ABSENT):
        print(f"left out, {reason}: {sum(pair.left_out == reason for pair in pairs)}")
    differing = [pair for pair in compared if pair.differs()]
    for pair in differing:
        print(f"differs: {pair.importer} imports {pair.imported}: go list: {pair.theirs}; test_cases: {pair.ours}")
    return len(compared), len(differing)


def main():
    arguments = argparse.ArgumentParser()
    for word in ("--probe", "--go", "--cache", "--trees"):
        arguments.add_argument(word, required=True)
    given = arguments.parse_args()
    pairs = all_pairs()
    shutil.rmtree(given.trees, ignore_errors=True)
    for number, tree in enumerate(trees(pairs)):
        folder = os.path.join(given.trees, str(number))
        tree.write(folder)
        ask_go(given, folder, tree)
        ask_govisd(given, folder, tree)
    compared, differing = report(pairs)
    if compared == 0:
        print("FAILED: nothing was compared")
    return 1 if differing or compared == 0 else 0


if __name__ == "__main__":
    sys.exit(main())
