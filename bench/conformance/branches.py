#!/usr/bin/env python3
"""Compares the check of a function with parts of its body at once and the check in turn, over generated files with large functions:

    python3 bench/conformance/branches.py PROGRAM [FILES]     FILES archives, 1,000 unless given
    python3 bench/conformance/branches.py --write FILE        the archive of the gate, crates/test_cases/data/branches.txt

PROGRAM is `test_cases`. Its kind `branches` checks each function of an archive in both ways and compares all uses, faults and locals. Each archive has a package
with one function of 4 to 100 KB, some small ones and methods, and a package that it imports: all that stands in them is of `Dotted` (member_files.py) and `Wild`
(../shared/generate.py). A function is taken apart only where statements follow one another that declare nothing, so each file has its own share of such.
How many threads a run begins says `count_threads.c`: one for each pair of halves. Each tenth archive is checked again where no thread can be begun. The status
is 1 where a function differs or a run fails.
"""
import os
import re
import shutil
import subprocess
import sys
import tempfile

HERE = os.path.dirname(os.path.abspath(__file__))
sys.path.insert(0, f"{HERE}/../shared")

from generate import Wild  # noqa: E402
from member_files import ALIASES, FACES, LIBRARY, NAMES, TYPES, Dotted  # noqa: E402

SMALLEST, LARGEST = 4_096, 102_400
LIB = "ex.com/lib"
SAID = re.compile(r"functions (\d+) uses (\d+) faults (\d+) locals (\d+) differ (\d+)\n\Z")


class Large(Dotted):
    """A file with one large function. Of 100 of its statements so many declare names in the function's own block as `share` says."""

    def __init__(self, seed):
        super().__init__(seed)
        self.wild = Wild(seed)
        self.share = self.pick([0, 1, 2, 5, 20])
        self.bytes = SMALLEST + self.numbers.below(self.pick([8, 16, 32, 64, 96])) * 1_024
        self.found = None

    def members(self, kind, depth=0):
        """As of `Dotted`; what is found of a type is kept once all is declared."""
        if self.found is None or depth:
            return super().members(kind, depth)
        if kind not in self.found:
            self.found[kind] = super().members(kind)
        return self.found[kind]

    def struct_type(self):
        """A struct type that is written out."""
        return f"struct{{ {self.pick(NAMES)}, {self.pick(NAMES)} int; in {self.pick([*TYPES, *FACES, 'lib.L'])} }}"

    def written_inside(self):
        """A type that is written out."""
        return self.pick([
            self.struct_type(),
            f"interface{{ {self.pick(NAMES)}() {self.written_type()} }}",
            f"*struct{{ *lib.L; {self.pick(NAMES)} {self.written_type()} }}",
        ])

    def declaration(self, names):
        """A statement that declares names in the block in which it stands: often one that is used before, of the package or of a block beside."""
        self.fresh += 1
        name = self.pick([f"x{self.fresh}", f"x{self.fresh}", self.pick(NAMES), self.pick(["a", "b", "made", "lib", "p"])])
        text, kind = self.selected(names, 2)
        form = self.numbers.below(8)
        if form < 3:
            names.insert(0, (name, kind))
            return f"{name} := {text}"
        if form == 3:
            return f"{name}, {self.pick([*NAMES, '_', 'q'])} := {text}, {self.expression(names)}"
        if form == 4:
            return f"const {name} = {self.numbers.below(99)} + {self.pick(['1', 'x1', 'a', 'limit'])}"
        if form == 5:
            return self.wild.value()
        kind = self.written_inside() if form == 6 else self.written_type()
        names.insert(0, (name, kind))
        return f"var {name} {kind}"

    def head(self, names):
        """What stands before a block."""
        form = self.numbers.below(7)
        condition = f"({self.selected(names, 1)[0]}) == ({self.expression(names, 1)})"
        if form < 2:
            return f"if {condition} "
        if form == 2:
            return f"if {self.pick(NAMES)} := {self.numbers.below(9)}; {self.pick(NAMES)} < 3 "
        if form == 3:
            return f"for {self.pick(NAMES)} := 0; {self.pick(NAMES)} < 9; {self.pick(NAMES)}++ "
        return self.pick(["", "", f"for {condition} "])

    def inner(self, names, depth):
        """A block with its head: what it declares ends with it."""
        names = list(names)
        text = ""
        for _ in range(1 + self.numbers.below(5)):
            text += (self.declaration(names) if self.chance(40) else self.statement(names, 1) if self.chance(50) else self.quiet(names, depth - 1)) + "\n"
        head = self.head(names)
        tail = f" else {{\n{self.block(names, 1)}}}" if head.startswith("if") and self.chance(40) else ""
        return f"{head}{{\n{text}}}{tail}"

    def quiet(self, names, depth):
        """A statement that declares nothing in the block in which it stands."""
        form = self.numbers.below(16)
        text, kind = self.selected(names, 2)
        if form < 4:
            return f"{self.pick(['_', text])} = {self.expression(names)}"
        if form == 4:
            return f"{text}{self.pick(['++', '--', ' += 1', ' -= 2'])}"
        if form < 7:
            return f"println({text}, {self.expression(names)})"
        if form < 11 and depth:
            return self.inner(names, depth)
        if form == 11:
            return self.pick(["return", f"return {self.expression(names)}", f"return {text}, {self.expression(names)}", "break", "continue"])
        if form == 12:
            return self.wild.block(3)
        if form == 13:
            return f"_ = {self.struct_type()}{{{self.pick(['', '1', 'in: nil'])}}}" if self.chance(50) else f"_ = {self.literal(names, self.pick(TYPES), 2)}"
        if form == 14:
            return f"{self.pick([*NAMES, 'a', 'b'])}, {self.pick(['_', 'q'])} = {self.expression(names)}, {self.expression(names)}"
        return self.pick(["several()", "made()", f"{self.pick(NAMES)}()", ""])

    def large(self, name):
        """The large function."""
        names = [("p", TYPES[0]), ("q", "*" + TYPES[1])]
        results = self.pick(["", " int", f" ({self.pick(NAMES)} int, {self.pick(['p', 'last'])} error)", f" {self.pick([*TYPES, *ALIASES])}"])
        self.found = {}
        parts, size = [], 0
        while size < self.bytes:
            declares = self.chance(self.share)
            part = (self.declaration(names) if declares else self.quiet([it for it in names if it[1] != "none"][:30], 3)) + "\n"
            parts.append(part)
            size += len(part.encode())
        return f"func {name}(p {TYPES[0]}, q *{TYPES[1]}){results} {{\n{''.join(parts)}}}\n\n"

    def archive(self):
        text = self.file(LIB) + "\nconst limit = 3\n\n"
        return f"-- {LIB}/lib.go --\n{LIBRARY}-- ex.com/a/a.go --\n{text}{self.large('large')}{self.wild.function()}\n"


def gate_archive():
    """One package with six large functions, each in a file of its own, with shares of declarations of each kind."""
    text = f"-- {LIB}/lib.go --\n{LIBRARY}"
    for seed, share, size in [(1, 0, 8_500), (2, 1, 10_000), (3, 2, 9_000), (4, 5, 14_000), (5, 20, 9_000), (6, 1, 56_000)]:
        made = Large(seed)
        made.share, made.bytes = share, size
        text += f"-- ex.com/p{seed}/a.go --\n{made.file(LIB)}\nconst limit = 3\n\n{made.large('large')}"
    return text


def said(program, made, shim, more):
    """What the program says of an archive; nothing where it fails."""
    told = subprocess.run([program, "branches", made], stdout=subprocess.PIPE, env={**os.environ, "LD_PRELOAD": shim, **more}, text=True, check=False)
    return SAID.search(told.stdout) if told.returncode == 0 else None


def run(program, shim, folder, seed):
    """How many functions an archive has, uses, faults and locals of these, how many differ, and how many threads were begun; nothing where the run fails, and
    where the archive is one of ten that are checked again without threads, and something else is said then."""
    made, count = f"{folder}/made.txt", f"{folder}/threads"
    with open(made, "w", encoding="utf-8") as file:
        file.write(Large(seed).archive())
    with open(count, "w", encoding="utf-8"):
        pass
    found = said(program, made, shim, {"COUNT_THREADS": count})
    if seed % 10 == 0:
        again = said(program, made, shim, {"REFUSE_THREADS": "1"})
        if not again or not found or again[0] != found[0]:
            return None
    if not found:
        return None
    return [*map(int, found.groups()), os.path.getsize(count)]


def compare(program, files):
    out = os.environ.get("BENCH_OUT", f"{HERE}/../out") + "/branches"
    os.makedirs(out, exist_ok=True)
    shim = f"{out}/count_threads.so"
    subprocess.run(["cc", "-O1", "-shared", "-fPIC", "-o", shim, f"{HERE}/count_threads.c", "-ldl"], check=True)
    sums, split, failed = [0] * 6, 0, []
    with tempfile.TemporaryDirectory(prefix="branches-") as folder:
        for seed in range(1, files + 1):
            told = run(program, shim, folder, seed)
            if told is None or told[4]:
                failed.append(seed)
                shutil.copy(f"{folder}/made.txt", f"{out}/{seed}.txt")
            if told is not None:
                sums = [a + b for a, b in zip(sums, told)]
                split += told[5] > 0
    print(f"{files} archives: {sums[0]} functions with {sums[1]} uses, {sums[2]} faults and {sums[3]} locals")
    print(f"taken apart: the large function of {split}, into {split + sums[5]} parts")
    print(f"functions that differ: {sums[4]}")
    if failed:
        print(f"FAILED: another answer, or none; the archives are in {out}: {' '.join(map(str, failed))}")
    return 1 if failed else 0


def main(words):
    if len(words) == 2 and words[0] == "--write":
        with open(words[1], "w", encoding="utf-8") as file:
            file.write(gate_archive())
        return 0
    if len(words) not in (1, 2):
        sys.exit(__doc__)
    return compare(os.path.abspath(words[0]), int(words[1]) if len(words) > 1 else 1_000)


if __name__ == "__main__":
    sys.exit(main(sys.argv[1:]))
