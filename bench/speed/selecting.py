#!/usr/bin/env python3
"""Measures `test_cases first` beside go/types on workspaces of types that embed one another: what one look-up takes (ten times the same
look-ups, less once), and what the snapshot takes, types among it (less the look-ups)."""
import argparse
import os
import subprocess
import sys

RUNS = 5
AIM = 1.0  # of go/types' time for the same look-ups
BOUND = 1.2
MOST_GROWTH = 2.5  # of building, where there are twice as many types


def ring(count):
    """Types of which each embeds a pointer to the next, the last to the first, which has a field."""
    lines = [f"type Ring{i} struct{{ *Ring{i + 1} }}" for i in range(count - 1)]
    return {"ex.com/p": "\n".join(["type A struct{ *Ring0 }", *lines, f"type Ring{count - 1} struct {{\n\t*Ring0\n\tf int\n}}"])}


def tower(levels):
    """Types with two embedded fields that embed the same type below, down to a field."""
    lines = [f"type T{i} struct {{\n\tL{i}\n\tR{i}\n}}\ntype L{i} struct{{ T{i + 1} }}\ntype R{i} struct{{ T{i + 1} }}" for i in range(levels)]
    return {"ex.com/p": "\n".join([*lines, f"type T{levels} struct{{ f int }}"])}


def wide(fields):
    """One struct type with many fields."""
    return {"ex.com/p": "type T struct {\n" + "".join(f"\tf{i} int\n" for i in range(fields)) + "}"}


def many(packages, each):
    """Packages with a few types each: the first embeds the second, that the third, and the third the
    first type of the package before, but in every eighth package."""
    texts = {}
    for n in range(packages):
        below = f"p{n - 1:04}" if n % 8 else ""
        lines = [f'import "ex.com/{below}"' if below else ""]
        lines += ["type Type0 struct {\n\tType1\n\ta0 int\n\tA0 int\n}", "type Type1 struct {\n\t*Type2\n\ta1 int\n}"]
        lines.append("type Type2 struct {\n" + (f"\t{below}.Type0\n" if below else "") + "\ta2 int\n\tA2 int\n}")
        lines += [f"type Type{i} struct {{\n\tType{i - 1}\n\ta{i} int\n}}" for i in range(3, each)]
        lines.append("func (t *Type1) M1() {}\nfunc (t Type2) m2() {}")
        texts[f"ex.com/p{n:04}"] = "\n".join(lines)
    return texts


SHAPES = {
    "ring of 512": ring(512),
    "ring of 4,096": ring(4096),
    "tower of 40": tower(40),
    "1,000 fields": wide(1000),
    "128 packages": many(128, 16),
    "256 packages": many(256, 16),
}
TWICE = (("128 packages", "256 packages"),)


def archive(texts):
    return "".join(f"-- {path}/a.go --\npackage {path.rsplit('/', 1)[1]}\n\n{text}\n" for path, text in texts.items())


def seconds(words):
    """The seconds of the processor of the best of some runs, and what they say."""
    best, said = float("inf"), set()
    for _ in range(RUNS):
        with subprocess.Popen(words, stdout=subprocess.PIPE, stderr=subprocess.DEVNULL) as child:
            said.add(child.stdout.read().decode())
            _, ended, usage = os.wait4(child.pid, 0)
            child.returncode = os.waitstatus_to_exitcode(ended)
        best = min(best, usage.ru_utime + usage.ru_stime)
        if child.returncode:
            sys.exit(f"selecting.py: {words[0]} ended with {child.returncode}")
    return best, said


class Side:
    """What a program takes for a workspace."""

    def __init__(self, program, file):
        once, said = seconds([program, "first", file])
        ten, said10 = seconds([program, "first10", file])
        one, more = ({int(text.split()[-1]) for text in texts} for texts in (said, said10))
        self.found = min(one)
        self.right = one == {self.found} and more == {10 * self.found}
        self.looking = max((ten - once) / 9, 0.0)
        self.building = max(once - self.looking, 0.0)


def main():
    parser = argparse.ArgumentParser()
    parser.add_argument("--program", required=True)
    parser.add_argument("--peer", required=True)
    parser.add_argument("--folder", required=True)
    options = parser.parse_args()
    os.makedirs(options.folder, exist_ok=True)
    faults, built = [], {}
    print(f"{'workspace':<16} {'found':>7} {'look-ups s':>11} {'go/types s':>11} {'ratio':>6} {'building s':>11} {'Go s':>7}")
    for name, texts in SHAPES.items():
        file = os.path.join(options.folder, name.replace(" ", "_").replace(",", "") + ".txt")
        with open(file, "w") as out:
            out.write(archive(texts))
        own, other = Side(options.program, file), Side(options.peer, file)
        ratio = own.looking / other.looking if other.looking else 0.0
        built[name] = own.building
        print(f"{name:<16} {own.found:>7,} {own.looking:>11.5f} {other.looking:>11.5f} {ratio:>6.2f} {own.building:>11.3f} {other.building:>7.3f}")
        if not (own.right and other.right and own.found == other.found):
            faults.append(f"FAILED: {name}: govisd finds {own.found:,}, go/types {other.found:,}")
        if ratio > BOUND:
            faults.append(f"FAILED: {name}: {ratio:.2f} of go/types' time is more than {BOUND}")
        elif ratio > AIM:
            print(f"AIM MISSED: {name}: {ratio:.2f} of go/types' time is more than {AIM}")
    for half, whole in TWICE:
        growth = built[whole] / built[half] if built[half] else 0.0
        if growth > MOST_GROWTH:
            faults.append(f"FAILED: building {whole} takes {growth:.2f} times the time of {half}, more than {MOST_GROWTH}")
    print("\n".join(faults) if faults else "all bounds hold")
    sys.exit(1 if faults else 0)


main()
