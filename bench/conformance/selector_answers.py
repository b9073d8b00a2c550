#!/usr/bin/env python3
"""Compares what selectors denote by `test_cases select` and by go/types' LookupFieldOrMethod, over generated workspaces of types that embed
one another. The same workspaces each time."""
import argparse
import os
import subprocess
import sys

HERE = os.path.dirname(os.path.abspath(__file__))
sys.path.insert(0, f"{HERE}/../shared")
from generate import Numbers

# What govisd answers where go/types finds nothing, and says no more.
NOTHING = ("S1", "S3", "S4", "S6", "S7", "S8")
FIELDS = ("f", "g", "F", "G", "h")
METHODS = ("m", "n", "M", "N", "f", "F")
BATCH = 50  # archives in one run of each program


class Types:
    """The types of one workspace, each with what it embeds and which names are taken in it. An alias has the form of the type that it means."""

    def __init__(self, numbers, packages):
        self.numbers, self.packages = numbers, packages
        self.types = []  # of each: package, name, form, the types that it has by value
        self.lines = {p: [] for p in packages}
        self.imports = {p: set() for p in packages}

    def pick(self, things):
        return things[self.numbers.below(len(things))]

    def spelled(self, home, other):
        package, name = other[0], other[1]
        if package == home:
            return name
        self.imports[home].add(package)
        return f"{package[-1]}.{name}"

    def can_see(self, home, other):
        return other[0] == home or (other[0] < home and other[1][0].isupper())

    def struct(self, home, earlier, later):
        """The fields of a struct type: embedded types, then fields of their own names. A type by value is an earlier one, and so is an alias: that of
        Go 1.19 refuses some others (https://go.dev/issue/50729)."""
        taken, fields = set(), []
        for _ in range(1 + self.numbers.below(3)):
            star = self.numbers.below(2) == 0
            choice = [t for t in (earlier + [t for t in later if not t[3]] if star else earlier) if self.can_see(home, t) and t[1] not in taken]
            choice = [t for t in choice if t[2] != "pointer" and not (star and t[2] == "interface")]
            if not choice:
                continue
            other = self.pick(choice)
            taken.add(other[1])
            fields.append(("*" if star else "") + self.spelled(home, other))
        if self.numbers.below(8) == 0:
            taken.add("error")
            fields.append("error")
        for _ in range(self.numbers.below(3)):
            name = self.pick(FIELDS)
            if name not in taken:
                taken.add(name)
                fields.append(f"{name} {self.pick(('int', 'string', 'struct{ f int }'))}")
        return taken, fields

    def methods(self, home, name, taken):
        for _ in range(self.numbers.below(3)):
            method = self.pick(METHODS)
            if method not in taken:
                taken.add(method)
                star = "*" if self.numbers.below(2) else ""
                self.lines[home].append(f"func (x {star}{name}) {method}() {{}}")

    def define(self, planned, place):
        home, name, form, target = planned[place]
        earlier, later = planned[:place], planned[place:]
        if target:
            self.lines[home].append(f"type {name} = {self.spelled(home, target)}")
        elif form == "interface":
            names = sorted({self.pick(METHODS) for _ in range(self.numbers.below(3))})
            self.lines[home].append(f"type {name} interface {{ " + "; ".join(f"{m}()" for m in names) + " }")
        elif form == "pointer":
            other = self.pick([t for t in planned if self.can_see(home, t) and t[2] == "struct"] or [None])
            self.lines[home].append(f"type {name} *" + (self.spelled(home, other) if other else "int"))
        elif form == "alike":
            choice = [t for t in earlier if self.can_see(home, t) and t[2] == "struct"]
            if choice:
                self.lines[home].append(f"type {name} {self.spelled(home, self.pick(choice))}")
            else:
                self.lines[home].append(f"type {name} int")
                self.methods(home, name, set())
        else:
            taken, fields = self.struct(home, earlier, later)
            self.lines[home].append(f"type {name} struct {{\n\t" + "\n\t".join(fields) + "\n}")
            self.methods(home, name, set(taken))

    def archive(self):
        count = 2 + self.numbers.below(5)
        planned = []
        for place in range(count):
            home = self.packages[min(place * len(self.packages) // count, len(self.packages) - 1)]
            form = self.pick(("struct",) * 7 + ("interface", "pointer", "alike") + ("alias",) * 5)
            name = ("T" if self.numbers.below(2) else "t") + str(place)
            targets = [t for t in planned if self.can_see(home, t)] if form == "alias" else []
            target = self.pick(targets) if targets else None
            planned.append((home, name, target[2] if target else "struct" if form == "alias" else form, target))
        for place in range(count):
            self.define(planned, place)
        text = []
        for package in self.packages:
            imports = "".join(f'import "{p}"\n' for p in sorted(self.imports[package]))
            text.append(f"-- {package}/a.go --\npackage {package[-1]}\n\n{imports}\n" + "\n\n".join(self.lines[package]) + "\n")
        return "".join(text)


def run(command):
    done = subprocess.run(command, capture_output=True, text=True)
    return done.returncode, done.stdout.splitlines(), done.stderr


def answers(options, kind, files):
    """What govisd and go/types answer, line by line, and how many answers of a listing of all paths differ from govisd's own."""
    status, ours, errors = run([options.program, kind, *files])
    if status:
        sys.exit(f"selector_answers.py: {options.program} ended with {status}: {errors}")
    status, theirs, errors = run([options.peer, kind, *files])
    if status:
        sys.exit(f"selector_answers.py: go/types refuses a generated workspace: {errors[:500]}")
    second = [line for line in ours if line.startswith("  a listing")]
    ours = [line for line in ours if not line.startswith("  a listing")]
    if len(ours) != len(theirs):
        sys.exit(f"selector_answers.py: {len(ours)} answers of govisd, {len(theirs)} of go/types")
    return list(zip(ours, theirs)), len(second)


def note(counts, key):
    counts[key] = counts.get(key, 0) + 1


def compare(files, options, counts):
    """Prints the answers that differ, the first twenty, and counts all of them."""
    pairs, second = answers(options, "select", files)
    counts["by the listing"] += second
    for own, other in pairs:
        subject, answer = own.split(": ", 1)
        peer_subject, peer = other.split(": ", 1)
        note(counts, answer if answer[0] == "S" else answer.split()[0])
        counts["asked"] += 1
        told = "none" if answer in NOTHING else answer
        differs(subject == peer_subject and told == peer, own, other, counts)
    pairs, _ = answers(options, "selectable", files)
    for own, other in pairs:
        counts["lists"] += 1
        counts["names"] += len(own.split(":", 1)[1].replace(", ", ",").split("]")) - 1
        differs(own == other, own, other, counts)


def differs(alike, own, other, counts):
    if not alike:
        counts["differ"] += 1
        if counts["differ"] <= 20:
            print(f"govisd:   {own}\ngo/types: {other}")


def ring(options):
    """The names f and g behind the first of 4,096 types of which each embeds a pointer to the next, the last to the first. The last has a field f, to
    which one path of 4,095 fields leads; g there is none."""
    count = 4096
    text = ["ex.com/p ex.com/p.T0 f", "ex.com/p ex.com/p.T0 g", "-- ex.com/p/a.go --", "package p", ""]
    text += [f"type T{i} struct{{ *T{i + 1} }}" for i in range(count - 1)] + [f"type T{count - 1} struct {{", "\t*T0", "\tf int", "}", ""]
    file = os.path.join(options.folder, "ring.txt")
    with open(file, "w") as out:
        out.write("\n".join(text))
    source = "\n".join(text[3:])
    path = " ".join(["0"] * (count - 1))
    want = [f"{text[0]}: field ex.com/p/a.go:{source.index('f int')} [{path}] pointer", f"{text[1]}: S1"]
    status, ours, errors = run([options.program, "ask", file])
    if status or ours != want:
        print(f"the ring of {count:,} types: {[line[:120] for line in ours]} {errors[:200]}")
        return False
    print(f"the ring of {count:,} types: a path of {count - 1:,} fields, and S1")
    return True


def generate(options):
    numbers, files = Numbers(20261123), []
    for place in range(options.workspaces):
        packages = ["ex.com/" + "pqr"[i] for i in range(1 + numbers.below(3))]
        name = os.path.join(options.folder, f"{place:04}.txt")
        with open(name, "w") as file:
            file.write(Types(numbers, packages).archive())
        files.append(name)
    return files


def main():
    parser = argparse.ArgumentParser()
    parser.add_argument("--program", required=True)
    parser.add_argument("--peer", required=True)
    parser.add_argument("--folder", required=True)
    parser.add_argument("--workspaces", type=int, default=2000)
    parser.add_argument("cases", nargs="*", help="archives that are compared besides")
    options = parser.parse_args()
    os.makedirs(options.folder, exist_ok=True)
    files = generate(options)
    counts = {"asked": 0, "lists": 0, "names": 0, "differ": 0, "by the listing": 0}
    for case in options.cases:
        compare([case], options, counts)
    for start in range(0, len(files), BATCH):
        compare(files[start : start + BATCH], options, counts)
    asked, lists, names, differ, second = (counts.pop(key) for key in ("asked", "lists", "names", "differ", "by the listing"))
    print(f"{len(files):,} generated workspaces and {len(options.cases)} others: {asked:,} selectors, {lists:,} lists with {names:,} names: {differ:,} differ from go/types")
    print(", ".join(f"{key} {counts[key]:,}" for key in sorted(counts)))
    print(f"a listing of all paths finds another answer {second:,} times")
    right = ring(options)
    sys.exit(1 if differ or second or not right else 0)


main()
