#!/usr/bin/env python3
"""Tries the edits in bench/wrong_bodies on a copy of the repository, each of which the prover must refuse, keeps what came of
each, and prints a table."""
import argparse
import fcntl
import hashlib
import os
import re
import shutil
import subprocess
import sys
import time

import together

EDITS = os.path.dirname(os.path.realpath(__file__))
ROOT = os.path.dirname(os.path.dirname(EDITS))
PARTS = ("src", "specs", "proofs")
REFUSED, PASSED, UNREADABLE, UNTRIED = together.REFUSED, together.PASSED, together.UNREADABLE, "untried"
SETTLED = (REFUSED, PASSED, together.LIMITED)
TOLD = re.compile(r"must-fail (\w+)/(\S+)\.edit: (refused|NOT REFUSED|BAD EDIT)(.*)")
ENDED = {"refused": REFUSED, "NOT REFUSED": PASSED, "BAD EDIT": UNREADABLE}


def read(file):
    with open(file, "rb") as it:
        return it.read()


def listed():
    """The crates of the repository, from the bottom up, each with the crates that it uses."""
    lists, uses = {}, {}
    for line in read(os.path.join(ROOT, "crates.txt")).decode().splitlines():
        head, colon, tail = line.partition("#")[0].partition(":")
        if colon:
            lists[head.split()[0]] = tail.split()

    def add(crate):
        if crate not in uses:
            below = [name for name in lists[crate] if name in lists]
            for name in below:
                add(name)
            uses[crate] = below

    for crate in lists:
        add(crate)
    return uses


def files_of(crate):
    """The sources of a crate, by their paths below the top of the repository, in order."""
    found = []
    for part in PARTS:
        for at, _, names in os.walk(os.path.join(ROOT, "crates", crate, part)):
            found += [os.path.relpath(os.path.join(at, name), ROOT) for name in names]
    return sorted(found)


def sums(uses):
    """For each crate a sum of the toolchain, of the crate's sources and of those below it."""
    version = subprocess.run(["rt", "version"], stdout=subprocess.PIPE, check=True).stdout
    found = {}
    for crate, below in uses.items():
        total = hashlib.sha256(version)
        for file in files_of(crate):
            total.update(repr((file, read(os.path.join(ROOT, file)))).encode())
        total.update(repr([found[name] for name in below]).encode())
        found[crate] = total.hexdigest()[:16]
    return found


class Edit:
    """An edit of a crate, and the sum of what it is tried on."""

    def __init__(self, crate, name, sources):
        self.crate, self.name = crate, name
        self.file = os.path.join(EDITS, crate, f"{name}.edit")
        self.sum = hashlib.sha256(sources.encode() + read(self.file)).hexdigest()[:16]

    def key(self):
        return self.crate, self.name, self.sum


def edits_of(crate, sources):
    folder = os.path.join(EDITS, crate)
    names = sorted(os.listdir(folder)) if os.path.isdir(folder) else []
    return [Edit(crate, name[: -len(".edit")], sources) for name in names if name.endswith(".edit")]


class Results:
    """What came of the edits that were tried, a line each: the date, the crate, the edit, the sum, what came of it and what the
    prover said. The last line of an edit and a sum counts."""

    def __init__(self, file):
        self.file, self.ends = file, {}
        if os.path.exists(file):
            for line in read(file).decode().splitlines():
                _, crate, name, tried, end, _ = line.split("\t")
                self.ends[crate, name, tried] = end

    def end(self, edit):
        return self.ends.get(edit.key(), UNTRIED)

    def add(self, edit, end, said):
        self.ends[edit.key()] = end
        words = (time.strftime("%Y-%m-%dT%H:%M:%SZ", time.gmtime()), *edit.key(), end, " ".join(said.split()))
        with open(self.file, "a", encoding="utf-8") as it:
            it.write("\t".join(words) + "\n")


def copy_file(file, room):
    """Copies a file of the repository, unless the copy has the same bytes."""
    source, target = os.path.join(ROOT, file), os.path.join(room, file)
    if os.path.exists(target) and read(target) == read(source):
        return
    os.makedirs(os.path.dirname(target), exist_ok=True)
    shutil.copyfile(source, target)


def copy_repository(room, uses):
    """Brings the copy of the repository up to date. What rt keeps of earlier runs stays in its folders out."""
    wanted = ["HANDLES", "crates.txt", *[file for crate in uses for file in files_of(crate)]]
    for file in wanted:
        copy_file(file, room)
    crates = os.path.join(room, "crates")
    for name in os.listdir(crates):
        if name not in uses:
            shutil.rmtree(os.path.join(crates, name))
            continue
        for part in (*PARTS, "must-fail"):
            for at, _, names in os.walk(os.path.join(crates, name, part), topdown=False):
                for file in (os.path.join(at, it) for it in names):
                    if os.path.relpath(file, room) not in wanted:
                        os.remove(file)
                if not os.listdir(at):
                    os.rmdir(at)


def link_or_copy(source, target):
    """Gives a file of a library a second name, which rt removes before it builds the library again."""
    try:
        os.link(source, target)
    except OSError:
        shutil.copy2(source, target)


def copy_libraries(room, uses):
    """Gives the copy the libraries that rt built in the repository, where they are newer. Whether they fit the sources rt tells by
    their stamps."""
    for crate in uses:
        built, kept = (os.path.join(top, "crates", crate, "out", "rlib") for top in (ROOT, room))
        stamps = [os.path.join(folder, "stamp") for folder in (built, kept)]
        times = [os.path.getmtime(it) if os.path.exists(it) else 0 for it in stamps]
        if times[0] > times[1]:
            shutil.rmtree(kept, ignore_errors=True)
            shutil.copytree(built, kept, copy_function=link_or_copy)


def try_edits(room, crate, edits, results, log):
    """Tries edits of a crate in one go, and keeps what came of each."""
    folder = os.path.join(room, "crates", crate, "must-fail")
    os.makedirs(folder, exist_ok=True)
    for edit in edits:
        shutil.copyfile(edit.file, os.path.join(folder, f"{edit.name}.edit"))
    ran = subprocess.run(["rt", "must-fail", crate], cwd=room, stdout=subprocess.PIPE, stderr=subprocess.STDOUT)
    said = ran.stdout.decode(errors="replace")
    with open(log, "w", encoding="utf-8") as it:
        it.write(said)
    told = {name: (ENDED[word], rest) for _, name, word, rest in TOLD.findall(said)}
    for edit in edits:
        if edit.name in told:
            end, rest = told[edit.name]
            results.add(edit, end, rest)
            print(f"  {crate}/{edit.name}: {end}", flush=True)
        else:
            print(f"  {crate}/{edit.name}: {UNTRIED}; {log} says why", flush=True)


def try_together(room, crate, edits, results, log):
    """Tries edits of a crate in as few checks as they fit into, and keeps what came of those that are judged so."""
    folder = os.path.join(room, "crates", crate)

    def check(flags):
        ran = subprocess.run(["rt", "check", *flags], cwd=folder, stdout=subprocess.PIPE, stderr=subprocess.STDOUT)
        with open(log, "ab") as it:
            it.write(ran.stdout)
        return ran.stdout.decode(errors="replace")

    def tell(name, end, said):
        results.add(next(edit for edit in edits if edit.name == name), end, said)
        print(f"  {crate}/{name}: {end}", flush=True)

    together.try_edits(crate, folder, {edit.name: edit.file for edit in edits}, check, tell)


def table(edits, results):
    """Prints how many edits of each crate were refused, and those that were not. Returns whether all were."""
    ends = (*SETTLED, together.NAMELESS, UNREADABLE, UNTRIED)
    print(f"{'crate':<18} {'edits':>6}" + "".join(f" {end:>12}" for end in ends))
    total = [0] * len(ends)
    for crate, tried in edits.items():
        counts = [sum(results.end(edit) == end for edit in tried) for end in ends]
        total = [one + other for one, other in zip(total, counts)]
        print(f"{crate:<18} {len(tried):>6}" + "".join(f" {count:>12}" for count in counts))
    print(f"{'together':<18} {sum(total):>6}" + "".join(f" {count:>12}" for count in total))
    for tried in edits.values():
        for edit in tried:
            if results.end(edit) != REFUSED:
                print(f"FAILED: {edit.crate}/{edit.name}: {results.end(edit)}")
    return total[0] == sum(total)


def main():
    arguments = argparse.ArgumentParser()
    arguments.add_argument("--out", required=True)
    arguments.add_argument("--together", action="store_true")
    arguments.add_argument("crates", nargs="*")
    given = arguments.parse_args()
    uses = listed()
    strange = [name for name in given.crates if name not in uses]
    if strange:
        print(f"wrong_bodies.sh: crates.txt names no crate {' '.join(strange)}", file=sys.stderr)
        return 2
    home = os.path.join(os.path.abspath(given.out), "wrong_bodies")
    room = os.path.join(home, "repository")
    os.makedirs(os.path.join(room, "crates"), exist_ok=True)
    with open(os.path.join(home, "lock"), "w", encoding="ascii") as lock:
        fcntl.flock(lock, fcntl.LOCK_EX)  # one run at a time has the copy
        results = Results(os.path.join(home, "results.txt"))
        copy_repository(room, uses)
        copy_libraries(room, uses)
        sources = sums(uses)
        edits = {crate: edits_of(crate, sources[crate]) for crate in uses if crate in given.crates or not given.crates}
        edits = {crate: tried for crate, tried in edits.items() if tried}
        for crate, tried in edits.items():
            left = [edit for edit in tried if results.end(edit) not in SETTLED]
            print(f"{crate}: {len(tried) - len(left)} of {len(tried)} edits are tried already", flush=True)
            if left and given.together:
                try_together(room, crate, left, results, os.path.join(home, f"{crate}.together.log"))
                left = [edit for edit in left if results.end(edit) == UNTRIED]
            if left:
                try_edits(room, crate, left, results, os.path.join(home, f"{crate}.log"))
                copy_repository(room, uses)
        return 0 if table(edits, results) else 1


if __name__ == "__main__":
    sys.exit(main())
