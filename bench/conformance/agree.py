#!/usr/bin/env python3
"""Counts where two programs that print `OFFSET ROLE TEXT ANSWER` lines agree on what an identifier denotes.

A program speaks of an identifier where its answer is a declaration: universe.NAME or PATH/FILE:OFFSET. An answer
that is a rule's number or `?`, and a `fault` line, names none.
"""
import argparse
import os
import re
import subprocess
import sys
import time

RULE = re.compile(r"[A-Z][0-9]|\?")


def told(program, file):
    """What a program says of each place, and whether it says anything that is no such line."""
    with open(file, "rb") as text:
        ran = subprocess.run(program, stdin=text, stdout=subprocess.PIPE, stderr=subprocess.DEVNULL)
    said = {}
    for line in ran.stdout.decode().splitlines():
        words = line.split(" ")
        if len(words) == 3 and words[0] == "fault":
            continue
        if len(words) != 4 or not words[0].isdigit() or int(words[0]) in said:
            raise ValueError(f"{program[0]} on {file}: {line!r}")
        said[int(words[0])] = tuple(words[1:])
    return said


class Count:
    def __init__(self):
        self.agree = self.differ = self.one = self.none = 0

    def add(self, other):
        self.agree += other.agree
        self.differ += other.differ
        self.one += other.one
        self.none += other.none


def compared(ours, theirs, file):
    count = Count()
    for place in sorted(ours.keys() | theirs.keys()):
        a, b = ours.get(place), theirs.get(place)
        speaks = [x is not None and not RULE.fullmatch(x[2]) for x in (a, b)]
        if all(speaks) and a == b:
            count.agree += 1
        elif all(speaks):
            count.differ += 1
            print(f"differs: {file} at {place}: govisd {' '.join(a)}, Go {' '.join(b)}")
        elif any(speaks):
            count.one += 1
        else:
            count.none += 1
    return count


def main():
    arguments = argparse.ArgumentParser()
    arguments.add_argument("--govisd", required=True)
    arguments.add_argument("--gofront", required=True)
    arguments.add_argument("files", nargs="+")
    given = arguments.parse_args()
    start, total, rows = time.time(), Count(), {}
    for file in given.files:
        count = compared(told([given.govisd, "resolve"], file), told([given.gofront], file), file)
        total.add(count)
        name = os.path.basename(file)
        shown = "random files" if name[:-3].isdigit() else name
        rows.setdefault(shown, Count()).add(count)
    print(f"{'identifiers in':<18} {'agree':>9} {'differ':>7} {'one names':>10} {'none names':>11}")
    for name, count in [*rows.items(), ("together", total)]:
        print(f"{name:<18} {count.agree:>9,} {count.differ:>7,} {count.one:>10,} {count.none:>11,}")
    print(f"{len(given.files)} files in {time.time() - start:.0f} s")
    if total.agree == 0:
        print("FAILED: not one identifier of which both name the declaration")
    return 1 if total.differ or total.agree == 0 else 0


if __name__ == "__main__":
    sys.exit(main())
