#!/usr/bin/env python3
"""Measures `test_cases sources`, and the Go peer, on workspaces of many packages whose trees are all held at once, prints
a table, and checks the bounds and the counts."""
import argparse
import os
import subprocess
import sys

HERE = os.path.dirname(os.path.abspath(__file__))
sys.path.insert(0, f"{HERE}/../shared")
from measure import MOST_GROWTH, Bound, Measured, judged, one_core, verdict
from workspaces import HELD, archive

RUNS = 3
MOST_MEGABYTES = 500.0  # of 1,000,000 bytes each, for the largest workspace


class Sample:
    """A workspace, and what the programs take to read, parse and hold it."""

    def __init__(self, given, count):
        file = archive(given.files, "held", count)
        self.name, self.count, self.size = f"{count:,} packages", count, os.path.getsize(file)
        self.programs = [Measured([it, "sources", file], file) for it in (given.probe, given.gofront) if it]
        self.govisd = self.programs[0]

    def again(self):
        for program in self.programs:
            program.again()

    def row(self):
        line = f"{self.count:>9,} {self.size:>11,}"
        for program in self.programs:
            line += f" {program.seconds:>9.3f} {program.megabytes:>7.1f} {program.megabytes * 1e6 / self.size:>7.1f}"
        if len(self.programs) == 1:
            return f"{line} {'-':>9} {'-':>7} {'-':>7} {'-':>8} {'-':>9}"
        govisd, peer = self.programs
        return f"{line} {govisd.seconds / peer.seconds:>8.2f} {govisd.megabytes / peer.megabytes:>9.2f}"

    def faults(self):
        """Each program must say that it has a tree of each file, and end well."""
        wanted = f"packages {self.count} files {self.count} trees {self.count}"
        for program in self.programs:
            words = program.words
            said = subprocess.run(words, stdout=subprocess.PIPE, stderr=subprocess.DEVNULL).stdout.decode()
            if wanted not in said.splitlines():
                yield f"{self.name}: {os.path.basename(words[0])} says {said[:200]!r}, and {wanted!r} is wanted"
            if program.statuses != {0}:
                yield f"{self.name}: {os.path.basename(words[0])} ended with status {sorted(program.statuses)}"


def main():
    arguments = argparse.ArgumentParser()
    arguments.add_argument("--probe", required=True)
    arguments.add_argument("--gofront")
    arguments.add_argument("--files", required=True)
    given = arguments.parse_args()
    where = one_core()
    head = ("packages", "bytes", "govisd s", "MB", "a byte", "Go s", "Go MB", "a byte", "s ratio", "MB ratio")
    print("{:>9} {:>11} {:>9} {:>7} {:>7} {:>9} {:>7} {:>7} {:>8} {:>9}".format(*head))
    samples = [Sample(given, count) for count in HELD]
    # in turn, so that a busy moment of the machine falls on all
    for _ in range(RUNS):
        for sample in samples:
            sample.again()
    for sample in samples:
        print(sample.row(), flush=True)
    half, full = samples
    bound = Bound(lambda sample: sample.govisd.megabytes, "MB", MOST_MEGABYTES, MOST_MEGABYTES)
    missed, wrong = judged([bound], full)
    growth = full.govisd.seconds / half.govisd.seconds
    if growth > MOST_GROWTH:
        wrong.append(f"twice the packages take {growth:.2f} times the time, more than {MOST_GROWTH}")
    print(f"twice the packages, times the time: {growth:.2f} (at most {MOST_GROWTH})")
    print(f"best of {RUNS} runs, {where}; {HELD[-1]:,} packages at most {MOST_MEGABYTES:.0f} MB")
    return verdict(missed, [*half.faults(), *full.faults(), *wrong])


if __name__ == "__main__":
    sys.exit(main())
