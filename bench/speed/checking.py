#!/usr/bin/env python3
"""Measures `test_cases counts` beside go/parser with go/types on workspaces that a whole check finds no fault in (checked.py), prints a table and checks the
bounds and the counts."""
import argparse
import os
import sys

HERE = os.path.dirname(os.path.abspath(__file__))
sys.path.insert(0, f"{HERE}/../shared")
import measure
from checked import CONSTANTS, KEYS, UNITS
from linked import STATEMENTS
from workspaces import archive

AIM, BOUND = 0.7, 1.0  # of the time of Go, for 1 MB
AIM_MB, BOUND_MB = 100.0, 120.0  # for 1 MB
AIM_GROWTH, BOUND_GROWTH = 2.2, 2.3  # of the time, where there is twice as much
FORMS = {"one": UNITS, "files": UNITS, "packages": UNITS, "long": STATEMENTS, "keys": KEYS, "chain": CONSTANTS}
MEASURED = UNITS[1]  # units of 1,000 bytes


class Side:
    """The best time of the processor of a program for a workspace, what it says, and its least peak memory."""

    def __init__(self, words):
        self.words, self.best, self.said = words, float("inf"), set()
        self.megabytes = min(measure.peak(words, os.devnull) for _ in range(measure.PEAKS)) / 1e6

    def again(self):
        seconds, said = measure.processor(self.words)
        self.best = min(self.best, seconds)
        self.said.add(said)

    def counts(self):
        """The numbers of the last line, by the words before them."""
        words = next(iter(self.said)).splitlines()[-1].split()
        return {name: int(number) for name, number in zip(words[::2], words[1::2])}


class Sample:
    """A workspace, and what both programs take for it."""

    def __init__(self, given, form, count):
        file = archive(given.folder, form, count)
        self.name, self.form, self.count, self.size = f"{form} {count:,}", form, count, os.path.getsize(file)
        self.govisd = Side([given.program, "counts", file])
        self.peer = Side([given.peer, "check", file]) if given.peer else None

    def again(self):
        for side in filter(None, (self.govisd, self.peer)):
            side.again()

    def ratio(self):
        return self.govisd.best / self.peer.best if self.peer else None

    def row(self):
        line = f"{self.name:<14} {self.size:>10,} {self.govisd.counts()['occurrences']:>11,} {self.govisd.best:>9.3f} {self.govisd.megabytes:>7.1f}"
        if not self.peer:
            return f"{line} {'-':>8} {'-':>7} {'-':>6}"
        return f"{line} {self.peer.best:>8.3f} {self.peer.megabytes:>7.1f} {self.ratio():>6.2f}"

    def wrong(self):
        """What both programs should have said."""
        counts = self.govisd.counts()
        if len(self.govisd.said) > 1 or counts["packages"] < 1 or counts["refused"] or counts["faults"]:
            yield f"{self.name}: test_cases says {', '.join(self.govisd.said)}"
        if not self.peer:
            return
        other = self.peer.counts()
        if other["errors"] or other["packages"] != counts["packages"]:
            yield f"{self.name}: go/types has {other['errors']} errors, and {other['packages']} packages"
        # each call is an occurrence besides
        if counts["occurrences"] < other["identifiers"]:
            yield f"{self.name}: test_cases has {counts['occurrences']} occurrences, go/types {other['identifiers']} identifiers"


def judged(found, aim, bound, said, missed, wrong):
    """Notes a figure that is past its aim or its bound."""
    if found is not None and found > bound:
        wrong.append(f"{said} is more than {bound}")
    elif found is not None and found > aim:
        missed.append(f"{said} is more than {aim}")


def main():
    parser = argparse.ArgumentParser()
    parser.add_argument("--program", required=True)
    parser.add_argument("--peer")
    parser.add_argument("--folder", required=True)
    given = parser.parse_args()
    where = measure.one_core()
    print("{:<14} {:>10} {:>11} {:>9} {:>7} {:>8} {:>7} {:>6}".format("workspace", "bytes", "occurrences", "govisd s", "MB", "Go s", "Go MB", "ratio"))
    missed, wrong, growths = [], [], []
    for form, counts in FORMS.items():
        samples = [Sample(given, form, count) for count in counts]
        for _ in range(measure.RUNS):
            for sample in samples:
                sample.again()
        for sample in samples:
            print(sample.row(), flush=True)
            wrong += sample.wrong()
            if counts is UNITS and sample.count == MEASURED:
                judged(sample.ratio(), AIM, BOUND, f"{sample.name}: {sample.ratio() or 0:.2f} of the time of Go", missed, wrong)
                judged(sample.govisd.megabytes, AIM_MB, BOUND_MB, f"{sample.name}: {sample.govisd.megabytes:.1f} MB", missed, wrong)
        for half, whole in zip(samples, samples[1:]):
            growth = whole.govisd.best / half.govisd.best
            growths.append(f"{whole.name} {growth:.2f}")
            judged(growth, AIM_GROWTH, BOUND_GROWTH, f"{whole.name}: {growth:.2f} times the time of half as much", missed, wrong)
    print(f"times the time of half as much: {', '.join(growths)} (at most {BOUND_GROWTH})")
    print(f"best of {measure.RUNS} runs, {where}; 1 MB at most {AIM} of the time of Go (fails past {BOUND}) and {AIM_MB} MB (fails past {BOUND_MB})")
    return measure.verdict(missed, wrong, given.peer is not None)


if __name__ == "__main__":
    sys.exit(main())
