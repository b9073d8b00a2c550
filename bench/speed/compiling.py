#!/usr/bin/env python3
"""Measures `govisd check` beside go/parser with go/types on whole workspaces in which both find nothing (compiled.py), prints a table and checks the bounds and
the counts."""
import argparse
import os
import sys

HERE = os.path.dirname(os.path.abspath(__file__))
sys.path.insert(0, f"{HERE}/../shared")
import measure
from compiled import MODULE, PACKAGES, module

BOUND = 0.7  # of the time of Go
BOUND_MEMORY = 1.0  # of the memory of Go
BOUND_MB = 1_000.0  # of the largest workspace
BOUND_GROWTH = 2.3  # of the time, where there are twice as many packages
RUNS = int(os.environ.get("RUNS", measure.RUNS))


class Side:
    """The best time of the processor of a program for a workspace, its least peak memory, and what it says."""

    def __init__(self, words):
        self.words, self.best, self.megabytes, self.said = words, float("inf"), float("inf"), set()

    def again(self):
        usage, said = measure.watched(self.words)
        self.best = min(self.best, usage.ru_utime + usage.ru_stime)
        self.megabytes = min(self.megabytes, usage.ru_maxrss * 1024 / 1e6)
        self.said.add(said.splitlines()[-1])


class Sample:
    """A workspace, and what both programs take for it."""

    def __init__(self, given, count):
        folder = module(given.folder, count)
        self.count, self.name = count, f"{count:,} packages"
        self.size = sum(os.path.getsize(os.path.join(home, name)) for home, _, names in os.walk(folder) for name in names)
        self.govisd = Side([given.govisd, "check", folder, "--module", MODULE])
        self.peer = Side([given.peer, "compile", os.path.join(given.folder, str(count))]) if given.peer else None

    def again(self):
        for side in filter(None, (self.govisd, self.peer)):
            side.again()

    def row(self):
        line = f"{self.count:>9,} {self.size:>11,} {self.govisd.best:>9.3f} {self.govisd.megabytes:>7.1f}"
        if not self.peer:
            return f"{line} {'-':>8} {'-':>7} {'-':>8} {'-':>9}"
        return f"{line} {self.peer.best:>8.3f} {self.peer.megabytes:>7.1f} {self.of_time():>8.2f} {self.of_memory():>9.2f}"

    def of_time(self):
        return self.govisd.best / self.peer.best

    def of_memory(self):
        return self.govisd.megabytes / self.peer.megabytes

    def wrong(self):
        """What is wrong at any size."""
        wanted = f"no faults in {self.count} packages"
        if self.govisd.said != {wanted}:
            yield f"{self.name}: govisd says {self.govisd.said}, and {wanted!r} is wanted"
        if not self.peer:
            return
        for said in self.peer.said:
            if not said.startswith(f"packages {self.count} errors 0 "):
                yield f"{self.name}: go/types says {said!r}"
        if self.of_time() > BOUND:
            yield f"{self.name}: {self.of_time():.2f} of the time of Go is more than {BOUND}"
        if self.of_memory() > BOUND_MEMORY:
            yield f"{self.name}: {self.of_memory():.2f} of the memory of Go is more than {BOUND_MEMORY}"


def main():
    arguments = argparse.ArgumentParser()
    arguments.add_argument("--govisd", required=True)
    arguments.add_argument("--peer")
    arguments.add_argument("--folder", required=True)
    given = arguments.parse_args()
    os.environ["GOMAXPROCS"] = "1"
    where = measure.one_core()
    head = ("packages", "bytes", "govisd s", "MB", "Go s", "Go MB", "s ratio", "MB ratio")
    print("{:>9} {:>11} {:>9} {:>7} {:>8} {:>7} {:>8} {:>9}".format(*head))
    samples = [Sample(given, count) for count in PACKAGES]
    # in turn, so that a busy moment of the machine falls on all
    for _ in range(RUNS):
        for sample in samples:
            sample.again()
    wrong, growths = [], []
    for sample in samples:
        print(sample.row(), flush=True)
        wrong += sample.wrong()
    for half, whole in zip(samples, samples[1:]):
        growth = whole.govisd.best / half.govisd.best
        growths.append(f"{whole.count:,} {growth:.2f}")
        if growth > BOUND_GROWTH:
            wrong.append(f"{whole.name}: {growth:.2f} times the time of half as many is more than {BOUND_GROWTH}")
    if samples[-1].govisd.megabytes > BOUND_MB:
        wrong.append(f"{samples[-1].name}: {samples[-1].govisd.megabytes:.1f} MB is more than {BOUND_MB}")
    print(f"times the time of half as many: {', '.join(growths)} (at most {BOUND_GROWTH})")
    print(f"best of {RUNS} runs, {where}; at most {BOUND} of the time of Go, {BOUND_MEMORY} of its memory, and {BOUND_MB:.0f} MB")
    return measure.verdict([], wrong, given.peer is not None)


if __name__ == "__main__":
    sys.exit(main())
