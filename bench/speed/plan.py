#!/usr/bin/env python3
"""Measures `test_cases plan` and `test_cases sources` on the archives of workspaces.py, and `go list -deps` on the
modules, prints a table, and checks the bounds and the counts."""
import argparse
import os
import subprocess
import sys
import time

HERE = os.path.dirname(os.path.abspath(__file__))
sys.path.insert(0, f"{HERE}/../shared")
from measure import one_core, peak, verdict
from workspaces import FORMS, SIZES, archive, module

RUNS = 5
MOST_SECONDS = 0.5  # of planning, for the largest workspace
MOST_MEGABYTES = 300.0  # of 1,000,000 bytes each
MOST_GROWTH = 2.5  # of planning, from the second size to the largest, which has twice the packages and imports
RATIO = 1.0  # of go list's time, an aim
HEAD = ("packages", "imports", "sources s", "plan s", "planning s", "MB", "Go s", "Go MB", "ratio")
# The C library joins small free blocks with their neighbours now and then, at the end of one run and not of another of the same
# program: 6 to 20 ms, which a difference of two runs would take for planning. Here each block is joined as it is freed.
JOINED = {"GLIBC_TUNABLES": "glibc.malloc.mxfast=0"}
GO = {"GOFLAGS": "-mod=mod", "GOPROXY": "off", "GO111MODULE": "on", "GOWORK": "off", "GOTOOLCHAIN": "local"}


class Run:
    """One run of a program: seconds from start to end, seconds of the processor, memory, status and output."""

    def __init__(self, words, **options):
        start = time.perf_counter()
        options = {"stdin": subprocess.DEVNULL, "stderr": subprocess.DEVNULL, **options}
        with subprocess.Popen(words, stdout=subprocess.PIPE, **options) as child:
            self.said = child.stdout.read().decode(errors="replace")
            _, ended, usage = os.wait4(child.pid, 0)
            self.seconds = time.perf_counter() - start
            child.returncode = -os.WTERMSIG(ended) if os.WIFSIGNALED(ended) else os.WEXITSTATUS(ended)
        self.status = child.returncode
        self.worked = usage.ru_utime + usage.ru_stime
        self.megabytes = usage.ru_maxrss * 1024 / 1e6


class Asked:
    """The best times of a kind of the probe on an archive, and all that it said."""

    def __init__(self, probe, kind, file):
        self.words, self.file = [probe, kind, file], file
        self.seconds = self.worked = float("inf")
        self.said, self.statuses = set(), set()

    def again(self):
        run = Run(self.words, env={**os.environ, **JOINED})
        self.seconds, self.worked = min(self.seconds, run.seconds), min(self.worked, run.worked)
        self.said.add("\n".join(line for line in run.said.splitlines() if not line.startswith("file ")))
        self.statuses.add(run.status)


class Listed:
    """One run of `go list -deps` on a module. It takes too long for a second."""

    def __init__(self, given, count):
        self.count = count
        variables = {**os.environ, **GO, "GOCACHE": os.path.abspath(given.cache)}
        words = [given.go, "list", "-deps", "./..."]
        self.run = Run(words, cwd=module(given.files, count), env=variables)

    def faults(self):
        lines = self.run.said.splitlines()
        if self.run.status != 0 or not len(lines) == len(set(lines)) == self.count:
            yield f"go list: status {self.run.status} and {len(lines):,} lines for {self.count:,} packages"


class Sample:
    """A workspace, and what the programs take for it."""

    def __init__(self, given, form, count):
        file = archive(given.files, form, count)
        self.form, self.count = form, count
        self.imports = sum(len(imports) for imports in FORMS[form](count))
        self.sources, self.plan = (Asked(given.probe, kind, file) for kind in ("sources", "plan"))
        self.megabytes = peak(self.plan.words, file) / 1e6
        self.peer = None

    def again(self):
        self.sources.again()
        self.plan.again()

    def planning(self):
        return self.plan.worked - self.sources.worked

    def row(self):
        times = f"{self.sources.worked:>10.3f} {self.plan.worked:>8.3f} {self.planning():>11.3f}"
        line = f"{self.form:<7} {self.count:>9,} {self.imports:>9,} {times} {self.megabytes:>7.1f}"
        if not self.peer:
            return f"{line} {'-':>8} {'-':>7} {'-':>7}"
        return f"{line} {self.peer.run.worked:>8.3f} {self.peer.run.megabytes:>7.1f} {self.ratio():>7.4f}"

    def ratio(self):
        return self.plan.worked / self.peer.run.worked if self.peer else 0.0

    def wanted(self):
        """What the probe must say. With the ring every import lies on a cycle, since the ring leads back from anywhere."""
        on_cycle = self.imports if self.form == "ring" else 0
        counts = {"packages": self.count, "imports": self.imports, "passing": self.imports - on_cycle}
        return {**counts, "I4": on_cycle, "order": self.count}

    def faults(self):
        name = f"{self.form} {self.count:,}"
        held = {"packages": self.count, "files": self.count, "trees": self.count}
        for asked, wanted in (self.sources, held), (self.plan, self.wanted()):
            kind = asked.words[1]
            if asked.statuses != {0}:
                yield f"{name}: {kind} ended with status {sorted(asked.statuses)}"
            for said in asked.said:
                if counts(said) != {word: count for word, count in wanted.items() if count}:
                    yield f"{name}: {kind} says {said[:200]!r}, and {wanted} is wanted"
        if self.planning() > MOST_SECONDS:
            yield f"{name}: planning takes {self.planning():.3f} s, more than {MOST_SECONDS}"
        if self.megabytes > MOST_MEGABYTES:
            yield f"{name}: {self.megabytes:.1f} MB is more than {MOST_MEGABYTES:.0f} MB"
        if self.peer:
            yield from self.peer.faults()

    def misses(self):
        if self.ratio() > RATIO:
            yield f"{self.form} {self.count:,}: {self.ratio():.2f} times the time of go list is more than {RATIO}"


def counts(said):
    """The counts in words and numbers by turns, but for those of 0, which need not be told."""
    words = said.split()
    if len(words) % 2 or not all(word.isdigit() for word in words[1::2]):
        return None
    return {word: int(count) for word, count in zip(words[::2], words[1::2]) if int(count)}


def measured(given, form):
    """The workspaces of a form, by size."""
    samples = [Sample(given, form, count) for count in SIZES]
    # in turn, so that a busy moment of the machine falls on all
    for _ in range(RUNS):
        for sample in samples:
            sample.again()
    if given.go and form == "spread":
        for sample in samples:
            sample.peer = Listed(given, sample.count)
    for sample in samples:
        print(sample.row(), flush=True)
    return samples


def growths(samples):
    """How many times the planning of the size before each size takes; endless where that was too short to measure."""
    times = [sample.planning() for sample in samples]
    return [two / one if one > 0 else float("inf") for one, two in zip(times, times[1:])]


def main():
    arguments = argparse.ArgumentParser()
    for word in ("--probe", "--files"):
        arguments.add_argument(word, required=True)
    for word in ("--go", "--cache"):
        arguments.add_argument(word)
    given = arguments.parse_args()
    where = one_core()
    print("{:<7} {:>9} {:>9} {:>10} {:>8} {:>11} {:>7} {:>8} {:>7} {:>7}".format("form", *HEAD))
    wrong, missed, grown, elapsed = [], [], [], []
    for form in FORMS:
        samples = measured(given, form)
        for sample in samples:
            wrong += sample.faults()
            missed += sample.misses()
        largest = samples[-1]
        elapsed.append(f"{form} sources {largest.sources.seconds:.3f}, plan {largest.plan.seconds:.3f}")
        if largest.peer:
            elapsed.append(f"go list {largest.peer.run.seconds:.3f}")
        grows = growths(samples)
        grown.append(f"{form} {', '.join(f'{growth:.2f}' for growth in grows)}")
        if grows[-1] > MOST_GROWTH:
            wrong.append(f"{form}: twice the packages take {grows[-1]:.2f} times the planning, more than {MOST_GROWTH}")
    print(f"twice the packages, times the planning: {'; '.join(grown)} (the last at most {MOST_GROWTH})")
    print(f"from start to end, {SIZES[-1]:,} packages: {'; '.join(elapsed)}")
    print(f"seconds of the processor, best of {RUNS} runs (go list: one), {where}", end="; ")
    print(f"at most {MOST_SECONDS} s of planning and {MOST_MEGABYTES:.0f} MB")
    return verdict(missed, wrong)


if __name__ == "__main__":
    sys.exit(main())
