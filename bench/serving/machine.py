#!/usr/bin/env python3
"""Measures batches of the service's core machine, by a program that runs it on one thread:

    python3 bench/serving/machine.py [--program FILE] [--build] [--shapes near] [--kinds body] [--places first,middle,last] [--parts kept]
                             [--packages N] [--imports N] [--times N] [--runs N]

The program is `crates/test_cases`; `crates/test_events/src/measured.rt` says what the words mean. Where none is given it is the one that the gate proved and built; where there is
none, or with `--build`, it is built by `tools/quick_build.py --bare`, which proves nothing, as `bench/out/machine/test_cases`. It makes a workspace, runs its first batch, and does a work no time or so
many times. What one time takes is the difference between the two, the least of so many runs of each, in turn, by the number of times. The works are batches of
one edit each, the trees that these submit, and the compilation of the edited package, ten times as many of both. What a batch takes less these two are its
steps: all that the core machine does from the submission to the publication, and what it compiles of other packages where a constant is edited.

A line `FAILED: ..` says what is not as it must be, and the status is then 1: the counts that each run tells, and steps of at most 10 ms where the body of one
of 4,096 packages is edited.
"""
import argparse
import os
import subprocess
import sys
import time
from collections import namedtuple

ROOT = os.path.dirname(os.path.dirname(os.path.dirname(os.path.abspath(__file__))))
OUT = os.environ.get("BENCH_OUT", f"{ROOT}/bench/out")
CRATE = "test_cases"
MODULE = 128  # the most packages of a module
PACKAGES, BOUND = 4096, 10  # the ms that the steps of a batch of one edited body may take among so many packages

Edit = namedtuple("Edit", "shape kind place parts packages imports")
Spent = namedtuple("Spent", "processor clock peak")  # ms, ms and KB


def each(none, whole, times):
    """What one of so many times spends, by what none and all of them spend."""
    return Spent(*((it - other) / times for it, other in zip(whole, none)))


def build():
    """Builds the program, which proves nothing: where it is."""
    program = f"{OUT}/machine/{CRATE}"
    os.makedirs(os.path.dirname(program), exist_ok=True)
    subprocess.run([sys.executable, f"{ROOT}/tools/quick_build.py", "--bare", CRATE, program], check=True, stdout=subprocess.DEVNULL)
    return program


def run(program, work, edit, times):
    """Runs the program: what it spent, and what it counted."""
    words = [program, "measured", work, *map(str, edit), str(times)]
    began = time.perf_counter()
    with subprocess.Popen(words, stdout=subprocess.PIPE, text=True) as process:
        told = process.stdout.read()
        _, status, used = os.wait4(process.pid, 0)
        clock = time.perf_counter() - began
        process.returncode = os.waitstatus_to_exitcode(status)
    if process.returncode:
        sys.exit(f"{' '.join(words)} ended with {process.returncode}")
    counts = {name: int(count) for name, count in (line.split() for line in told.splitlines())}
    return Spent((used.ru_utime + used.ru_stime) * 1000, clock * 1000, used.ru_maxrss), counts


def wanted(work, edit, times):
    """The counts of a run that the numbers of packages and of times tell."""
    batches = times if work == "batches" else 0
    counts = {"sessions": -(-edit.packages // MODULE), "batches": 1 + batches, "trees": 1 if work == "parts" else times, "faults": 0}
    if work != "parts":
        counts["actions"] = edit.packages * (1 + batches)
        if edit.kind == "body":
            counts["kept"] = batches * (edit.packages - 1) if edit.parts == "kept" else 0
    if edit.parts == "compiled":
        return counts
    # Of a package whose constant changed others are compiled too.
    if edit.kind == "body" or work != "batches":
        counts["compiled"] = edit.packages + (0 if work == "trees" else times)
    return counts


class Bench:
    """Runs the program, and keeps in mind what is not as it must be."""

    def __init__(self, program, times, runs):
        self.program, self.times, self.runs, self.failed = program, times, runs, []

    def want(self, holds, words):
        if not holds:
            self.failed.append(words)
            print(f"FAILED: {words}", flush=True)

    def spent(self, work, edit, times):
        """What no time of a work spends and what so many spend, the least of all runs, and what was counted last."""
        spent = {0: [], times: []}
        for _ in range(self.runs):
            for number, found in spent.items():
                one, counts = run(self.program, work, edit, number)
                found.append(one)
                for name, count in wanted(work, edit, number).items():
                    self.want(counts[name] == count, f"{work} {edit}, {number} times: {name} {count}, and not {counts[name]}")
        return *(Spent(*map(min, zip(*found))) for found in spent.values()), counts

    def measure(self, edit):
        """Tells what a batch of one edit spends."""
        none, whole, counts = self.spent("batches", edit, self.times)
        batch, many = each(none, whole, self.times), 10 * self.times
        tree, part = (each(*self.spent(work, edit, many)[:2], many) for work in ("trees", "parts"))
        steps = Spent(*(it - other - another for it, other, another in zip(batch, tree, part)))
        compiled = (counts["compiled"] - edit.packages) / self.times
        print(f"{edit.shape} {edit.kind} {edit.place} {edit.parts}: {edit.packages} packages, {edit.imports} imports, {self.times} batches, {compiled:.0f} compiled in each")
        for name, ms in (("a batch", batch), ("its tree", tree), ("the compilation of the edited package", part), ("its steps", steps)):
            print(f"    {name}: {ms.processor:.2f} ms of the processor, {ms.clock:.2f} by the clock")
        print(f"    memory: {none.peak / 1024:.1f} MB with the first batch alone, {whole.peak / 1024:.1f} with all, {batch.peak:.1f} KB for each", flush=True)
        if (edit.kind, edit.parts, edit.packages) == ("body", "kept", PACKAGES):
            self.want(steps.processor <= BOUND, f"the steps of a batch: at most {BOUND} ms, and not {steps.processor:.2f}")


def arguments():
    parser = argparse.ArgumentParser()
    parser.add_argument("--program", type=os.path.abspath)
    parser.add_argument("--build", action="store_true")
    for name, words in (("shapes", "near"), ("kinds", "body"), ("places", "first,middle,last"), ("parts", "kept")):
        parser.add_argument(f"--{name}", type=lambda it: it.split(","), default=words.split(","))
    for name, number in (("packages", PACKAGES), ("imports", 60), ("times", 100), ("runs", 5)):
        parser.add_argument(f"--{name}", type=int, default=number)
    return parser.parse_args()


def main():
    given = arguments()
    proved = f"{ROOT}/crates/{CRATE}/out/{CRATE}"
    program = given.program or (proved if os.path.exists(proved) and not given.build else build())
    bench = Bench(program, given.times, given.runs)
    for shape in given.shapes:
        for kind in given.kinds:
            for place in given.places:
                for parts in given.parts:
                    bench.measure(Edit(shape, kind, place, parts, given.packages, given.imports))
    sys.exit(1 if bench.failed else 0)


if __name__ == "__main__":
    main()
