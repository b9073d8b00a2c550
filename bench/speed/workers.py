#!/usr/bin/env python3
"""Checks of folders by several workers, beside one:

    python3 bench/speed/workers.py PROGRAM [--runs N] [--packages N] [--alike]

The folders are those of bench/shared/compiled.py, of 512 and 4,096 packages, which have no fault, and the smaller one with two faults in each seventh package.
Each is checked with `GOVISD_WORKERS` 1, 2, 3, 4 and 8; status and output must be those of one worker, byte for byte. Then the largest, and
one chain of as many packages, each of which imports the next, are checked by one worker and by four in turn, so many times each (3), and the least seconds of
the clock and of the processor are told. The status is 1 where an output differs, where four workers take more than 0.5 of the clock's time of one for the
largest, or more than 1.05 of it for the chain (`FAILED: ..`); it is 2 where the machine has fewer than four processors and nothing differs. With --alike
nothing is timed.
"""
import argparse
import os
import shutil
import subprocess
import sys
import time

HERE = os.path.dirname(os.path.abspath(__file__))
sys.path.insert(0, f"{HERE}/../shared")
import compiled
import workspaces

BOUND = 0.5  # of the time of the clock that one worker takes
CHAIN_BOUND = 1.05  # the same, where no two packages can be compiled at once
WORKERS = (2, 3, 4, 8)
SMALL = 512
FAULTY = "faulty"
CHAIN = "chain"
FAULT = "\nfunc Broken{0}(size int) string {{\n\tvar title int = absent{0}\n\treturn size + title\n}}\n"


def checked(program, folder, workers):
    """Status, what is written, what is said, and seconds of the clock and of the processor."""
    words = [program, "check", folder, "--module", workspaces.MODULE]
    before = time.perf_counter()
    with subprocess.Popen(words, env={**os.environ, "GOVISD_WORKERS": str(workers)}, stdout=subprocess.PIPE, stderr=subprocess.PIPE) as child:
        written, said = child.communicate()
    return child.returncode, written, said, time.perf_counter() - before


def processor(run):
    """Seconds of the processor of a run, and what the run gives."""
    before = os.times()
    came = run()
    after = os.times()
    return after.children_user + after.children_system - before.children_user - before.children_system, came


def with_faults(folder):
    """The smaller workspace with faults."""
    tree = os.path.join(folder, FAULTY)
    shutil.rmtree(tree, ignore_errors=True)
    shutil.copytree(compiled.module(folder, SMALL), tree)
    for number in range(0, SMALL, 7):
        name = compiled.name_of(number)
        with open(os.path.join(tree, name, f"{name}.go"), "a", encoding="utf-8") as file:
            file.write(FAULT.format(number))
    return tree


def chain(folder, count):
    """A workspace in which each package imports the next."""
    tree = os.path.join(folder, f"{CHAIN}_{count}")
    shutil.rmtree(tree, ignore_errors=True)
    for number in range(count):
        package = compiled.Package(number, [number + 1] if number + 1 < count else [])
        home = os.path.join(tree, package.name)
        os.makedirs(home)
        workspaces.write(os.path.join(home, f"{package.name}.go"), package.file())
    return tree


def differences(program, name, folder):
    """What differs by the number of workers."""
    wanted = checked(program, folder, 1)[:3]
    print(f"{name}: {wanted[1].decode().splitlines()[-1]}")
    for workers in WORKERS:
        if checked(program, folder, workers)[:3] != wanted:
            yield f"{name}: with {workers} workers the answer is another"


def timed(program, name, folder, runs, bound):
    """The least times of one worker and of four, in turn."""
    clock, used = {1: float("inf"), 4: float("inf")}, {1: float("inf"), 4: float("inf")}
    for _ in range(runs):
        for workers in clock:
            seconds, came = processor(lambda: checked(program, folder, workers))
            clock[workers], used[workers] = min(clock[workers], came[3]), min(used[workers], seconds)
    for workers in clock:
        print(f"{name}, {workers} workers: {clock[workers]:.2f} s, {used[workers]:.2f} s of processors")
    ratio = clock[4] / clock[1]
    print(f"{name}: four workers take {ratio:.2f} of the time of one (at most {bound})")
    return [f"{name}: {ratio:.2f} of the time of one worker is more than {bound}"] if ratio > bound else []


def main():
    arguments = argparse.ArgumentParser()
    arguments.add_argument("program")
    arguments.add_argument("--runs", type=int, default=3)
    arguments.add_argument("--packages", type=int, default=4_096)
    arguments.add_argument("--alike", action="store_true")
    given = arguments.parse_args()
    folder = os.path.join(os.environ.get("BENCH_OUT", f"{HERE}/../out"), "compiled")
    compiled.main(folder)
    largest = compiled.module(folder, given.packages)
    wrong = [*differences(given.program, f"{SMALL} packages", compiled.module(folder, SMALL)), *differences(given.program, "with faults", with_faults(folder))]
    wrong += differences(given.program, f"{given.packages:,} packages", largest)
    is_judged = not given.alike and len(os.sched_getaffinity(0)) >= 4
    if is_judged:
        wrong += timed(given.program, f"{given.packages:,} packages", largest, given.runs, BOUND)
        wrong += timed(given.program, f"chain of {given.packages:,}", chain(folder, given.packages), given.runs, CHAIN_BOUND)
    for line in wrong:
        print(f"FAILED: {line}")
    if wrong:
        return 1
    return 0 if is_judged or given.alike else 2


if __name__ == "__main__":
    sys.exit(main())
