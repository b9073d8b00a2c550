#!/usr/bin/env python3
"""Measures `govisd resolve` or `test_cases parse`, and the Go peer, on the benchmark files, prints a table and
checks the bounds."""
import argparse
import os
import shutil
import subprocess
import sys
import time

RUNS = 5
PEAKS = 3  # runs of which the least peak memory counts
MOST_GROWTH = 2.3  # of the time, where the text is twice as long
MOST_BYTES = 1_048_576
TIME = "/usr/bin/time"


class Bound:
    """A figure of a sample, the most that it is meant to be, and the most that it may be."""

    def __init__(self, of, unit, aim, most):
        self.of, self.unit, self.aim, self.most = of, unit, aim, most

    def verdict(self, sample):
        """What is to be said of the sample, if anything, and whether it fails."""
        found = self.of(sample)
        if found is None or found <= self.aim:
            return None, False
        passed = self.most if found > self.most else self.aim
        return f"{sample.name}: {found:.2f} {self.unit} is more than {passed}", found > self.most

    def __str__(self):
        return f"at most {self.aim} {self.unit} (fails past {self.most})"


class Question:
    """What is measured: on which files, and within which bounds for one of 1 MB."""

    def __init__(self, name, shapes, bounds):
        self.name, self.shapes, self.bounds = name, shapes, bounds

    def of_govisd(self, program, file):
        """The words of the command line; `resolve` reads standard input."""
        return [program, self.name] if self.name == "resolve" else [program, self.name, file]

    def of_peer(self, program):
        return [program] if self.name == "resolve" else [program, self.name]


def run(words, file):
    """Seconds, status and the peak memory in bytes that the system tells of one run."""
    with open(file, "rb") as text:
        start = time.perf_counter()
        child = subprocess.Popen(words, stdin=text, stdout=subprocess.DEVNULL, stderr=subprocess.DEVNULL)
        _, ended, usage = os.wait4(child.pid, 0)
        seconds = time.perf_counter() - start
    child.returncode = -os.WTERMSIG(ended) if os.WIFSIGNALED(ended) else os.WEXITSTATUS(ended)
    return seconds, child.returncode, usage.ru_maxrss * 1024


def peak(words, file):
    """The peak memory in bytes, by GNU time where that is there: what `run` tells is never below this script's own."""
    if not shutil.which(TIME):
        return run(words, file)[2]
    with open(file, "rb") as text:
        timed = [TIME, "-f", "%M", *words]
        ran = subprocess.run(timed, stdin=text, stdout=subprocess.DEVNULL, stderr=subprocess.PIPE)
    return int(ran.stderr.split()[-1]) * 1024


def watched(words):
    """What the system counts of one run, and what the run writes. A run that fails ends this one."""
    with subprocess.Popen(words, stdout=subprocess.PIPE, stderr=subprocess.DEVNULL) as child:
        said = child.stdout.read().decode()
        _, ended, usage = os.wait4(child.pid, 0)
        child.returncode = os.waitstatus_to_exitcode(ended)
    if child.returncode:
        sys.exit(f"{os.path.basename(sys.argv[0])}: {words[0]} ended with {child.returncode}")
    return usage, said


def processor(words):
    """Seconds of the processor of one run, the program's own and the system's for it, and what it writes."""
    usage, said = watched(words)
    return usage.ru_utime + usage.ru_stime, said


class Measured:
    """The best time, the statuses and the least peak memory of a program on a file."""

    def __init__(self, words, file):
        self.words, self.file = words, file
        self.seconds, self.statuses = float("inf"), set()
        self.megabytes = min(peak(words, file) for _ in range(PEAKS)) / 1e6

    def again(self):
        seconds, status, _ = run(self.words, self.file)
        self.seconds = min(self.seconds, seconds)
        self.statuses.add(status)


class Sample:
    """A benchmark file, and what the programs take for it."""

    def __init__(self, given, question, name):
        file = os.path.join(given.files, name)
        self.name, self.size, self.question = name, os.path.getsize(file), question
        self.govisd = Measured(question.of_govisd(given.govisd, file), file)
        self.peer = Measured(question.of_peer(given.gofront), file) if given.gofront else None

    def again(self):
        self.govisd.again()
        if self.peer:
            self.peer.again()

    def row(self):
        line = f"{self.name:<16} {self.size:>10,} {self.govisd.seconds:>10.3f} {self.govisd.megabytes:>8.1f}"
        if not self.peer:
            return f"{line} {'-':>10} {'-':>8} {'-':>8} {'-':>9}"
        line += f" {self.peer.seconds:>10.3f} {self.peer.megabytes:>8.1f}"
        return f"{line} {self.of_time():>8.2f} {self.of_memory():>9.2f}"

    def of_time(self):
        return self.govisd.seconds / self.peer.seconds if self.peer else None

    def of_memory(self):
        return self.govisd.megabytes / self.peer.megabytes if self.peer else None

    def of_megabytes(self):
        return self.govisd.megabytes

    def faults(self):
        """What is wrong at any size."""
        if self.peer and self.peer.statuses != {0}:
            yield f"{self.name}: the Go peer ended with status {sorted(self.peer.statuses)}"
        if self.govisd.statuses != {0}:
            yield f"{self.name}: status {sorted(self.govisd.statuses)}, and 0 is wanted, since the file has no fault"
        if self.size > MOST_BYTES:
            yield f"{self.name}: {self.size:,} bytes is more than a text may have"


OF_TIME = "times the peer's time"
OF_MEMORY = "times the peer's memory"
QUESTIONS = {
    "resolve": Question(
        "resolve",
        ("mixed", "long", "nested"),
        [Bound(Sample.of_time, OF_TIME, 0.6, 1.0), Bound(Sample.of_megabytes, "MB", 80.0, 120.0)],
    ),
    "parse": Question(
        "parse",
        ("whole", "lists", "deep"),
        [Bound(Sample.of_time, OF_TIME, 1.0, 1.2), Bound(Sample.of_memory, OF_MEMORY, 2.0, 2.5)],
    ),
}


def one_core():
    """Keeps this process and those that it starts on one core, and says which."""
    if not hasattr(os, "sched_setaffinity"):
        return "on any core"
    core = max(os.sched_getaffinity(0))
    os.sched_setaffinity(0, {core})
    return f"on core {core} alone"


def judged(bounds, sample):
    """The aims that a sample misses, and the bounds that do not hold for it."""
    said = [bound.verdict(sample) for bound in bounds]
    return [it for it, fails in said if it and not fails], [it for it, fails in said if it and fails]


def verdict(missed, wrong, is_compared=True):
    """Prints the aims that were missed and the bounds that do not hold, and gives the status."""
    for it in missed:
        print(f"AIM MISSED: {it}")
    for it in wrong:
        print(f"FAILED: {it}")
    if not is_compared:
        print("NOT JUDGED: without the Go peer, what is held against it")
    return 1 if wrong else 0 if is_compared else 2


def main():
    arguments = argparse.ArgumentParser()
    arguments.add_argument("question", choices=QUESTIONS)
    arguments.add_argument("--govisd", required=True)
    arguments.add_argument("--gofront")
    arguments.add_argument("--files", required=True)
    given = arguments.parse_args()
    question = QUESTIONS[given.question]
    where = one_core()
    head = ("file", "bytes", "govisd s", "MB", "Go s", "Go MB", "s ratio", "MB ratio")
    print("{:<16} {:>10} {:>10} {:>8} {:>10} {:>8} {:>8} {:>9}".format(*head))
    wrong, missed, growths = [], [], []
    for shape in question.shapes:
        half, full = Sample(given, question, f"{shape}_half.go"), Sample(given, question, f"{shape}.go")
        # in turn, so that a busy moment of the machine falls on both
        for _ in range(RUNS):
            half.again()
            full.again()
        print(half.row(), full.row(), sep="\n", flush=True)
        past_aim, past_bound = judged(question.bounds, full)
        missed += past_aim
        wrong += [*half.faults(), *full.faults(), *past_bound]
        growth = full.govisd.seconds / half.govisd.seconds
        growths.append(f"{shape} {growth:.2f}")
        if growth > MOST_GROWTH:
            wrong.append(f"{shape}: twice the text takes {growth:.2f} times the time, more than {MOST_GROWTH}")
    print(f"twice the text, times the time: {', '.join(growths)} (at most {MOST_GROWTH})")
    print(f"best of {RUNS} runs, {where}; 1 MB {' and '.join(map(str, question.bounds))}")
    return verdict(missed, wrong, given.gofront is not None)


if __name__ == "__main__":
    sys.exit(main())
