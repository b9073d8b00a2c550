#!/usr/bin/env python3
"""Compares what `govisd run` prints of generated programs, how they end, and what they panic with, with the binaries that `go build` makes of them. The same
programs each time."""
import argparse
import os
import re
import shutil
import subprocess
import sys

from runs_programs import program

MOST_SHOWN = 10
# What the end of a program is, by the status of `govisd run`.
ENDED, PANICKED, SPENT = 0, 2, 3
# What a program panics with that divides by zero.
DIVIDED = b"runtime error: integer divide by zero"
PANIC = re.compile(rb"(?m)^panic: (.*)$")
# A value of a declared type: Go names the type, govisd the value alone.
TYPED = re.compile(rb"[\w.]+\((-?\w+)\)")


def write(folder, files):
    shutil.rmtree(folder, ignore_errors=True)
    for name, text in {**files, "go.mod": "module run\n\ngo 1.19\n"}.items():
        path = os.path.join(folder, name)
        os.makedirs(os.path.dirname(path), exist_ok=True)
        with open(path, "w", encoding="utf-8") as file:
            file.write(text)


def run_by_govisd(govisd, folder, steps):
    ran = subprocess.run([govisd, "run", folder, "--module", "run", "--steps", str(steps)], stdin=subprocess.DEVNULL, stdout=subprocess.PIPE, stderr=subprocess.PIPE)
    found = re.fullmatch(rb"panic: (.*)\n", ran.stderr)
    return ran.returncode, ran.stdout, found[1] if found else ran.stderr


def run_by_go(go, folder, seconds):
    """The end, the output, and what it panicked with, if it did."""
    binary = os.path.abspath(os.path.join(folder, "..", "binary"))
    built = subprocess.run([go, "build", "-o", binary, "."], cwd=folder, stdin=subprocess.DEVNULL, stdout=subprocess.PIPE, stderr=subprocess.STDOUT)
    if built.returncode != 0:
        return "not built", built.stdout, b""
    try:
        ran = subprocess.run([binary], stdin=subprocess.DEVNULL, stdout=subprocess.PIPE, stderr=subprocess.PIPE, timeout=seconds)
    except subprocess.TimeoutExpired as late:
        return "late", late.stderr or b"", b""
    found = PANIC.search(ran.stderr)
    if ran.returncode == PANICKED and found:
        typed = TYPED.fullmatch(found[1])
        return PANICKED, ran.stderr[: found.start()], typed[1] if typed else found[1]
    return ran.returncode, ran.stderr, b""


def verdict(own, other):
    """What of two runs of a program agrees: its end, or None where they differ."""
    (status, output, value), (end, wanted, wanted_value) = own, other
    if status == SPENT:
        return "steps done" if end in (ENDED, PANICKED, "late") and wanted.startswith(output) else None
    if status in (ENDED, PANICKED) and own == other:
        return {ENDED: "ended", PANICKED: "panicked"}[status]
    if status == end == PANICKED and DIVIDED in (value, wanted_value):
        # Whether a division comes before a call beside it is left open by the specification.
        return "divided before or behind a call" if wanted.startswith(output) or output.startswith(wanted) else None
    return None


def has_go_order(go):
    """Whether this Go initialises packages in order of path, as it does from 1.21 on."""
    told = subprocess.run([go, "version"], stdout=subprocess.PIPE, text=True, check=True).stdout
    found = re.search(r"go1\.(\d+)", told)
    return not found or int(found[1]) >= 21


def main():
    parser = argparse.ArgumentParser(description=__doc__)
    parser.add_argument("--govisd", required=True)
    parser.add_argument("--go", required=True)
    parser.add_argument("--folder", required=True)
    parser.add_argument("--programs", type=int, default=500)
    parser.add_argument("--steps", type=int, default=2_000_000)
    words = parser.parse_args()
    with_inits = has_go_order(words.go)
    if not with_inits:
        print("this Go is older than 1.21: of several packages only main has `init` functions")
    counts, shown = {}, 0
    for number in range(words.programs):
        folder = os.path.join(words.folder, "program")
        write(folder, program(number, with_inits))
        own = run_by_govisd(words.govisd, folder, words.steps)
        other = run_by_go(words.go, folder, 20)
        said = verdict(own, other) or "differ"
        counts[said] = counts.get(said, 0) + 1
        if said == "differ":
            shutil.rmtree(os.path.join(words.folder, f"differs{number}"), ignore_errors=True)
            shutil.copytree(folder, os.path.join(words.folder, f"differs{number}"))
            shown += 1
            if shown <= MOST_SHOWN:
                print(f"program {number}: govisd {own[0]}, Go {other[0]}: {own[2][:200]!r} {other[2][:200]!r} {own[1][-80:]!r} {other[1][-200:]!r}")
    print(", ".join(f"{said} {count}" for said, count in sorted(counts.items())))
    sys.exit(1 if counts.get("differ") else 0)


main()
