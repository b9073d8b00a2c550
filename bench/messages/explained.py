#!/usr/bin/env python3
"""explained.py GOVISD: checks the example of each rule that `govisd explain` tells, and the example mended.

Each example that is Go is written into a folder, and `govisd check` has to find the rule in it, and no other but those that
BESIDE names; in the example mended it has to find nothing. What it writes as lines with --all and as JSON has to say the same, in order, with
lines and columns that fit the offsets; and without --all the lines of those faults alone that follow from none, each name that is not declared once a
package. What is told as JSON by `govisd explain --json` has to be the same texts."""
import json
import os
import subprocess
import sys
import tempfile

# Rules that stand beside another by what they say: a package with a file that has no tree is not checked (K4), nor is an import
# of a package that is not (I6); what a refused name brings with it (S4), and a call of what is refused (C1).
BESIDE = {
    **{rule: {"K4"} for rule in ("L1", "L2", "L3", "P1", "P2")},
    "K4": {"P1"},
    "I6": {"K2"},
    "N9": {"I2", "S4"},
    "S5": {"C1"},
    "S7": {"C1"},
}


def run(*words):
    return subprocess.run(words, stdout=subprocess.PIPE, stderr=subprocess.PIPE, text=True)


def write(folder, text):
    """Writes a Go file, or the files of an archive."""
    if not text.startswith("-- "):
        text = "-- ex.com/a/a.go --\n" + text
    out = None
    for line in text.splitlines(keepends=True):
        if line.startswith("-- ") and line.rstrip().endswith(" --"):
            path = os.path.join(folder, line.rstrip()[3:-3].removeprefix("ex.com/"))
            os.makedirs(os.path.dirname(path), exist_ok=True)
            out = open(path, "w", encoding="utf-8")
        else:
            out.write(line)
            out.flush()


def place_of(folder, fault):
    """The line and the column of a fault's offset, each from 1."""
    with open(os.path.join(folder, fault["file"]), "rb") as source:
        before = source.read()[: fault["offset"]]
    return before.count(b"\n") + 1, len(before) - (before.rfind(b"\n") + 1) + 1


def first_lines(text):
    """The line of each fault, and how many there are. What is said below a fault begins with a blank."""
    lines = [line for line in text.splitlines() if not line.startswith(" ")]
    return lines[:-1] + [lines[-1].split(" in ")[0]]


def lines_of(folder, faults, are_all):
    """What `govisd check` writes of these faults without --json, but for the number of packages and what is said below each."""
    names = set()
    for fault in faults:
        name = (fault["package"], fault["name"])
        is_again = fault["rule"] == "N1" and name in names
        if fault["rule"] == "N1":
            names.add(name)
        if (fault["cause"] or is_again) and not are_all:
            continue
        if (fault["line"], fault["column"]) != place_of(folder, fault):
            sys.exit(f"another place: {fault}")
        if fault["package"] != os.path.join("ex.com", os.path.dirname(fault["file"])).rstrip("/"):
            sys.exit(f"another package: {fault}")
        yield "{file}:{line}:{column}: {rule} {message}".format(**fault)
    yield {0: "no faults", 1: "1 fault"}.get(len(faults), f"{len(faults)} faults")


def rules_of(program, text):
    with tempfile.TemporaryDirectory() as folder:
        write(folder, text)
        words = (program, "check", folder, "--module", "ex.com")
        ran, plain, whole = run(*words, "--json"), run(*words), run(*words, "--all")
        faults = [json.loads(line) for line in ran.stdout.splitlines()]
        status = 1 if faults else 0
        if {ran.returncode, plain.returncode, whole.returncode} != {status} or ran.stderr or plain.stderr or whole.stderr:
            sys.exit(f"status {ran.returncode}, {plain.returncode} and {whole.returncode}: {ran.stderr}{plain.stderr}{whole.stderr}")
        places = [(fault["package"], fault["file"], fault["offset"], fault["rule"]) for fault in faults]
        if places != sorted(set(places)):
            sys.exit(f"not in order: {places}")
        for said, are_all in ((plain, False), (whole, True)):
            if first_lines(said.stdout) != list(lines_of(folder, faults, are_all)):
                sys.exit(f"other lines: {said.stdout}")
        return {fault["rule"] for fault in faults}


def main():
    program = sys.argv[1]
    rules = [line.split()[0] for line in run(program, "explain").stdout.splitlines()]
    told = [json.loads(line) for line in run(program, "explain", "--json").stdout.splitlines()]
    if [it["rule"] for it in told] != rules:
        sys.exit(f"other rules as JSON: {[it['rule'] for it in told]}")
    wrong, tried = 0, 0
    for rule, object in zip(rules, told):
        said = run(program, "explain", rule).stdout
        example, mended = said.split("\n\nExample:\n\n")[1].split("\nHow to mend it:\n\n")
        if object != {"example": example, "meaning": said.split("\n")[0].split(": ", 1)[1], "mending": mended, "rule": rule}:
            sys.exit(f"other texts as JSON: {object}")
        if not example.startswith(("package ", "-- ")):
            continue
        tried += 1
        for text, wanted in ((example, {rule} | BESIDE.get(rule, set())), (mended, set())):
            found = rules_of(program, text)
            if found != wanted:
                wrong += 1
                print(f"{rule}: {sorted(found)} in the place of {sorted(wanted)} in\n{text}")
    print(f"{len(rules)} rules, {tried} with examples that are Go, {wrong} wrong")
    sys.exit(1 if wrong else 0)


main()
