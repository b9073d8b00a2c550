#!/usr/bin/env python3
"""mending.py GOVISD [TEXTS]: takes one bracket or comma from each of 200 texts, or of so many, and counts how often `govisd check` tells to put it in again.

The texts are those of examples/ and of programs.py, in turn. A mark inside a string, a rune or a comment is not taken, nor one without which the text
has a tree all the same. Each change that is told is made as it is told: the text must then have a tree, or the change is printed. The status is 1 where one has none,
or where less than seven in ten marks are told."""
import glob
import json
import os
import re
import subprocess
import sys
import tempfile

HERE = os.path.dirname(os.path.abspath(__file__))
sys.path.insert(0, f"{HERE}/../shared")
import programs
from generate import Numbers

ROOT = f"{HERE}/../.."
MARKS = "()[]{},"
TOKEN = re.compile(r'//[^\n]*|/\*.*?\*/|"(?:\\.|[^"\\\n])*"|`[^`]*`|\'(?:\\.|[^\'\\\n])*\'|\w+|\s+|.', re.S)


def texts():
    """Texts that have a tree: those of examples/ first."""
    for path in sorted(glob.glob(f"{ROOT}/examples/**/*.go", recursive=True)):
        with open(path, encoding="utf-8") as file:
            yield file.read()
    for seed in range(40):
        yield programs.program(Numbers(seed), "main", [], 4_000)


def marks(text):
    """Where the brackets and commas of a text stand."""
    return [it.start() for it in TOKEN.finditer(text) if it[0] in MARKS]


def checked(program, text):
    """The first fault of a text, as `check --format json` has it, where it has no tree."""
    with tempfile.TemporaryDirectory() as folder:
        for name, it in (("go.mod", "module ex.com/m\n"), ("main.go", text)):
            with open(f"{folder}/{name}", "w", encoding="utf-8") as file:
                file.write(it)
        ran = subprocess.run([program, "check", "--format", "json", folder], stdout=subprocess.PIPE, stderr=subprocess.PIPE, text=True)
    faults = [json.loads(line) for line in ran.stdout.splitlines()]
    return next((it for it in faults if it["rule"] in ("P1", "P2")), None)


def offset_of(text, line, column):
    """The place of a line and a column in bytes, as it is told."""
    lines = text.encode().split(b"\n")
    return len((b"\n".join([*lines[: line - 1], b""]) + lines[line - 1][: column - 1]).decode())


def changed(text, offset, told):
    """The texts that a change may make at the token of an offset, as it is told; none where what is told is no change."""
    put = re.fullmatch(r"put in (\S+?)(?: before it| at \S+?:(\d+):(\d+))?", told)
    if put and put[2]:
        at = offset_of(text, int(put[2]), int(put[3]))
        return [text[:at] + put[1] + text[at:]]
    if put:  # in front of the token that was met, or before or after the one in front of it
        before = [it for it in TOKEN.finditer(text) if it.end() <= offset and not it[0].isspace() and not it[0].startswith(("//", "/*"))][-1]
        return [text[:at] + put[1] + text[at:] for at in (offset, before.start(), before.end())]
    if told == "take it away":
        token = TOKEN.match(text, offset)
        return [text[:offset] + text[token.end() :]]
    return []


def main(program, count="200"):
    numbers, sources = Numbers(1), [it for it in texts() if marks(it) and not checked(program, it)]
    tried = right = told = bad = 0
    while tried < int(count):
        text = sources[tried % len(sources)]
        place = numbers.pick(marks(text))
        without = text[:place] + text[place + 1 :]
        fault = checked(program, without)
        if not fault:
            continue
        tried += 1
        changes = [it["text"] for it in fault["helps"] if it["fits"]]
        told += bool(changes)
        right += any(re.match(rf"put in {re.escape(text[place])}(?: |$)", it) for it in changes)
        for change in changes:
            mended = changed(without, fault["at"]["offset"], change)
            if mended and all(checked(program, it) for it in mended):
                bad += 1
                print(f"no tree with {change!r} at {fault['line']}:{fault['column']} of:\n{without}")
    print(f"{tried} texts: {told} with a change, {right} with the mark that was taken, {bad} changes without a tree")
    return 1 if bad or right * 10 < tried * 7 else 0


if __name__ == "__main__":
    sys.exit(main(*sys.argv[1:]))
