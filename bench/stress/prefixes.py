#!/usr/bin/env python3
"""Gives each beginning of texts, by bytes, to `govisd resolve`:

    python3 bench/stress/prefixes.py PROGRAM [--longest N] [FILE]..

The texts are those of the files, and without files those that the scripts of sessions edit in, each once: the scripts of `bench/serving/scripts` and the short ones
that made_scripts.py makes. A text of more than N bytes (4,096 unless told) is left out. Each run must end with a report and its status: 1 where a line tells
a rule that is broken, else 0. It is an error where one ends otherwise, as by a signal, or does not end in a minute.
"""
import argparse
import collections
import concurrent.futures
import json
import os
import re
import subprocess
import sys

BENCH = os.path.dirname(os.path.dirname(os.path.abspath(__file__)))
sys.path.insert(0, f"{BENCH}/shared")
import made_scripts

LINE = re.compile(rb"(?:fault \d+|\d+ (?:import|type|value|callee|qualifier|selector|key|call) .+) (\S+)")
RULE = re.compile(rb"[A-Z]\d+")


def scripts():
    """The lines of each script, with its name."""
    for file in sorted(os.listdir(f"{BENCH}/serving/scripts")):
        name = file.removesuffix(".replies")
        with open(f"{BENCH}/../crates/test_cases/data/script_{name}.txt", "rb") as lines:
            yield name, lines.read().split(b"\n")
    for name, make in made_scripts.MADE.items():
        yield name, [line.encode() for line in make().requests]


def edited(line):
    """The text that a line edits in, if it does."""
    try:
        request = json.loads(line)
    except ValueError:
        return None
    text = request.get("text") if isinstance(request, dict) and request.get("cmd") == "edit" else None
    return text.encode() if isinstance(text, str) else None


def texts_of(files):
    """The texts, each with what it is of."""
    found = {}
    for path in files:
        with open(path, "rb") as file:
            found.setdefault(file.read(), path)
    if not files:
        for name, lines in scripts():
            for text in filter(None, map(edited, lines)):
                found.setdefault(text, f"the script {name}")
    return found


def failure(program, start):
    """The status of the program on this text, and what is wrong with how it ended."""
    try:
        ended = subprocess.run([program, "resolve"], input=start, capture_output=True, timeout=60, check=False)
    except subprocess.TimeoutExpired:
        return None, "it does not end"
    told = [LINE.fullmatch(line) for line in ended.stdout.splitlines()]
    if ended.returncode not in (0, 1):
        return ended.returncode, f"status {ended.returncode}: {ended.stderr[:200]}"
    if not all(told) or ended.stderr:
        return ended.returncode, f"no report: {ended.stdout[:200]}, {ended.stderr[:200]}"
    if ended.returncode != any(RULE.fullmatch(line.group(1)) for line in told):
        return ended.returncode, f"status {ended.returncode} of the report {ended.stdout[:200]}"
    return ended.returncode, None


def main():
    parser = argparse.ArgumentParser()
    parser.add_argument("program", type=os.path.abspath)
    parser.add_argument("files", nargs="*", metavar="FILE")
    parser.add_argument("--longest", type=int, default=4096)
    given = parser.parse_intermixed_args()
    all_texts = texts_of(given.files)
    texts = {text: source for text, source in all_texts.items() if len(text) <= given.longest}
    starts = {text[:end]: f"{end} bytes of {source}" for text, source in texts.items() for end in range(len(text) + 1)}
    statuses, wrong = collections.Counter(), 0
    with concurrent.futures.ThreadPoolExecutor(os.cpu_count()) as pool:
        for place, (status, failed) in zip(starts.values(), pool.map(lambda start: failure(given.program, start), starts)):
            statuses[status] += 1
            if failed:
                wrong += 1
                print(f"FAILED: the first {place}: {failed}", flush=True)
    count = sum(len(text) + 1 for text in texts)
    print(f"{count:,} beginnings of {len(texts)} texts, {len(starts):,} of them different; {len(all_texts) - len(texts)} longer texts are left out")
    print(f"{statuses[0]:,} ended with status 0, {statuses[1]:,} with 1, each with its report; {wrong} otherwise")
    raise SystemExit(bool(wrong))


if __name__ == "__main__":
    main()
