#!/usr/bin/env python3
"""Writes the table of crates in docs/GATE.md anew: python3 tools/gate.py [SECONDS]

Of each crate its lines of code, of definitions and of proofs, counted, and the processor seconds of a check from nothing: those of the file SECONDS (lines
`CRATE SECONDS`) where it names the crate, and else as the table had them.
"""
import os
import re
import sys

ROOT = os.path.dirname(os.path.dirname(os.path.abspath(__file__)))
PAGE = f"{ROOT}/docs/GATE.md"
HEAD = "| Crate | Lines of code / specs / proofs | Processor seconds |\n|---|---|---|\n"


def lines(crate, part):
    count = 0
    for at, _, files in os.walk(f"{ROOT}/crates/{crate}/{part}"):
        for name in files:
            with open(f"{at}/{name}", "rb") as file:
                count += file.read().count(b"\n")
    return f"{count:,}"


def main():
    with open(PAGE, encoding="utf-8") as file:
        text = file.read()
    seconds = dict(re.findall(r"(?m)^\| `(\w+)` \| [^|]* \|(?: \d+ \|)? (\d+) \|$", text))
    if len(sys.argv) > 1:
        with open(sys.argv[1], encoding="utf-8") as file:
            seconds.update(line.split() for line in file if line.strip())
    with open(f"{ROOT}/crates.txt", encoding="utf-8") as file:
        crates = [it.partition(":")[0].split()[0] for it in file if it.strip() and not it.startswith("#")]
    rows = [f"| `{it}` | {' / '.join(lines(it, part) for part in ('src', 'specs', 'proofs'))} | {seconds.get(it, '')} |\n" for it in crates]
    begin = text.index("| Crate | Lines of code")
    end = text.index("\n\n", begin) + 1
    with open(PAGE, "w", encoding="utf-8") as file:
        file.write(text[:begin] + HEAD + "".join(rows) + text[end:])


main()
