#!/usr/bin/env python3
"""marked.py GOVISD: what `govisd check` marks as amiss, by `at` of its JSON.

Each line of bench/messages/marked/*.go at which a fault shall be marked ends with the fault's rule and the text that is marked, as `// C3: "a"`. The module is
checked, and each fault that follows from no other must be at such a line, with this text, and each such line must have its fault. What differs is printed, and
the status is 1 then."""
import json
import os
import re
import subprocess
import sys

FOLDER = os.path.join(os.path.dirname(os.path.abspath(__file__)), "marked")


def wanted():
    """What shall be marked: file, line, rule and text."""
    found = set()
    for folder, _, names in os.walk(FOLDER):
        for name in sorted(it for it in names if it.endswith(".go")):
            path = os.path.join(folder, name)
            with open(path, encoding="utf-8") as file:
                for number, line in enumerate(file, 1):
                    said = re.search(r"// ([A-Z]\d): (.+)$", line)
                    if said:
                        found.add((os.path.relpath(path, FOLDER), number, said[1], said[2]))
    return found


def marked(program):
    """What is marked."""
    ran = subprocess.run([program, "check", FOLDER, "--json"], capture_output=True, text=True)
    found = set()
    for line in ran.stdout.splitlines():
        fault = json.loads(line)
        if fault["severity"] == "error":
            with open(os.path.join(FOLDER, fault["file"]), "rb") as file:
                text = file.read()[fault["at"]["offset"]:fault["at"]["end"]].decode()
            found.add((fault["file"], fault["at"]["line"], fault["rule"], text))
    return found


def main(program):
    lacks, has = wanted(), marked(program)
    for file, line, rule, text in sorted(lacks - has):
        print(f"{file}:{line}: {rule} is not marked at: {text}")
    for file, line, rule, text in sorted(has - lacks):
        print(f"{file}:{line}: {rule} is marked at: {text}")
    differ = len(lacks ^ has)
    print(f"{len(lacks)} marks, {differ} differ")
    return differ > 0


if __name__ == "__main__":
    sys.exit(main(sys.argv[1]))
