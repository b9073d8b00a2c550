#!/usr/bin/env python3
"""Lists statements of lemmas that stand word for word in the proofs of two or more crates: python3 tools/twice.py [ROOT]

Behind each statement stand the crates, files and names, from the bottom up, and the crate that the others can take it from, if one of them lies
below all the others. It reads texts alone, in seconds: the same words may mean two things in two files, as a record of the file's own does."""
import os
import re
import sys
from collections import defaultdict

STATEMENT = re.compile(r"(?:pub )?([\w'-]+) : (.*)$")
SHORTEST = 25


def listed(root):
    """The crates from the bottom up, each with all that lie below it."""
    below = {}
    with open(os.path.join(root, "crates.txt"), encoding="utf-8") as lines:
        for line in lines:
            head, colon, tail = line.partition("#")[0].partition(":")
            if colon:
                own = [name for name in tail.split() if name in below]
                below[head.strip()] = set(own).union(*(below[name] for name in own))
    return below


def statements(text):
    """The statements that stand at the margin, each with its name."""
    lines = text.split("\n")
    for number, line in enumerate(lines):
        found = STATEMENT.match(line)
        if found and not found[2].startswith("goal."):
            more = []
            while number + 1 < len(lines) and lines[number + 1].startswith(" "):
                number += 1
                more.append(lines[number])
            yield found[1], " ".join(" ".join([found[2], *more]).split())


def texts(root, crate, part):
    """The files of definitions or lemmas in a part of a crate, specs or proofs: of each its path below the part, and its text."""
    top = os.path.join(root, "crates", crate, part)
    for at, _, names in os.walk(top):
        for name in sorted(names):
            if name.endswith(".antt"):
                path = os.path.join(at, name)
                with open(path, encoding="utf-8") as file:
                    yield os.path.relpath(path, top), file.read()


def main(root):
    below, found = listed(root), defaultdict(list)
    for crate in below:
        for path, text in texts(root, crate, "proofs"):
            for lemma, said in statements(text):
                found[said].append((crate, path, lemma))
    twice = {said: places for said, places in found.items() if len(said) > SHORTEST and len({place[0] for place in places}) > 1}
    for said, places in twice.items():
        print(said)
        for place in places:
            print("   ", *place)
        first = places[0][0]
        if all(place[0] == first or first in below[place[0]] for place in places):
            print(f"    all can take it from {first}")
    print(f"{len(twice)} statements")


if __name__ == "__main__":
    main(sys.argv[1] if len(sys.argv) > 1 else ".")
