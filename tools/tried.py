#!/usr/bin/env python3
"""Lists the crates whose wrong bodies were tried on another text than the one that stands: python3 tools/tried.py [ROOT]

The table "Wrong bodies" of docs/WRONG_BODIES.md names for each crate the commits on which its edits were tried. A verdict is about what the edit changes,
a body or a definition, and about the clauses around it; so it stands as long as the crate's src/ and specs/ do, imports, comments and the order of
lines apart, and the edit itself. Of each crate this tells how many such lines differ between the oldest commit of its row and the work tree, and how
many edits were changed or are new. A crate of which it tells nothing has nothing to be tried again. Status 1 where it lists any."""
import os
import re
import subprocess
import sys
from collections import Counter

ROW = re.compile(r"^\| `(go\w+)` \| [^|]*\| [^|]*\| [^|]*\| ([^|]*)\|", re.M)
COMMIT = re.compile(r"\b[0-9a-f]{7,}\b")
USE = re.compile(r"\s*(?:ghost |pub )*use ")


def git(root, *words):
    ran = subprocess.run(["git", "-C", root, *words], stdout=subprocess.PIPE, check=True)
    return ran.stdout.decode(errors="replace")


def is_here(root, commit):
    return not subprocess.run(["git", "-C", root, "cat-file", "-e", f"{commit}^{{commit}}"], stderr=subprocess.DEVNULL).returncode


def lines_of(text):
    """The lines of a source, how often each stands there, without imports and comments."""
    kept = (re.sub(r"\s*(//|--).*$", "", line).strip() for line in text.splitlines() if not USE.match(line))
    return Counter(line for line in kept if line)


def at(root, commit, file):
    return git(root, "show", f"{commit}:{file}") if git(root, "ls-tree", commit, "--", file) else ""


def now(root, file):
    path = os.path.join(root, file)
    if not os.path.isfile(path):
        return ""
    with open(path, encoding="utf-8") as it:
        return it.read()


def changed(root, commit, *folders):
    return [it for it in git(root, "diff", "--name-only", "--diff-filter=d", commit, "--", *folders).splitlines() if it]


def differing_lines(root, commit, crate):
    before, after = Counter(), Counter()
    for file in changed(root, commit, f"crates/{crate}/src", f"crates/{crate}/specs"):
        before += lines_of(at(root, commit, file))
        after += lines_of(now(root, file))
    return sum(((before - after) + (after - before)).values())


def main():
    root = os.path.abspath(sys.argv[1]) if len(sys.argv) > 1 else os.path.dirname(os.path.dirname(os.path.realpath(__file__)))
    found = 0
    for crate, told in ROW.findall(now(root, "docs/WRONG_BODIES.md")):
        commits = [it for it in COMMIT.findall(told) if is_here(root, it)]
        if not commits:
            print(f"{crate}: none tried on a commit that is here")
            found += 1
            continue
        oldest = min(commits, key=lambda it: int(git(root, "log", "-1", "--format=%ct", it)))
        lines = differing_lines(root, oldest, crate)
        edits = changed(root, oldest, f"bench/wrong_bodies/{crate}")
        if lines or edits:
            print(f"{crate}: since {oldest} {lines} lines and {len(edits)} edits are others")
            found += 1
    print(f"{found} crates")
    return 1 if found else 0


if __name__ == "__main__":
    sys.exit(main())
