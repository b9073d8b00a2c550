#!/usr/bin/env python3
"""headlines.py GOVISD: holds what `govisd check` says of types against bench/messages/headlines.txt.

The table has, for snippets of bench/messages/snippets.txt that break a rule of selectors, literals, calls, types or statements, the line that is wanted with
its place, and what Go's compiler says there. A line of the table that `check --all` does not write of the snippet is printed, and the status is 1."""
import os
import sys
import tempfile

import messages

TABLE = os.path.join(os.path.dirname(messages.TABLE), "headlines.txt")


def wanted():
    """The lines that are wanted of each snippet, by its name, each with the name of the one that it stands below."""
    name = None
    with open(TABLE, encoding="utf-8") as file:
        for line in file.read().splitlines():
            if not line or line.startswith("#"):
                continue
            front, text = line.split("\t", 1)
            if front != "+":
                name = front
            yield name, text.split(" || ")[0].strip()


def told(program, snippet):
    """What `check --all` writes of a snippet, line by line and without what is blank in front."""
    with tempfile.TemporaryDirectory() as folder:
        snippet.write(folder)
        words = [program, "check", "--all", folder]
        ran = messages.subprocess.run(words, stdout=messages.subprocess.PIPE, stderr=messages.subprocess.STDOUT, text=True)
    return [line.strip() for line in ran.stdout.splitlines()]


def main(program):
    with open(messages.TABLE, encoding="utf-8") as file:
        snippets = {it.name: it for it in map(messages.Snippet, file.read().split("######## ")[1:])}
    lines, count, amiss = {}, 0, 0
    for name, text in wanted():
        if name not in lines:
            lines[name] = told(program, snippets[name])
        count += 1
        if text not in lines[name]:
            amiss += 1
            print(f"{name}: not said: {text}")
    print(f"{count} lines are wanted, {amiss} of them are not said")
    return 1 if amiss else 0


if __name__ == "__main__":
    sys.exit(main(*sys.argv[1:]))
