#!/usr/bin/env python3
"""messages.py GOVISD [--write]: what `govisd check` says of small mistakes, beside what Go's compiler says of them.

bench/messages/snippets.txt has some 140 modules of one or two packages, each with a mistake, named by the rule that it breaks: the files, what `go build`
(Go 1.19) wrote, and what `govisd check --module ex.com/m` wrote when the table was written. Each module is written into a folder and checked. Where
govisd says another thing than the table has, it is printed, and the status is 1. With --write the table is written anew.

Its last line says how many faults there are, how many of them are shown, and how many lines Go's compiler has."""
import os
import re
import subprocess
import sys
import tempfile

TABLE = os.path.join(os.path.dirname(os.path.abspath(__file__)), "snippets.txt")


class Snippet:
    """A module with a mistake, and what is said of it."""

    def __init__(self, text):
        self.name, rest = text.split("\n", 1)
        self.files, rest = rest.split("\n-------- gc\n")
        self.gc, self.told = (it.strip("\n") for it in rest.split("\n-------- govisd\n"))

    def write(self, folder):
        with open(f"{folder}/go.mod", "w", encoding="utf-8") as file:
            file.write("module ex.com/m\n\ngo 1.19\n")
        for path, text in re.findall(r"^-- (\S+) --\n(.*?)(?=^-- \S+ --\n|\Z)", self.files + "\n", re.M | re.S):
            os.makedirs(os.path.dirname(f"{folder}/{path}"), exist_ok=True)
            with open(f"{folder}/{path}", "w", encoding="utf-8") as file:
                file.write(text)

    def check(self, program):
        """What the program writes of the module's folder."""
        with tempfile.TemporaryDirectory() as folder:
            self.write(folder)
            ran = subprocess.run([program, "check", folder], stdout=subprocess.PIPE, stderr=subprocess.STDOUT, text=True)
        if ran.returncode not in (0, 1):
            sys.exit(f"{self.name}: status {ran.returncode}\n{ran.stdout}")
        return ran.stdout.replace(folder, "FOLDER").strip("\n")

    def text(self):
        return f"######## {self.name}\n{self.files}\n-------- gc\n{self.gc}\n-------- govisd\n{self.told}\n\n"


def counts(told):
    """How many faults there are, and how many of them are shown."""
    found = re.search(r"^(\d+) faults? in ", told, re.M)
    count = int(found.group(1)) if found else 0
    hidden = re.search(r"; (\d+) of them follows? from these", told)
    return count, count - (int(hidden.group(1)) if hidden else 0)


def main(program, *flags):
    with open(TABLE, encoding="utf-8") as file:
        snippets = [Snippet(it) for it in file.read().split("######## ")[1:]]
    faults = shown = differ = 0
    for it in snippets:
        told = it.check(program)
        if told != it.told and not flags:
            differ += 1
            print(f"{it.name} is told otherwise:\n{told}\nand not\n{it.told}\n")
        it.told = told
        found = counts(told)
        faults, shown = faults + found[0], shown + found[1]
    if flags:
        with open(TABLE, "w", encoding="utf-8") as file:
            file.writelines(it.text() for it in snippets)
    lines = sum(len(re.findall(r"^\S+:\d+:\d+: ", it.gc, re.M)) for it in snippets)
    print(f"{len(snippets)} modules: {faults} faults, {shown} of them shown; {lines} lines of Go's compiler; {differ} differ from the table")
    return differ > 0


if __name__ == "__main__":
    sys.exit(main(*sys.argv[1:]))
