#!/usr/bin/env python3
"""Foretells how long a gate takes that keeps nothing: python3 tools/foretell.py [ROOT] [LANES] [SPEED]

From the seconds of the table in docs/GATE.md, the paths of crates.txt (rattle-kit-13f goes down each some sixteen times a crate, a microsecond each time, and
reads each source once) and the order in which `rt ci` begins its tasks. It proves and runs nothing. It tells the processor minutes of all checks, those of
the paths, the minutes of the run, and the longest chain of crates with what each on it takes. SPEED divides the seconds of the table.
"""
import heapq
import os
import re
import sys

A_PATH = 15e-6


def text_of(path):
    with open(path, encoding="utf-8") as file:
        return file.read()


class Gate:
    def __init__(self, root, speed):
        lists = {}
        for line in text_of(f"{root}/crates.txt").split("\n"):
            head, _, rest = line.partition("#")[0].partition(":")
            if head.strip():
                lists[head.split()[0]] = rest.split()
        self.lists = {name: [it for it in found if it in lists] for name, found in lists.items()}
        table = re.findall(r"\| `(\w+)` \| [\d,]+ / [\d,]+ / [\d,]+ \| (\d+) \|", text_of(f"{root}/docs/GATE.md"))
        self.seconds = {name: int(found) / speed for name, found in table}
        self.lines, self.edits = {}, {}
        for name in lists:
            self.look_at(name, f"{root}/crates/{name}")
        self.read, self.under, self.ends = {}, {}, {}

    def look_at(self, name, folder):
        paths = [f"{at}/{it}" for part in ("src", "specs", "proofs") for at, _, found in os.walk(f"{folder}/{part}") for it in found]
        self.lines[name] = sum(text_of(it).count("\n") for it in paths if it.endswith(".rt"))
        self.edits[name] = sum(it.endswith(".edit") for it in os.listdir(f"{folder}/must-fail")) if os.path.isdir(f"{folder}/must-fail") else 0

    def paths(self, name):
        """How many paths of crates.txt begin with a crate."""
        if name not in self.read:
            self.read[name] = 1 + sum(self.paths(it) for it in self.lists[name])
        return self.read[name]

    def below(self, name):
        if name not in self.under:
            self.under[name] = {*self.lists[name]}.union(*[self.below(it) for it in self.lists[name]])
        return self.under[name]

    def reading(self, name):
        return self.paths(name) * A_PATH

    def proof(self, name):
        return self.seconds.get(name, 60) + self.reading(name)

    def tasks(self):
        """Each task with what it waits for, the lines that it counts for, and its seconds."""
        found = {}
        for name in sorted(self.lists, key=lambda it: len(self.below(it))):
            found[name, "proof"] = [(it, "proof") for it in self.below(name)], self.lines[name], self.proof(name)
            if self.edits[name]:
                found[name, "edits"] = [(name, "proof")], self.lines[name], self.seconds.get(name, 60) * (0.75 + 0.25 * self.edits[name])
        return found

    def minutes(self, lanes):
        tasks = self.tasks()
        behind = dict.fromkeys(tasks, 0)
        for key in reversed([*tasks]):
            behind[key] += tasks[key][1]
            for it in tasks[key][0]:
                behind[it] = max(behind[it], behind[key])
        left, running, done, now = sorted(tasks, key=lambda it: -behind[it]), [], set(), 0
        while left or running:
            for key in [it for it in left if done.issuperset(tasks[it][0])][: lanes - len(running)]:
                left.remove(key)
                heapq.heappush(running, (now + tasks[key][2], key))
            now, key = heapq.heappop(running)
            done.add(key)
        return now / 60

    def end(self, name):
        """When the proof of a crate ends that waits for nothing but the crates below it, and for which of them."""
        if name not in self.ends:
            last = max(self.below(name), key=lambda it: self.end(it)[0], default=None)
            self.ends[name] = self.proof(name) + (self.end(last)[0] if last else 0), last
        return self.ends[name]

    def chain(self):
        name = max(self.lists, key=lambda it: self.end(it)[0])
        while name:
            yield name
            name = self.end(name)[1]


def main(words):
    root, lanes, speed = (words + [".", "4", "1"][len(words) :])[:3]
    gate = Gate(root, float(speed))
    chain = [*gate.chain()]
    checks, reading = sum(gate.seconds.get(it, 60) for it in gate.lists), sum(map(gate.reading, gate.lists))
    print(f"{checks / 60:.0f} processor minutes of checks, {reading / 60:.1f} of paths; {gate.minutes(int(lanes)):.0f} minutes with {lanes} lanes")
    print(f"the longest chain, {gate.end(chain[0])[0] / 60:.0f} minutes: " + ", ".join(f"{it} {gate.proof(it):.0f}" for it in reversed(chain)))


main(sys.argv[1:])
