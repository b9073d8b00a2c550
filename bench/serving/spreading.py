#!/usr/bin/env python3
"""Times of edits where modules import one another:

    python3 bench/serving/spreading.py PROGRAM [--modules N] [--packages N] [--workers N] [--edits N]

The workspace is that of bench/shared/compiled.py, cut into modules: of 32 modules with 128 packages each, each package imports up to 60 of higher number over all
modules, and uses each. Each module is a session's, and all are filled and built at once by a running daemon. Then one package is edited and built, so many
times each: a body, an exported constant in the middle, a function that is not exported in the last package, which all others reach. Each figure is the time
to the reply of the build, the processor time of the daemon, and the memory that it keeps of one batch. It ends with an error where a build has a fault.
The status is 1 where filling takes more than 1.5 times the processor time of a check (`FAILED: ..`); with 4,096 packages what misses its aim is told
(`AIM MISSED: ..`).
"""
import argparse
import os
import re
import subprocess
import sys
import tempfile
import time

HERE = os.path.dirname(os.path.abspath(__file__))
sys.path.insert(0, f"{HERE}/../shared")
import compiled
import workspaces
from serving import Daemon, Failures, Peer, milliseconds, percentile

IMPORT = re.compile(re.escape(f'"{workspaces.MODULE}/') + r'p(\d+)"')
BODY = "total := len(title)"
CONSTANT = re.compile(r"(?<![.\w])Limit0\s*=[^\n]*")
# How often the time of a check filling may take, and the milliseconds that are aimed at with 4,096 packages.
FILLING = 1.5
AIMS = {"a build of nothing new": 8, "an exported constant in the middle": 500, "a new function that is not exported, in the last package": 600}


class Workspace:
    """The packages by their numbers, the lower modules first: the text of each is made once."""

    def __init__(self, modules, packages):
        self.packages = packages
        self.texts = [self.text(number, imports) for number, imports in enumerate(workspaces.spread(modules * packages))]
        self.modules = range(modules)

    def module(self, number):
        return f"ex.com/m{number // self.packages}"

    def path(self, number):
        return f"{self.module(number)}/{compiled.name_of(number)}"

    def text(self, number, imports):
        alone = compiled.Package(number, imports).file()
        return IMPORT.sub(lambda found: f'"{self.path(int(found[1]))}"', alone)

    def of_module(self, module):
        return range(module * self.packages, (module + 1) * self.packages)

    def write(self, folder):
        """Each package in a folder of its own."""
        for number, text in enumerate(self.texts):
            own = os.path.join(folder, self.path(number).removeprefix("ex.com/"))
            os.makedirs(own)
            with open(os.path.join(own, "p.go"), "w", encoding="utf-8") as file:
                file.write(text)


def processor_time(command):
    """The seconds of processor time of a command that succeeds, and of the clock."""
    began, before = time.time(), os.times()
    ended = subprocess.run(command, capture_output=True, text=True, check=False)
    if ended.returncode:
        raise SystemExit(f"{command[1]}: {ended.stdout[:200]}{ended.stderr[:200]}")
    after = os.times()
    return after.children_user + after.children_system - before.children_user - before.children_system, time.time() - began


class Service:
    """A daemon with the whole workspace, a session for each module."""

    def __init__(self, daemon, workspace):
        self.daemon, self.workspace = daemon, workspace
        self.peers = [Peer(daemon, timeout=3600) for _ in workspace.modules]

    def spent(self):
        return milliseconds(f"/proc/{self.daemon.process.pid}/stat") / 1000

    def fill(self):
        failures, began, before = Failures(), time.time(), self.spent()
        failures.join(failures.run(self.fill_module, [(it,) for it in self.workspace.modules]))
        spent = self.spent() - before
        print(f"filling: {spent:.1f} s of processor time, {time.time() - began:.1f} s; {self.daemon.resident():.0f} MB", flush=True)
        faults = sum(len(it.build()["faults"]) for it in self.peers)
        if faults:
            raise SystemExit(f"a workspace without faults has {faults}")
        return spent

    def fill_module(self, module):
        peer = self.peers[module]
        peer.open(f"ex.com/m{module}")
        for number in self.workspace.of_module(module):
            self.edit(number, self.workspace.texts[number])
        peer.build()

    def edit(self, number, text):
        peer = self.peers[number // self.workspace.packages]
        peer.edit(self.workspace.path(number), "p.go", text)
        return peer

    def times(self, what, number, texts):
        """Edits of a package, each with its build, and then the text as it was: the median in milliseconds."""
        taken, before, resident = [], self.spent(), self.daemon.resident()
        for text in texts:
            began = time.perf_counter()
            faults = self.edit(number, text).build()["faults"]
            taken.append((time.perf_counter() - began) * 1000)
            if faults:
                raise SystemExit(f"{what}: {faults[:2]}")
        spent, kept = (self.spent() - before) * 1000 / len(taken), (self.daemon.resident() - resident) / len(taken)
        print(f"{what}: p50 {percentile(taken, 50):.1f} ms, most {max(taken):.1f}; {spent:.1f} ms of processor time, {kept:.1f} MB each", flush=True)
        self.edit(number, self.workspace.texts[number]).build()
        return percentile(taken, 50)

    def builds(self, what, count):
        taken, before = [], self.spent()
        for _ in range(count):
            began = time.perf_counter()
            self.peers[0].build()
            taken.append((time.perf_counter() - began) * 1000)
        print(f"{what}: p50 {percentile(taken, 50):.1f} ms; {(self.spent() - before) * 1000 / count:.1f} ms of processor time", flush=True)
        return percentile(taken, 50)


def edits(service, count):
    """The medians of what is done, in milliseconds, by what it is."""
    texts, last = service.workspace.texts, len(service.workspace.texts) - 1
    middle = last // 2 + 1
    limit = CONSTANT.search(texts[middle])[0]
    nothing, constant, function = AIMS
    service.times("a body in the middle", middle, [texts[middle].replace(BODY, f"{BODY} + {it + 1}") for it in range(10)])
    return {
        nothing: service.builds(nothing, 10),
        constant: service.times(constant, middle, [texts[middle].replace(limit, f"{limit} + {it + 1}", 1) for it in range(count)]),
        function: service.times(function, last, [f"{texts[last]}\nfunc fresh{it}() int {{ return 1 }}\n" for it in range(count)]),
    }


def main():
    parser = argparse.ArgumentParser()
    parser.add_argument("program", type=os.path.abspath)
    parser.add_argument("--modules", type=int, default=32)
    parser.add_argument("--packages", type=int, default=128)
    parser.add_argument("--workers", type=int, default=1)
    parser.add_argument("--edits", type=int, default=3)
    given = parser.parse_args()
    workspace = Workspace(given.modules, given.packages)
    with tempfile.TemporaryDirectory() as folder:
        workspace.write(folder)
        spent, took = processor_time([given.program, "check", folder, "--module", "ex.com"])
    print(f"{len(workspace.texts)} packages: check {spent:.1f} s of processor time, {took:.1f} s", flush=True)
    with Daemon(given.program, workers=given.workers) as daemon:
        service = Service(daemon, workspace)
        filling = service.fill()
        taken = edits(service, given.edits)
    if len(workspace.texts) == 4096:
        for what in AIMS:
            if taken[what] > AIMS[what]:
                print(f"AIM MISSED: {what}: {taken[what]:.0f} ms are more than {AIMS[what]}")
    if filling > FILLING * spent:
        raise SystemExit(f"FAILED: filling takes {filling / spent:.2f} of the time of a check, more than {FILLING}")


if __name__ == "__main__":
    main()
