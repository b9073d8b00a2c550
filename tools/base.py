#!/usr/bin/env python3
"""Proves the crates of the repository as the gate does, side by side, for whoever works on it: python3 tools/base.py all [LANES]

    python3 tools/base.py all [LANES]      every crate whose sources changed, those with the longest chain behind them first; goes on as files change
    python3 tools/base.py libraries [LANES]  every library whose sources changed, once: tools/ci.py calls it
    python3 tools/base.py program NAME     the libraries below a program, and then the program; `./govisd --build` calls it
    python3 tools/base.py check NAME ..    `rt check` of a crate over what is built so, with rattle's flags, as --only F and --allow-holes
    python3 tools/base.py status           the crates that are proved as they stand

It calls the kit's own `rt` for each step of the gate, and keeps what passes where `rt ci` keeps it: a gate on this machine takes it from there. Of a kit that
keeps nothing (rattle-kit-13b) the libraries that pass are kept by tools/kept.py, and tools/ci.py takes them from there. It gives no verdict: the gate is the
judge. One large crate of the longest chain at a time has three jobs, and all of that chain have a better priority. Logs lie in .git/base, with the processor seconds of each
crate in .git/base/seconds, for tools/gate.py; a crate that is named in .git/base/held is not begun, while somebody works on it.
"""
import concurrent.futures
import contextlib
import json
import os
import re
import shutil
import subprocess
import sys
import threading
import time

sys.path.insert(0, os.path.dirname(os.path.abspath(__file__)))
from kept import KEEPS, Store, below, rt, rtlib, stamp_of

ROOT = os.path.dirname(os.path.dirname(os.path.abspath(__file__)))
# In a work tree of git's `.git` is a file.
LOGS = subprocess.run(["git", "-C", ROOT, "rev-parse", "--absolute-git-dir"], stdout=subprocess.PIPE, text=True, check=True).stdout.strip() + "/base"

# What the children took that a crate's threads waited for.
TAKEN = threading.local()


def waited(pid, flags):
    """As `os.waitpid`; it adds the processor seconds of a child that ended to those of the crate that the thread works for."""
    found, status, usage = os.wait4(pid, flags)
    if found and hasattr(TAKEN, "seconds"):
        TAKEN.seconds.append(usage.ru_utime + usage.ru_stime)
    return found, status


os.waitpid = waited


class Pool(concurrent.futures.ThreadPoolExecutor):
    """Threads that work for the crate of the thread that hands the work in."""

    def submit(self, call, *words):
        seconds = getattr(TAKEN, "seconds", [])

        def run():
            TAKEN.seconds = seconds
            return call(*words)

        return super().submit(run)


rtlib.ThreadPoolExecutor = Pool


def crates():
    """The crates of the repository by their names, from the bottom up."""
    rt.Crate.below, rt.Crate.cuts_libraries, rtlib.Crate = below, True, rt.Crate
    rtlib.listed.cache_clear()
    rt.Crate.allowed = rt.handles_of(ROOT)
    return {it.name: it for it in sorted(rtlib.crates_below(f"{ROOT}/crates"), key=lambda it: len(it.below()))}


def stamps(there):
    """Of each crate the sum of its sources and of those below it."""
    seen = {}
    return {name: rt.stamp_of(crate, seen) if KEEPS else stamp_of(crate, seen) for name, crate in there.items()}


def seconds():
    """What the crates took when they were measured, or by their lines."""
    found = {}
    for row in re.findall(r"\| `(\w+)` \| ([\d,]+) / [\d,]+ / [\d,]+ \| (\d*) \|", rtlib.text_of(f"{ROOT}/docs/GATE.md")):
        found[row[0]] = int(row[2]) if row[2] else 40 + int(row[1].replace(",", "")) // 6
    return found


class Proof:
    """The proof of one crate, as the gate makes it, over libraries that are built."""

    def __init__(self, crate, sums):
        self.crate, self.kept, self.sums = crate, rt.Kept([crate, *crate.below()]), sums

    def note(self, crate):
        """Notes the sum of a library that is built, which is found once for each build."""
        mark = repr(self.kept.mark(crate))
        if self.sums.get(crate.name, ("",))[0] == mark:
            self.kept.rlibs[crate.name], self.kept.marks[crate.name] = self.sums[crate.name][1], self.kept.mark(crate)
        else:
            self.kept.is_built(crate)
            self.sums[crate.name] = mark, self.kept.rlibs[crate.name]

    def stands(self, key):
        """Whether what was kept under the key stands in the crate's out/."""
        with contextlib.suppress(OSError, ValueError, KeyError, TypeError):
            made = json.loads(rtlib.text_of(f"{self.kept.place(self.crate, False, key)}/made.json"))
            names = [it for it, _ in made["files"]]
            return names == self.kept.made(self.crate, False) and all(rtlib.sum_of(f"{self.crate.folder}/out/{it}") == sum for it, sum in made["files"])
        return False

    def is_given(self, key):
        """Whether an earlier run proved the same: what it made is put into out/."""
        if not os.path.isdir(self.kept.place(self.crate, False, key)):
            return False
        # what is there would be taken for damage
        shutil.rmtree(f"{self.crate.folder}/out/rlib", ignore_errors=True)
        return self.kept.give(self.crate, False, key)

    def is_proved(self, jobs):
        rtlib.stop_on_links(self.crate.folder)
        rtlib.stop_on_text(self.crate, "verdict")
        rt.stop_on_words(self.crate)
        return not rtlib.fmt(self.crate.folder, "--check", self.crate.out) and not self.crate.ci(["--jobs", str(jobs)], False)

    def run(self, jobs):
        os.makedirs(f"{self.crate.folder}/out", exist_ok=True)
        for it in self.crate.below():
            self.note(it)
        key = self.kept.key(self.crate)
        if self.stands(key) or self.is_given(key):
            return True
        if not self.is_proved(jobs):
            return False
        if not self.crate.is_program:
            self.kept.is_built(self.crate)
        self.kept.keep(self.crate, False, key)
        return True


class MarkedProof(Store):
    """The same by a kit that keeps nothing: what passes stands in the folder that tools/kept.py has."""

    def run(self, jobs):
        os.makedirs(f"{self.crate.folder}/out", exist_ok=True)
        flags = ["--jobs", str(jobs)]
        if self.is_there() or self.is_given():
            return True
        if self.crate.is_program:
            return not self.crate.ci(flags, False)
        shutil.rmtree(os.path.dirname(self.mark), ignore_errors=True)
        os.makedirs(os.path.dirname(self.mark))
        is_proved = not self.crate.prove(["build", *self.crate.words(flags, keeps=False), "--statements", "-o", self.crate.rlib])
        if is_proved and stamp_of(crates()[self.crate.name], {}) == self.stamp:
            self.keep()
        return is_proved


class Base:
    def __init__(self, lanes, wanted=None, libraries=False):
        self.libraries = libraries
        self.lanes, self.wanted, self.took, self.sums, self.stamps = lanes, wanted, seconds(), {}, {}
        self.running, self.failed, self.proved, self.lock = {}, {}, {}, threading.Lock()
        self.ended, self.wide = threading.Event(), set()

    def behind(self, there):
        """Of each crate the seconds of the longest chain that begins with it."""
        found = {it: 0 for it in there}
        for crate in reversed([*there.values()]):
            found[crate.name] += self.took.get(crate.name, 100)
            for dep in crate.deps:
                found[dep.name] = max(found[dep.name], found[crate.name])
        return found

    def prove(self, crate, stamp, jobs, priority):
        start, is_proved, TAKEN.seconds = time.time(), False, []
        os.setpriority(os.PRIO_PROCESS, threading.get_native_id(), max(priority, -20) if os.geteuid() == 0 else 0)
        with open(f"{LOGS}/{crate.name}", "w+", encoding="utf-8", errors="replace") as crate.out:
            with contextlib.suppress(SystemExit):
                is_proved = (Proof(crate, self.sums) if KEEPS else MarkedProof(crate, stamp)).run(jobs)
        with self.lock:
            del self.running[crate.name]
            (self.proved if is_proved else self.failed)[crate.name] = stamp
        self.ended.set()
        taken = sum(TAKEN.seconds)
        if is_proved and taken > 5:
            with open(f"{LOGS}/seconds", "a", encoding="utf-8") as file:
                file.write(f"{crate.name} {taken:.0f}\n")
        print(f"{time.strftime('%H:%M:%S')} {crate.name} {'ok' if is_proved else 'FAILED'} {time.time() - start:.0f} s, {taken:.0f} of processors", flush=True)

    def step(self):
        there = crates()
        if self.wanted:
            there = {it.name: it for it in [*there[self.wanted].below(), there[self.wanted]]}
        if self.libraries:
            there = {name: it for name, it in there.items() if not it.is_program}
        now = stamps(there)
        if now != self.stamps:
            # what `rt` holds is of the texts that stood there before
            rtlib.blanked.cache_clear()
            rtlib.code_of.cache_clear()
            self.stamps = now
        with self.lock:
            proved, running = {it for it, of in self.proved.items() if now.get(it) == of}, {*self.running}
        behind, left = self.behind(there), [it for it in there.values() if it.name not in proved]
        fails = lambda it: self.failed.get(it.name) == now[it.name]
        held = (rtlib.text_of(f"{LOGS}/{os.environ.get('BASE_HELD', 'held')}") or "").split()
        ready = [it for it in left if it.name not in running and it.name not in held and not fails(it) and all(dep.name in proved for dep in it.below())]
        most = max([behind[it.name] for it in left if not fails(it) and it.name not in held], default=0)
        lanes = int(rtlib.text_of(f"{LOGS}/lanes") or self.lanes)
        for crate in sorted(ready, key=lambda it: -behind[it.name])[: max(lanes - len(running), 0)]:
            is_first = behind[crate.name] >= 0.95 * most
            given = crate, now[crate.name], self.jobs(crate, is_first), -16 if is_first else -8
            self.running[crate.name] = now[crate.name]
            threading.Thread(target=self.prove, args=given, daemon=True).start()
            print(f"{time.strftime('%H:%M:%S')} {crate.name} begins", flush=True)
        self.count = f"{len(proved)} of {len(there)} crates are proved"
        return bool(left)

    def jobs(self, crate, is_first):
        """How many jobs a crate gets. A second and a third cost 40 % more of the processors for the same work, so one crate has them at a time: a large
        one of the longest chain."""
        if not is_first or self.took.get(crate.name, 0) <= 60 or self.wide.intersection(self.running):
            return 1
        self.wide = {crate.name}
        return 3

    def changes(self):
        """Waits until a crate has ended, or a while."""
        self.ended.wait(60)
        self.ended.clear()


def everything(lanes="4"):
    os.makedirs(LOGS, exist_ok=True)
    rtlib.guarded()
    base, had_work = Base(int(lanes)), True
    while True:
        try:
            has_work = base.step()
        except SystemExit as error:
            # crates.txt or a folder is being written
            print(f"{time.strftime('%H:%M:%S')} {error}", flush=True)
            time.sleep(5)
            continue
        if had_work and not has_work:
            print("all crates are proved", flush=True)
        had_work = has_work
        base.changes()


def libraries(lanes="4"):
    """Proves each library once that is not kept, and ends where nothing can go on: what fails is left to the gate."""
    os.makedirs(LOGS, exist_ok=True)
    rtlib.guarded()
    base = Base(int(lanes), libraries=True)
    while base.step() and (base.running or base.ended.is_set()):
        base.changes()
    return 0


def program(name, lanes="4"):
    os.makedirs(LOGS, exist_ok=True)
    rtlib.guarded()
    base, start, said = Base(int(lanes), name), time.time(), None
    while base.step():
        now = f"{base.count}, {int(time.time() - start) // 60} minutes"
        if now != said:
            print(now, flush=True)
        said = now
        if base.failed and not base.running:
            print(f"not proved: {' '.join(base.failed)}: {LOGS} has what was said", file=sys.stderr)
            return 1
        base.changes()
    return 0


def is_built(crate):
    """Whether the crate's library is there, and none of its sources is newer."""
    made = f"{crate.rlib}/format"
    if not KEEPS:
        return MarkedProof(crate, stamp_of(crate, {})).is_there()
    return os.path.exists(made) and all(os.stat(it).st_ctime <= os.stat(made).st_mtime for it in rtlib.files_of(crate.folder))


def check(name, *flags):
    rtlib.guarded()
    crate = crates()[name]
    lacking = [it.name for it in crate.below() if not is_built(it)]
    if lacking:
        print(f"not built below: {' '.join(lacking)}")
    os.makedirs(f"{crate.folder}/out", exist_ok=True)
    return crate.check([*flags, *([] if "--jobs" in flags else ["--jobs", "1"])])


def status():
    there, sums, proved = crates(), {}, set()
    if not KEEPS:
        now = stamps(there)
        print("\n".join(it.name for it in there.values() if MarkedProof(it, now[it.name]).is_there()))
        return
    for crate in there.values():
        if not crate.is_program and all(it.name in proved for it in crate.below()) and is_built(crate):
            proof = Proof(crate, sums)
            for it in crate.below():
                proof.note(it)
            if proof.stands(proof.kept.key(crate)):
                proved.add(crate.name)
    print("\n".join(proved))


def main(words):
    os.chdir(ROOT)
    verbs = {"all": everything, "libraries": libraries, "program": program, "check": check, "status": status}
    if not words or words[0] not in verbs:
        sys.exit(__doc__)
    sys.exit(verbs[words[0]](*words[1:]) or 0)


if __name__ == "__main__":
    main(sys.argv[1:])
