#!/usr/bin/env python3
"""Asks a running daemon over sockets, as editors and as hostile peers do:

    python3 bench/serving/serving.py PROGRAM [--seconds N] [--modules N] [--packages N] [PART]..

Each part starts `PROGRAM serve` on a free port of the loopback address, says what it looked at, and ends with an error where a reply is another than the one
that is wanted. `rows` are the lines of one session, also sent by bytes; `crowd` 32 sessions at once for so many seconds (60 unless told), each against a
model of what it must be told; `hostile` peers that send no requests, half lines, lines that are too long, never read, go away, or do so in a build; `memory`
one session that edits until the memory of the process ends, while 31 others go on; `starved` builds that find no memory, which are answered all the same,
within a bound once nobody else works; `memory_of_batches` what batches of one edit keep, in ten packages and in 32 modules with 128 packages each, unless
told; `deep` trees as high as they may be, and one higher, under a limit of 256 KB for the stack; `descriptors` more connections than there are file
descriptors for; `speed` the times of edits in such a workspace. `memory_of_batches` and `speed` have bounds, and end with an error where one does not hold.
"""
import argparse
import json
import multiprocessing
import os
import random
import re
import resource
import socket
import subprocess
import sys
import tempfile
import threading
import time

HERE = os.path.dirname(os.path.abspath(__file__))
sys.path.insert(0, f"{HERE}/../shared")
from made_scripts import LONGEST_LINE, deep_texts

GIB = 1 << 30


class Daemon:
    """A daemon that listens, with so many workers and more words of its command line; it ends where the block ends."""

    def __init__(self, program, workers=2, connections=None, more=(), stdin=None, **limits):
        words = [program, "serve", "--listen", "127.0.0.1:0", "--workers", str(workers)]
        if connections:
            words += ["--connections", str(connections)]
        words += more

        def limit():
            for name, size in limits.items():
                resource.setrlimit(getattr(resource, f"RLIMIT_{name}"), (size, size))

        self.process = subprocess.Popen(words, stdin=stdin, stderr=subprocess.PIPE, text=True, preexec_fn=limit)
        line = self.process.stderr.readline()
        found = re.search(r"listening on 127\.0\.0\.1:(\d+)", line)
        if not found:
            raise SystemExit(f"the daemon said: {line!r}")
        self.port = int(found.group(1))

    def __enter__(self):
        return self

    def __exit__(self, *_):
        self.process.kill()
        self.process.wait()

    def resident(self):
        """The memory of the process in MB."""
        with open(f"/proc/{self.process.pid}/status", encoding="ascii") as file:
            return next(int(line.split()[1]) for line in file if line.startswith("VmRSS")) / 1024

    def refuse_memory(self, is_refused):
        """Lets the process have no more addresses than it has, or as many as it wants again."""
        with open(f"/proc/{self.process.pid}/statm", encoding="ascii") as file:
            size = int(file.read().split()[0]) * resource.getpagesize()
        most = resource.prlimit(self.process.pid, resource.RLIMIT_AS)[1]
        resource.prlimit(self.process.pid, resource.RLIMIT_AS, (size if is_refused else most, most))

    def spent_by_threads(self):
        """The processor time of each thread in milliseconds."""
        tasks = f"/proc/{self.process.pid}/task"
        return {it: milliseconds(f"{tasks}/{it}/stat") for it in os.listdir(tasks)}


def milliseconds(path):
    """The processor time in a file `stat` of a process or a thread."""
    with open(path, encoding="ascii") as file:
        fields = file.read().rpartition(")")[2].split()
    return (int(fields[11]) + int(fields[12])) * 1000 / os.sysconf("SC_CLK_TCK")


class Peer:
    """A connection whose requests are lines."""

    def __init__(self, daemon, timeout=120):
        self.socket = socket.create_connection(("127.0.0.1", daemon.port), timeout=timeout)
        self.socket.setsockopt(socket.IPPROTO_TCP, socket.TCP_NODELAY, 1)
        self.file = self.socket.makefile("rb")

    def __enter__(self):
        return self

    def __exit__(self, *_):
        self.close()

    def close(self):
        self.file.close()
        self.socket.close()

    def send(self, data):
        self.socket.sendall(data)

    def line(self):
        return self.file.readline()

    def ask(self, **request):
        self.send(json.dumps(request, separators=(",", ":")).encode() + b"\n")
        line = self.line()
        if not line:
            raise EOFError(f"no reply to {request}")
        return json.loads(line)

    def want(self, wanted, **request):
        reply = self.ask(**request)
        if reply != wanted:
            raise SystemExit(f"{str(request)[:300]}\n  is told {str(reply)[:300]}\n  and not {wanted}")
        return reply

    def open(self, module):
        self.want({"ok": {"module": module}}, cmd="open", module=module)

    def edit(self, path, file, text):
        self.want({"ok": {}}, cmd="edit", path=path, file=file, text=text)

    def build(self):
        reply = self.ask(cmd="build")
        if "ok" not in reply:
            raise SystemExit(f"a build is told {reply}")
        return reply["ok"]


def rows(program):
    """The lines of one session, and then what it may ask of another's; and lines that come a byte at a time."""
    text = "package x\n\n// V is one.\nconst V = 1\n\nconst w = 2\n"
    user = 'package b\n\nimport "ex.com/a/x"\n\nfunc f() int { return x.w }\n'
    with Daemon(program, connections=3) as daemon:
        with Peer(daemon) as peer, Peer(daemon) as other:
            peer.open("ex.com/a")
            peer.edit("ex.com/a/x", "x.go", text)
            peer.want({"ok": {"batch": 1, "faults": []}}, cmd="build")
            other.open("ex.com/b")
            other.edit("ex.com/b", "b.go", user)
            faults = [{"at": "ex.com/b/b.go:18", "rule": "I7"}, {"at": "ex.com/b/b.go:56", "rule": "N2"}]
            other.want({"ok": {"batch": 2, "faults": faults}}, cmd="build")
            other.want({"ok": {"batch": 2, "decl": "package ex.com/a/x"}}, cmd="define", path="ex.com/b", file="b.go", offset=54)
            other.want({"ok": {"batch": 2, "names": ["V"]}}, cmd="complete", path="ex.com/b", file="b.go", offset=56)
            symbols = [{"doc": "// V is one.", "kind": "const", "name": "V"}]
            doc = {"batch": 2, "name": "x", "path": "ex.com/a/x", "symbols": symbols}
            other.want({"ok": doc}, cmd="doc", **{"from": "ex.com/b", "path": "ex.com/a/x"})
            other.want({"err": "O1"}, cmd="open", module="ex.com/b")
        with Peer(daemon) as slow:
            for byte in b'\n{"cmd":"open","module":"ex.com/c"}\r\n{"cmd":"build"}\n':
                slow.send(bytes([byte]))
            if [slow.line(), slow.line()] != [b'{"ok":{"module":"ex.com/c"}}\n', b'{"ok":{"batch":3,"faults":[]}}\n']:
                raise SystemExit("lines that come a byte at a time")
        status = daemon.process.wait(timeout=60)
        if status:
            raise SystemExit(f"the daemon ended with {status}")
    print("rows: three sessions, and the daemon ended with 0 behind the last connection")


def package(name, number, imported=(), fault=False):
    """The text of a package with a constant, uses of those of other packages, and a fault if it is to have one, with the offset of that."""
    lines = [f"package {name}\n\n"]
    lines += [f'import {alias} "{path}"\n\n' for alias, path in imported]
    lines += [f"func g{alias}() int {{ return {alias}.N }}\n\n" for alias, _ in imported]
    lines.append(f"const N = {number}\n\n")
    head = "".join(lines)
    body = f"func f() int {{ return {'unknown' if fault else 'N'} }}\n"
    return head + body, len(head) + body.index("return ") + 7


class Failures:
    """What the threads of a part found wrong, which the main one tells."""

    def __init__(self):
        self.found = []

    def run(self, work, arguments):
        """Runs the work in a thread for each of the arguments, and tells the threads."""

        def guarded(*argument):
            try:
                work(*argument)
            except BaseException as error:
                self.found.append(error)

        threads = [threading.Thread(target=guarded, args=it) for it in arguments]
        for thread in threads:
            thread.start()
        return threads

    def join(self, threads):
        for thread in threads:
            thread.join()
        if self.found:
            raise SystemExit(f"{len(self.found)} of {len(threads)} sessions: {self.found[0]!r}")


class Member:
    """One of many sessions: two packages of its own, of which one imports the other and, once all have built, a package of its neighbour."""

    def __init__(self, peer, me, of, wanting=None):
        self.peer = peer
        self.wanting = wanting
        self.refused = 0
        self.own = f"ex.com/m{me}"
        self.neighbour = f"ex.com/m{(me + 1) % of}/low"
        self.choose = random.Random(me)
        self.last = 0
        peer.open(self.own)

    def want(self, reply, wanted):
        """The reply must be this one, of as many batches as the last one or more."""
        batch = reply.get("ok", {}).pop("batch", self.last)
        if reply != {"ok": wanted} or batch < self.last:
            raise SystemExit(f"{self.own}: {reply} of batch {batch}, and not {wanted} behind batch {self.last}")
        self.last = batch

    def ask(self, **request):
        """What is replied; while memory may be wanting, once it is no longer M0."""
        while (reply := self.peer.ask(**request)) == {"err": "M0"} and self.wanting and self.wanting.is_set():
            self.refused += 1
            time.sleep(0.05)
        return reply

    def turn(self, with_neighbour):
        """Edits both packages, builds, and asks of them."""
        number, fault = self.choose.randrange(1000), self.choose.random() < 0.3
        imported = [("low", f"{self.own}/low")] + [("next", self.neighbour)] * with_neighbour
        low, _ = package("low", number)
        high, at = package("high", number, imported, fault)
        self.want(self.ask(cmd="edit", path=f"{self.own}/low", file="low.go", text=low), {})
        self.want(self.ask(cmd="edit", path=f"{self.own}/high", file="high.go", text=high), {})
        faults = [{"at": f"{self.own}/high/high.go:{at}", "rule": "N1"}] if fault else []
        self.want(self.ask(cmd="build"), {"faults": faults})
        place = {"path": f"{self.own}/high", "file": "high.go"}
        for alias, path in imported:
            use = high.index(f"{alias}.N")
            self.want(self.ask(cmd="define", offset=use, **place), {"decl": f"package {path}"})
            self.want(self.ask(cmd="complete", offset=use + len(alias) + 1, **place), {"names": ["N"]})
        symbols = [{"doc": "", "kind": "const", "name": "N"}]
        self.want(self.ask(cmd="doc", path=imported[-1][1], **{"from": f"{self.own}/high"}), {"name": "low", "path": imported[-1][1], "symbols": symbols})


def one_of_crowd(daemon, me, seconds, counts, begun, ended):
    """Takes turns for so many seconds, 100 at most: each is a batch of 64 packages, and a daemon takes 1,048,576 events."""
    with Peer(daemon) as peer:
        member = Member(peer, me, 32)
        member.turn(False)
        begun.wait(60)
        end = time.time() + seconds
        while time.time() < end:
            member.turn(True)
            counts[me] += 1
            time.sleep(seconds / 100)
        ended.wait(60)
        peer.want({"ok": {}}, cmd="close")


def crowd(program, seconds=60):
    """32 sessions at once; a connection more is turned away."""
    with Daemon(program, workers=4) as daemon:
        counts, failures, begun = [0] * 32, Failures(), threading.Barrier(33)
        ended = threading.Barrier(32)
        threads = failures.run(one_of_crowd, [(daemon, me, seconds, counts, begun, ended) for me in range(32)])
        try:
            begun.wait(60)
        except threading.BrokenBarrierError:
            failures.join(threads)
        with Peer(daemon) as late:
            line = late.line()
            if line != b'{"err":"O4"}\n' or late.line():
                raise SystemExit(f"a 33rd connection is told {line!r}")
        failures.join(threads)
        print(f"crowd: 32 sessions built {sum(counts)} times in {seconds} s, each told as wanted; {daemon.resident():.0f} MB at the end")


def served_at_last(daemon):
    """A connection that is served, once those that ended make room for it."""
    for _ in range(1000):
        peer = Peer(daemon)
        try:
            if peer.ask() == {"err": "V2"}:
                return peer
        except (EOFError, ConnectionError):
            pass
        peer.close()
        time.sleep(0.02)
    raise SystemExit("no connection is served any more")


def send_noise(daemon):
    """Bytes that are no requests, halves of lines and nothing, each from a peer that goes away."""
    noise = random.Random(1)
    whole = b'{"cmd":"open","module":"ex.com/noise"}\n{"cmd":"build"}\n'
    for number in range(300):
        with Peer(daemon) as peer:
            peer.send(noise.randbytes(noise.randrange(2000)))
        with Peer(daemon) as peer:
            peer.send(whole[: number % len(whole)])
        with Peer(daemon):
            pass


def send_long_lines(daemon):
    """Lines at the limit of length are served, and one that is a byte longer ends its connection."""
    with served_at_last(daemon) as peer:
        for _ in range(3):
            peer.send(b"x" * LONGEST_LINE + b"\n")
            if peer.line() != b'{"err":"V2"}\n':
                raise SystemExit("a line of 2,097,152 bytes")
        peer.send(b"x" * (LONGEST_LINE + 1) + b"\n")
        if peer.line() != b'{"err":"V1"}\n' or peer.line():
            raise SystemExit("a line of 2,097,153 bytes")


def deaf_peer(daemon):
    """A peer that asks without end and never reads, until nothing more goes out."""
    peer = served_at_last(daemon)
    peer.socket.settimeout(0.5)
    try:
        for _ in range(4000):
            peer.send(b'{"cmd":"build"}\n' * 100)
    except (TimeoutError, socket.timeout):
        pass
    return peer


def cut_in_build(daemon, good, number):
    """What was submitted before a connection was cut is published, and the module can be opened again."""
    for _ in range(1000):
        with served_at_last(daemon) as cut:
            if cut.ask(cmd="open", module="ex.com/cut") == {"err": "O1"}:
                time.sleep(0.01)
                continue
            cut.edit("ex.com/cut", "a.go", f"package cut\n\nconst V{number} = 1\n")
            cut.send(b'{"cmd":"build"}\n')
            break
    for _ in range(1000):
        told = good.ask(cmd="doc", path="ex.com/cut", **{"from": "ex.com/good"})
        if [it["name"] for it in told.get("ok", {}).get("symbols", [])] == [f"V{number}"]:
            return
        time.sleep(0.01)
    raise SystemExit("what was submitted before a connection was cut is not published")


def build_good(good, number):
    """An edit and a build, and how long they took."""
    began = time.time()
    good.edit("ex.com/good", "a.go", f"package good\n\nconst N = {number}\n")
    if good.build()["faults"]:
        raise SystemExit("a package without faults has some")
    return time.time() - began


def hostile(program):
    """Peers of every bad kind, while one session goes on."""
    with Daemon(program) as daemon, Peer(daemon) as good:
        good.open("ex.com/good")
        build_good(good, 0)
        before = daemon.resident()
        send_noise(daemon)
        send_long_lines(daemon)
        peers = [deaf_peer(daemon) for _ in range(4)] + [served_at_last(daemon)]
        peers[-1].send(b'{"cmd":"op')
        times = [build_good(good, number) for number in range(50)]
        for number in range(30):
            cut_in_build(daemon, good, number)
        for peer in peers:
            peer.close()
        after = daemon.resident()
        if after > before + 100:
            raise SystemExit(f"{before:.0f} MB before, {after:.0f} MB after")
        print(f"hostile: 900 peers with noise, 50 builds beside four that never read, at most {max(times) * 1000:.1f} ms each, 30 cut in a build; "
              f"{before:.0f} MB before, {after:.0f} MB after")


class Beside:
    """31 sessions that take turns beside one that wants all memory. None may be refused, but for builds while that one builds."""

    def __init__(self, daemon):
        self.daemon = daemon
        self.turns, self.refused = [0] * 31, [0] * 31
        self.stop, self.wanting = threading.Event(), threading.Event()
        self.failures = Failures()
        self.threads = self.failures.run(self.go_on, [(me,) for me in range(31)])

    def go_on(self, me):
        with Peer(self.daemon) as peer:
            member = Member(peer, me, 32, self.wanting)
            while not self.stop.is_set():
                member.turn(False)
                self.turns[me] += 1
                self.refused[me] = member.refused
                time.sleep(0.2)

    def turns_while(self, work):
        """How many turns they took meanwhile and a little longer, each at least one."""
        before = list(self.turns)
        work()
        for _ in range(600):
            taken = [after - since for after, since in zip(self.turns, before)]
            if min(taken) > 1 or self.failures.found:
                break
            time.sleep(0.1)
        if min(taken) < 2:
            raise SystemExit(f"the others took {taken} turns: {self.failures.found[:1]}")
        return sum(taken)

    def end(self):
        self.stop.set()
        self.failures.join(self.threads)


def large_edit(number):
    """An edit of one of 100 packages by a text of 1 MB."""
    function = "func f{0}() int {{ return {0} + {0} * {0} }}\n"
    text = "package p\n\n" + "".join(function.format(it) for it in range(20_000))
    return {"cmd": "edit", "path": f"ex.com/greedy/p{number % 100}", "file": f"f{number}.go", "text": text}


def fill(greedy):
    """Edits until memory ends: how many edits of 1 MB were taken."""
    for number in range(4000):
        reply = greedy.ask(**large_edit(number))
        if reply == {"err": "M0"}:
            return number
        if reply != {"ok": {}}:
            raise SystemExit(f"an edit is told {reply}")
    raise SystemExit("memory did not end")


def empty(greedy, edits):
    """Takes away what filled the memory: what was in the draft before is left in it, and is built."""
    for number in range(edits):
        greedy.edit(f"ex.com/greedy/p{number % 100}", f"f{number}.go", None)
    if greedy.build()["faults"]:
        raise SystemExit("what is left of the draft has faults")
    symbols = greedy.ask(cmd="doc", path="ex.com/greedy", **{"from": "ex.com/greedy"})["ok"]["symbols"]
    if [it["name"] for it in symbols] != ["Kept"]:
        raise SystemExit(f"the draft has {symbols}")


def memory(program):
    """Under a limit a session that edits until memory ends is told so and keeps its draft, and 31 others go on."""
    with Daemon(program, workers=4, AS=3 * GIB) as daemon, Peer(daemon, timeout=600) as greedy:
        beside = Beside(daemon)
        greedy.open("ex.com/greedy")
        greedy.edit("ex.com/greedy", "a.go", "package greedy\n\nconst Kept = 1\n")
        edits = fill(greedy)
        turns = beside.turns_while(lambda: [greedy.want({"err": "M0"}, **large_edit(edits)) for _ in range(3)])
        print(f"memory: {edits} edits of 1 MB under a limit of 3 GiB, then M0; 31 others took {turns} turns then, all told as wanted", flush=True)
        beside.wanting.set()
        turns = beside.turns_while(lambda: [greedy.want({"err": "M0"}, cmd="build") for _ in range(3)])
        print(f"memory: three builds of that draft are told M0; the others took {turns} turns, {sum(beside.refused)} requests made again behind M0", flush=True)
        empty(greedy, edits)
        beside.turns_while(lambda: None)
        beside.wanting.clear()
        beside.turns_while(lambda: None)
        beside.end()
        print("memory: the draft was as it was, and the others went on")


def ask_all(peers, **request):
    """Asks all at once: the replies, and the longest time in which none came while some were waited for."""
    failures, ends, replies = Failures(), [time.time()], [None] * len(peers)

    def ask(number, peer):
        replies[number] = peer.ask(**request)
        ends.append(time.time())

    failures.join(failures.run(ask, [*enumerate(peers)]))
    ends.sort()
    return replies, max(after - before for before, after in zip(ends, ends[1:]))


def starved(program, most=30):
    """Where memory is refused each build is answered within some seconds behind the last reply to another, and right once there is memory again."""
    with Daemon(program) as daemon:
        peers, waits, refused = [Peer(daemon) for _ in range(8)], [], 0
        for number, peer in enumerate(peers):
            peer.open(f"ex.com/m{number}")
        for turn in range(6):
            for number, peer in enumerate(peers):
                text = large_edit(turn)["text"].replace("package p", f"package m{number}")
                peer.edit(f"ex.com/m{number}", "a.go", text)
            daemon.refuse_memory(True)
            # all at once, and each while no other works
            told, wait = ask_all(peers, cmd="build")
            replies, waits = list(told), [*waits, wait]
            for peer in peers:
                told, wait = ask_all([peer], cmd="build")
                replies, waits = [*replies, *told], [*waits, wait]
            daemon.refuse_memory(False)
            if not all(it == {"err": "M0"} or it.get("ok", {}).get("faults") == [] for it in replies):
                raise SystemExit(f"builds without memory are told {replies}")
            refused += replies.count({"err": "M0"})
            for peer in peers:
                if peer.build()["faults"]:
                    raise SystemExit("packages without faults have some")
        if not refused or max(waits) > most:
            raise SystemExit(f"FAILED: {refused} builds are told M0, and one waited {max(waits):.1f} s, which must be at most {most}")
        print(f"starved: {refused} of {6 * 2 * len(peers)} builds are told M0, the longest wait {max(waits):.1f} s; each is built once there is memory")


def one_deep(daemon, me):
    """Trees at the limit of height have no fault, and higher ones P2."""
    own = f"ex.com/m{me}"
    with Peer(daemon) as peer:
        peer.open(own)
        for more, wanted in ((0, set()), (1, {"K4", "P2"}), (0, set())):
            texts = deep_texts(more)
            for name, text in texts.items():
                peer.edit(f"{own}/{name}", "a.go", text)
            faults = peer.build()["faults"]
            if {it["rule"] for it in faults} != wanted or len(faults) != len(texts) * len(wanted):
                raise SystemExit(f"{own}: {faults} of trees of height {200 + more}")


def deep(program):
    """Trees of every form as high as they may be, in every thread: each has 2 MB of stack, though the limit is less than such trees want."""
    with Daemon(program, workers=8, STACK=256 << 10) as daemon:
        failures = Failures()
        failures.join(failures.run(one_deep, [(daemon, me) for me in range(32)]))
        print("deep: 32 sessions built trees of height 200 without fault, and higher ones with P2, under a limit of 256 KB for the stack")


def descriptors(program):
    """Where file descriptors are wanting, connections wait or are closed, and others go on."""
    with Daemon(program, NOFILE=16) as daemon:
        peers = [Peer(daemon) for _ in range(3)]
        for number, peer in enumerate(peers):
            peer.open(f"ex.com/m{number}")
        more = [Peer(daemon) for _ in range(30)]
        for number, peer in enumerate(peers):
            peer.edit(f"ex.com/m{number}", "a.go", "package a\n")
            peer.build()
        for peer in more:
            peer.close()
        with served_at_last(daemon) as late:
            late.open("ex.com/late")
        for peer in peers:
            peer.close()
        with served_at_last(daemon) as late:
            late.open("ex.com/later")
        print("descriptors: 16 of them, three sessions beside 30 connections that find none, and another behind these")


class Bounds:
    """What must hold of a part: what does not is told at its end."""

    def __init__(self):
        self.missed = []

    def want(self, holds, bound):
        if not holds:
            self.missed.append(f"FAILED: {bound}")

    def tell(self):
        if self.missed:
            raise SystemExit("\n".join(self.missed))


def timed(work, count):
    """The times of so many runs in milliseconds."""
    times = []
    for number in range(count):
        began = time.perf_counter()
        work(number)
        times.append((time.perf_counter() - began) * 1000)
    return times


def percentile(times, percent):
    """The least time which so many in a hundred are at most."""
    return sorted(times)[-(-len(times) * percent // 100) - 1]


def shown(times):
    return f"p50 {percentile(times, 50):.2f} ms, p99 {percentile(times, 99):.2f} ms"


def timed_edits(what, daemon, work, count):
    """The times of so many edits, which are told with what each took of the daemon's processor time, which other work on the machine changes least, and
    how much of that its busiest thread took: of one worker that is the core machine with what is compiled."""
    before = daemon.spent_by_threads()
    times = timed(work, count)
    spent = [(it - before.get(thread, 0)) / count for thread, it in daemon.spent_by_threads().items()]
    told = f"{sum(spent):.1f} ms of processor time each, {max(spent):.1f} of it in one thread"
    print(f"speed: {what} {shown(times)}, {told}; {daemon.resident():.0f} MB", flush=True)
    return times


def package_of_workspace(module, number):
    """A package of some 5 KB that uses up to 60 of those before it."""
    imported = range(max(0, number - 60), number)
    lines = [f"package p{number}\n\n", *(f'import "{module}/p{it}"\n' for it in imported), f"\nconst N = {number}\n\n"]
    lines += [f"func g{it}() int {{ return p{it}.N }}\n\n" for it in imported]
    lines += [
        f"// F{n} adds.\nfunc F{n}(a, b int) int {{\n\tc := a + b\n\tif c > {n} {{\n\t\treturn c - {n}\n\t}}\n\treturn c\n}}\n\n"
        for n in range(60 - len(imported) // 2)
    ]
    return "".join(lines)


def requests_of_module(module, packages):
    """The lines that open a module, edit all its packages and build it."""
    edits = [{"cmd": "edit", "path": f"{module}/p{it}", "file": "p.go", "text": package_of_workspace(module, it)} for it in range(packages)]
    asked = [{"cmd": "open", "module": module}, *edits, {"cmd": "build"}]
    return b"".join(json.dumps(it, separators=(",", ":")).encode() + b"\n" for it in asked)


def fill_module(peer, requests):
    """Sends the lines at once, and reads the reply to each."""
    peer.send(requests)
    replies = [json.loads(peer.line()) for _ in range(requests.count(b"\n"))]
    if not all("ok" in it for it in replies) or replies[-1]["ok"]["faults"]:
        raise SystemExit("a workspace without faults has some")


def fill_workspace(daemon, modules, packages):
    """All modules at once, each by a session of its own, whose lines are made beforehand: the connections, and the seconds until all are built."""
    peers, failures = [Peer(daemon, timeout=3600) for _ in range(modules)], Failures()
    requests = [requests_of_module(f"ex.com/m{number}", packages) for number in range(modules)]
    began = time.time()
    failures.join(failures.run(fill_module, [*zip(peers, requests)]))
    return peers, time.time() - began


def write_folders(folder, modules, packages):
    """The packages of the workspace, each in a folder of its own."""
    for module in range(modules):
        for place in range(packages):
            own = os.path.join(folder, f"m{module}", f"p{place}")
            os.makedirs(own)
            with open(os.path.join(own, "p.go"), "w", encoding="utf-8") as file:
                file.write(package_of_workspace(f"ex.com/m{module}", place))


def seconds_of_check(program, modules, packages):
    """The seconds of `govisd check` on the same packages in folders."""
    with tempfile.TemporaryDirectory() as folder:
        write_folders(folder, modules, packages)
        began = time.time()
        ended = subprocess.run([program, "check", folder, "--module", "ex.com"], capture_output=True, text=True, check=False)
        if ended.returncode:
            raise SystemExit(f"check: {ended.stdout[:200]}{ended.stderr[:200]}")
        return time.time() - began


def import_constant(peers, packages):
    """The last two packages of each module but the first import a constant of its last package, 60 in all where there are so many: how many do."""
    last, failures = packages - 1, Failures()
    peers[0].edit(f"ex.com/m0/p{last}", "q.go", f"package p{last}\n\nconst K = 0\n")
    peers[0].build()

    def import_in(peer, module):
        for number in (last - 1, last):
            peer.edit(f"ex.com/m{module}/p{number}", "q.go", f'package p{number}\n\nimport k "ex.com/m0/p{last}"\n\nfunc h() int {{ return k.K }}\n')
        if peer.build()["faults"]:
            raise SystemExit("an import of a constant has a fault")

    importing = [(peer, module) for module, peer in enumerate(peers)][1:31]
    failures.join(failures.run(import_in, importing))
    return 2 * len(importing)


def edit_bodies(daemon, peers, packages, bounds):
    """Edits of one body in the first module, as many as the events of a daemon allow."""
    peer, last = peers[0], packages - 1

    def body(number):
        peer.edit(f"ex.com/m0/p{last}", "q.go", f"package p{last}\n\nfunc h() int {{ return {number} }}\n")
        peer.build()

    # adds the file
    body(100)
    times = timed_edits("an edit of one body and its build", daemon, body, 10)
    times += timed_edits("the next 90", daemon, body, 90)
    is_quick = percentile(times, 50) <= 20 and percentile(times, 99) <= 40
    bounds.want(is_quick, f"an edit of one body and its build: p50 at most 20 ms, p99 at most 40 ms, and not {shown(times)}")


def edit_constants(daemon, peers, packages, bounds):
    """Edits of constants in the first module that others import, and questions while all other sessions ask."""
    peer, last = peers[0], packages - 1
    told = max(0, packages - 61)

    def constant(number):
        peer.edit(f"ex.com/m0/p{told}", "p.go", package_of_workspace("ex.com/m0", told).replace(f"const N = {told}", f"const N = {number}"))
        peer.build()

    def shown_constant(number):
        peer.edit(f"ex.com/m0/p{last}", "q.go", f"package p{last}\n\nconst K = {number + 1}\n")
        peer.build()

    timed_edits("an edit of a constant that 60 packages import, each of which imports those before it, and its build", daemon, constant, 20)
    importers = import_constant(peers, packages)
    timed_edits(f"the same of one that {importers} packages import, in pairs of which one imports the other", daemon, shown_constant, 60)
    complete_beside(peers, last, bounds)


def ask_complete(peer, question):
    """Asks what may stand at a place, which is some names."""
    reply = peer.ask(cmd="complete", **question)
    if not reply.get("ok", {}).get("names"):
        raise SystemExit(f"{question} is told {reply}")


def ask_on(peers, questions, begun, stop):
    """Each of the sessions asks its question until it is stopped, and pauses a millisecond behind each reply."""
    failures, all_told = Failures(), threading.Barrier(len(peers), begun.set)

    def goes_on(peer, question):
        ask_complete(peer, question)
        all_told.wait(60)
        while not stop.is_set():
            ask_complete(peer, question)
            time.sleep(0.001)

    failures.join(failures.run(goes_on, [*zip(peers, questions)]))


def complete_beside(peers, last, bounds):
    """Questions of the first session while all others ask too, in a process of their own: threads of this one would wait for one another."""
    questions = []
    for number in range(len(peers)):
        own = f"ex.com/m{number}"
        questions.append({"path": f"{own}/p{last}", "file": "p.go", "offset": package_of_workspace(own, last).index(".N") + 1})
    fork = multiprocessing.get_context("fork")
    begun, stop = fork.Event(), fork.Event()
    others = fork.Process(target=ask_on, args=(peers[1:], questions[1:], begun, stop))
    others.start()
    if not begun.wait(60):
        others.kill()
        raise SystemExit("the other sessions are not told")
    times = timed(lambda _: ask_complete(peers[0], questions[0]), 1000)
    stop.set()
    others.join()
    if others.exitcode:
        raise SystemExit("the other sessions failed")
    print(f"speed: complete beside {len(peers) - 1} sessions that ask {shown(times)}", flush=True)
    bounds.want(percentile(times, 99) <= 5, f"complete beside sessions that ask: p99 at most 5 ms, and not {shown(times)}")


def speed(program, modules=32, packages=128):
    """Edits in a large workspace: to the reply of the build. A daemon takes 1,048,576 events, two for each package of a batch."""
    bounds, check, took = Bounds(), seconds_of_check(program, modules, packages), {}
    print(f"speed: {modules * packages} packages: check {check:.1f} s", flush=True)
    for workers, edit in ((1, edit_bodies), (4, edit_bodies), (4, edit_constants)):
        with Daemon(program, workers=workers) as daemon:
            peers, took[workers] = fill_workspace(daemon, modules, packages)
            of_check, of_one = took[workers] / check, took[workers] / took[1]
            told = f"{took[workers]:.1f} s, {of_check:.2f} of check, {of_one:.2f} of one worker; {daemon.resident():.0f} MB"
            print(f"speed: {workers} workers: edits and builds {told}", flush=True)
            if workers == 1:
                bounds.want(of_check <= 1.2, f"edits and builds by one worker: at most 1.2 of check, and not {of_check:.2f}")
            else:
                bounds.want(of_one <= 0.4, f"edits and builds by {workers} workers: at most 0.4 of one worker, and not {of_one:.2f}")
            edit(daemon, peers, packages, bounds)
    bounds.tell()


def edit_last(peer, module, texts, number):
    """Edits a body in the last of the packages and builds it: whether the daemon takes so many events."""
    last = len(texts) - 1
    peer.edit(f"{module}/p{last}", "p.go", texts[last].replace("return c - 1\n", f"return c - {number + 2}\n"))
    reply = peer.ask(cmd="build")
    if reply != {"err": "H1"} and reply.get("ok", {}).get("faults") != []:
        raise SystemExit(f"the build of a package without faults is told {reply}")
    return reply != {"err": "H1"}


def build_all(peer, module, texts):
    """A module of packages with these texts."""
    peer.open(module)
    for number, text in enumerate(texts):
        peer.edit(f"{module}/p{number}", "p.go", text)
    if peer.build()["faults"]:
        raise SystemExit("packages without faults have some")


def memory_of_package(program, texts):
    """The MB that the last of the packages takes, told from 32 and from 64 of its kind beside the others."""
    taken, last = [], len(texts) - 1
    for count in (32, 64):
        more = [texts[last].replace(f"package p{last}\n", f"package p{last + it}\n") for it in range(1, count)]
        with Daemon(program) as daemon, Peer(daemon) as peer:
            build_all(peer, "ex.com/m", texts + more)
            taken.append(daemon.resident())
    return (taken[1] - taken[0]) / 32


def memory_in_few_packages(program, bounds):
    """What one of 1,000 batches keeps, each an edit of a body in one of ten packages, by what that package takes."""
    texts = [package_of_workspace("ex.com/m", number) for number in range(10)]
    package = memory_of_package(program, texts)
    with Daemon(program) as daemon, Peer(daemon) as peer:
        build_all(peer, "ex.com/m", texts)
        taken = [daemon.resident() for number in range(1000) if edit_last(peer, "ex.com/m", texts, number)]
    if len(taken) < 1000:
        raise SystemExit(f"{len(taken)} batches of ten packages, and then H1")
    batch = (taken[-1] - taken[9]) / 990
    told = f"a batch keeps {batch * 1024:.1f} KB, {batch / package:.2f} of the {package * 1024:.1f} KB of a package"
    print(f"memory_of_batches: 1,000 edits of a body in 10 packages: {told}; {taken[9]:.1f} MB after 10, {taken[-1]:.1f} after all", flush=True)
    bounds.want(batch < 3 * package, f"what a batch of ten packages keeps: less than three packages take, and not {batch / package:.2f}")


def memory_in_many_packages(program, modules, packages, bounds):
    """What a large workspace takes after 100 batches of one edit, or as many as the events of a daemon allow, by what it took after ten."""
    texts, taken = [package_of_workspace("ex.com/m0", number) for number in range(packages)], []
    with Daemon(program, workers=4) as daemon:
        peers, _ = fill_workspace(daemon, modules, packages)
        while len(taken) < 100 and edit_last(peers[0], "ex.com/m0", texts, len(taken)):
            taken.append(daemon.resident())
    grown = taken[-1] / taken[9]
    told = f"{taken[9]:.0f} MB after 10, {taken[-1]:.0f} after all, {grown:.2f} times as much"
    print(f"memory_of_batches: {len(taken)} edits of a body in {modules * packages} packages: {told}", flush=True)
    bounds.want(grown <= 1.5, f"the memory of a large workspace after all batches: at most 1.5 times that after ten, and not {grown:.2f}")


def memory_of_batches(program, modules=32, packages=128):
    """What batches of one edit of a body keep."""
    bounds = Bounds()
    memory_in_few_packages(program, bounds)
    memory_in_many_packages(program, modules, packages, bounds)
    bounds.tell()


PARTS = {it.__name__: it for it in (rows, crowd, hostile, memory, starved, memory_of_batches, deep, descriptors, speed)}


def main():
    parser = argparse.ArgumentParser()
    parser.add_argument("program", type=os.path.abspath)
    parser.add_argument("parts", nargs="*", metavar="part", help=", ".join(PARTS))
    parser.add_argument("--seconds", type=int, default=60)
    parser.add_argument("--modules", type=int, default=32)
    parser.add_argument("--packages", type=int, default=128)
    given = parser.parse_intermixed_args()
    workspace = [given.modules, given.packages]
    told = {"crowd": [given.seconds], "speed": workspace, "memory_of_batches": workspace}
    for part in given.parts or PARTS:
        PARTS[part](given.program, *told.get(part, []))


if __name__ == "__main__":
    main()
