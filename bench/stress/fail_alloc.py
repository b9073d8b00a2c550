#!/usr/bin/env python3
"""Makes allocations of a running daemon fail, and compares what it replies:

    python3 bench/stress/fail_alloc.py FAIL.so PROGRAM [--every N] [--workers N] (script FILE.. | serve)

FAIL.so is `fail_alloc.c`, built by `cc -shared`. With `script` each file has the lines of sessions. For each line and each number, one process serves the
lines before it, then this line while the allocation of that number is refused, then the others: the reply must be the right one, or M0, or none, with a
message and status 1. Behind M0 the line is sent again, and must have the right reply; or it is left out, and all others must be replied to as in a script
that does not have it. Of a build it is asked first what is published: either nothing more than before, or the build. Then each build is served
again with all allocations of the workers refused, from each number on: behind M0 nothing more is published, and the next build has the number that this
one would have had. With `serve` one daemon is asked over sockets, with another connection that must be answered right throughout, and connections are cut
while every allocation is refused: the module can be opened again. With `--every` one number of so many is tried.
"""
import concurrent.futures
import json
import mmap
import os
import re
import select
import socket
import struct
import subprocess
import sys
import tempfile
import time

EVERY_THREAD, FIRST_THREAD, OTHER_THREADS = range(3)
ALL = (1 << 64) - 1
MESSAGES = {b"govisd: " + it for it in (b"memory or threads ran out\n", b"memory ran out\n", b"the command line cannot be read: out of memory\n")}


class Wrong(Exception):
    """A reply that is neither the right one nor a refusal for want of memory."""


class Control:
    """What `fail_alloc.c` maps: which allocations are refused, and how many were asked for."""

    def __init__(self, folder):
        self.path = os.path.join(folder, "control")
        with open(self.path, "wb") as file:
            file.write(bytes(mmap.PAGESIZE))
        with open(self.path, "r+b") as file:
            self.map = mmap.mmap(file.fileno(), mmap.PAGESIZE)

    def word(self, number):
        return struct.unpack_from("<Q", self.map, 8 * number)[0]

    def reset(self):
        struct.pack_into("<5Q", self.map, 0, 0, 0, 0, 0, EVERY_THREAD)

    def refused(self):
        return self.word(1)

    def refuse(self, number, last=None, threads=EVERY_THREAD):
        """Refuses the allocation of a number from now on, or all up to the last one, of these threads; how many were refused is counted anew."""
        struct.pack_into("<Q", self.map, 8 * 4, threads)
        first = self.word(0) + number
        struct.pack_into("<3Q", self.map, 8, 0, first, first if last is None else last)

    def grant(self):
        struct.pack_into("<2Q", self.map, 8 * 2, 0, 0)


class Script:
    """A `govisd script` that is asked line by line."""

    def __init__(self, setting):
        setting.control.reset()
        self.process = subprocess.Popen(
            [setting.program, "script", "--workers", str(setting.workers)],
            stdin=subprocess.PIPE, stdout=subprocess.PIPE, stderr=subprocess.PIPE, env=setting.environment, bufsize=0)
        self.begun = b""

    def __enter__(self):
        return self

    def __exit__(self, *_):
        self.process.kill()
        self.process.wait()
        for pipe in (self.process.stdin, self.process.stdout, self.process.stderr):
            pipe.close()

    def send(self, line):
        try:
            self.process.stdin.write(line + b"\n")
        except BrokenPipeError:
            pass

    def reply(self, seconds=60):
        """The next line; an empty one where the output ended; None where nothing came in so many seconds."""
        while b"\n" not in self.begun:
            if not select.select([self.process.stdout], [], [], seconds)[0]:
                return None
            part = self.process.stdout.read(1 << 20)
            if not part:
                return b""
            self.begun += part
        line, self.begun = self.begun.split(b"\n", 1)
        return line

    def ask_all(self, lines):
        """The replies to lines that are sent at once: they are short, so that no pipe is full before they are read."""
        self.send(b"\n".join(lines))
        return [self.reply() for _ in lines]

    def ends_for_memory(self):
        self.process.stdin.close()
        message = self.process.stderr.read()
        return self.process.wait() == 1 and message in MESSAGES


class Setting:
    """What is run, and how."""

    def __init__(self, library, program, workers, control):
        self.program = program
        self.workers = workers
        self.control = control
        self.environment = {**os.environ, "LD_PRELOAD": library, "FAIL_ALLOC_CONTROL": control.path}

    def replies(self, lines):
        """The replies to lines with nothing refused."""
        with Script(self) as script:
            return script.ask_all(lines)


def session_of_line(line):
    """The number of the session of a line that is a request as these scripts write them, and else none."""
    found = re.search(rb'"s":(\d+)[,}]', line)
    return int(found.group(1)) if found else None


def is_build(line):
    return b'"cmd":"build"' in line and session_of_line(line) is not None


def memory_refusal(line):
    """The reply that refuses a request for want of memory."""
    number = session_of_line(line)
    return None if number is None else b'{"err":"M0","s":%d}' % number


class Case:
    """A line of a script, with what must be replied where it is served, left out, or published."""

    def __init__(self, setting, lines, at):
        self.setting = setting
        self.lines = lines
        self.at = at
        self.right = setting.replies(lines)
        self.ways = self.find_ways()

    def find_ways(self):
        """Behind M0, each list of lines that may be sent then, with each list of replies that may come."""
        lines, at = self.lines, self.at
        if is_build(lines[at]):
            number = session_of_line(lines[at])
            opened = [it for it in lines[:at] if b'"cmd":"open"' in it and session_of_line(it) == number]
            module = json.loads(opened[-1])["module"] if opened else "none"
            asked = b'{"cmd":"list","from":"%s","s":%d}' % (module.encode(), number)
            given_back = self.setting.replies(lines[:at] + [asked] + lines[at:])[at:]
            published = self.setting.replies(lines[: at + 1] + [asked] + lines[at:])[at + 1 :]
            return [([asked] + lines[at:], [given_back, published])]
        left_out = self.setting.replies(lines[:at] + lines[at + 1 :])[at:]
        return [(lines[at:], [self.right[at:]]), (lines[at + 1 :], [left_out])]

    def follow(self, script, way, what):
        """Sends what stands behind the line, and compares the replies."""
        lines, wanted = way
        told = script.ask_all(lines) if lines else []
        if told not in wanted:
            told = b"\n".join(it or b"" for it in told)
            raise Wrong(f"{what}: behind or before it is told\n{told.decode()}")

    def run(self, number, way, **refused):
        """Serves the line with refusals from a number on: None where none came about, or what came of it: right, refused or ended."""
        control, line = self.setting.control, self.lines[self.at]
        what = f"line {self.at + 1} {line[:60]}, allocation {number}"
        with Script(self.setting) as script:
            if self.at:
                self.follow(script, (self.lines[: self.at], [self.right[: self.at]]), what)
            control.refuse(number, **refused)
            script.send(line)
            reply = self.served(script)
            control.grant()
            came = self.judge(script, reply, way, what)
            return came if control.refused() else None

    def served(self, script):
        """The reply. Where it does not come, since a worker waits for memory before it takes a batch, memory is granted."""
        for _ in range(3000):
            reply = script.reply(0.02)
            if reply is not None:
                return reply
            if self.setting.control.refused():
                self.setting.control.grant()
        return None

    def judge(self, script, reply, way, what):
        if reply == b"" and script.ends_for_memory():
            return "ended"  # before the first line also while the program starts
        if reply == self.right[self.at]:
            self.follow(script, (self.lines[self.at + 1 :], [self.right[self.at + 1 :]]), what)
            return "right"
        if reply != memory_refusal(self.lines[self.at]):
            raise Wrong(f"{what}: it is told {reply}")
        self.follow(script, way, what)
        return "refused"


def try_numbers(case, way, every, counts, **refused):
    """Tries one number of so many, until none is refused."""
    number = 1
    while came := case.run(number, way, **refused):
        counts[came] += 1
        number += every


def try_line(words, lines, at, every):
    """What came of the refusals while a line was served."""
    single, of_workers = ({"right": 0, "refused": 0, "ended": 0} for _ in range(2))
    with tempfile.TemporaryDirectory() as folder:
        case = Case(Setting(*words, Control(folder)), lines, at)
        for way in case.ways:
            try_numbers(case, way, every, single)
        if is_build(lines[at]):
            asked, (given_back, _) = case.ways[0]
            try_numbers(case, (asked, [given_back]), every, of_workers, last=ALL, threads=OTHER_THREADS)
    return single, of_workers


def run_scripts(words, files, every):
    for file in files:
        with open(file, "rb") as source:
            lines = [line for line in source.read().split(b"\n") if line.strip()]
        with concurrent.futures.ThreadPoolExecutor(8) as pool:
            came = list(pool.map(lambda at: try_line(words, lines, at, every), range(len(lines))))
        single, of_workers = ({key: sum(it[kind][key] for it in came) for key in came[0][kind]} for kind in range(2))
        print(f"{os.path.basename(file)}, {words[2]} workers: one allocation refused {single}; all of the workers from one on {of_workers}", flush=True)


class Peer:
    """A connection whose requests are lines; it may end at any time."""

    def __init__(self, daemon):
        self.socket = socket.create_connection(("127.0.0.1", daemon.port), timeout=60)
        self.file = self.socket.makefile("rb")

    def close(self):
        self.file.close()
        self.socket.close()

    def send(self, request):
        self.socket.sendall(json.dumps(request, separators=(",", ":")).encode() + b"\n")

    def ask(self, request):
        """What is replied without the number of batches, or None where the connection ended."""
        try:
            self.send(request)
            line = self.file.readline()
        except ConnectionError:
            return None
        reply = json.loads(line) if line else None
        if reply and "ok" in reply:
            reply["ok"].pop("batch", None)
        return reply


class Daemon:
    """A daemon with one session that is not disturbed, and one that is."""

    def __init__(self, setting):
        self.control = setting.control
        self.control.reset()
        words = [setting.program, "serve", "--listen", "127.0.0.1:0", "--workers", str(setting.workers)]
        self.process = subprocess.Popen(words, stderr=subprocess.PIPE, env=setting.environment)
        self.port = int(self.process.stderr.readline().rsplit(b":", 1)[1])
        self.good = Peer(self)
        for request, right in session_of("ex.com/good", [])[:-1]:
            self.want(self.good, request, right)
        _, (_, listed), _ = session_of("ex.com/good", [])[-3:]
        self.requests = session_of("ex.com/more", [listed["ok"]["self"]])

    def __enter__(self):
        return self

    def __exit__(self, *_):
        self.process.kill()
        self.process.wait()

    def want(self, peer, request, right):
        told = peer.ask(request)
        if told != right:
            raise Wrong(f"{request} is told {told}")

    def begin(self):
        """A connection that has opened the module, which one that just ended may hold for a moment."""
        request, right = self.requests[0]
        for _ in range(1000):
            peer = Peer(self)
            told = peer.ask(request)
            if told == right:
                return peer
            peer.close()
            if told not in (None, {"err": "M0"}, {"err": "O1"}):
                raise Wrong(f"{request} is told {told}")
            time.sleep(0.005)
        raise Wrong("a module stays held")

    def disturb(self, number, counts):
        """Makes the requests while the allocation of a number is refused, each again where it is told M0, and all where the connection ends."""
        self.control.refuse(number)
        peer, at = self.begin(), 1
        while at < len(self.requests):
            request, right = self.requests[at]
            told = peer.ask(request)
            if told == right:
                at += 1
            elif told == {"err": "M0"}:
                counts["refused"] += 1
            elif told is None:
                counts["ended"] += 1
                peer, at = self.begin(), 1
            else:
                raise Wrong(f"allocation {number}: {request} is told {told}")
        self.control.grant()
        peer.close()

    def cut(self, number):
        """Cuts a connection in its build while every allocation from a number on is refused: the module can be opened again."""
        peer = self.begin()
        self.want(peer, *self.requests[1])
        self.control.refuse(number, last=ALL)
        peer.send(self.requests[2][0])
        for _ in range(500):
            if not self.control.refused():
                time.sleep(0.002)
        peer.close()
        Peer(self).close()
        time.sleep(0.01)
        refused = self.control.refused()
        self.control.grant()
        self.begin().close()
        return refused

    def check(self):
        """The session that was not disturbed is answered right."""
        _, define, complete = session_of("ex.com/good", [])[2:5]
        self.want(self.good, *define)
        self.want(self.good, *complete)


def session_of(module, importable):
    """A session's requests, each with what must be replied, but for the number of batches."""
    text = "package a\n\n// V is one.\nconst V = 1\n\nfunc f() int { return V + wrong }\n"
    place = {"path": module, "file": "a.go", "offset": text.index("V + ")}
    entry = {"Deps": [], "GoFiles": ["a.go"], "ImportPath": module, "Imports": [], "Name": "a"}
    symbols = [{"doc": "// V is one.", "kind": "const", "name": "V"}, {"doc": "", "kind": "func", "name": "f"}]
    rights = [
        ({"cmd": "open", "module": module}, {"module": module}),
        ({"cmd": "edit", "path": module, "file": "a.go", "text": text}, {}),
        ({"cmd": "build"}, {"faults": [{"at": f"{module}/a.go:{text.index('wrong')}", "rule": "N1"}]}),
        ({"cmd": "define", **place}, {"decl": f"{module}/a.go:{text.index('V = 1')}"}),
        ({"cmd": "complete", **place}, {"names": ["V", "false", "nil", "true"]}),
        ({"cmd": "doc", "from": module, "path": module}, {"name": "a", "path": module, "symbols": symbols}),
        ({"cmd": "list", "from": module}, {"importable": importable, "self": entry}),
        ({"cmd": "close"}, {}),
    ]
    return [(request, {"ok": right}) for request, right in rights]


def run_serve(words, every):
    counts = {"refused": 0, "ended": 0}
    with tempfile.TemporaryDirectory() as folder, Daemon(Setting(*words, Control(folder))) as daemon:
        number, tried = 1, 0
        while True:
            daemon.disturb(number, counts)
            daemon.check()
            if not daemon.control.refused():
                break
            number, tried = number + every, tried + 1
        number, cut = 1, 0
        while daemon.cut(number):
            daemon.check()
            number, cut = number + every, cut + 1
    print(f"serve, {words[2]} workers: one allocation refused {tried} times {counts}; {cut} connections cut while all from one on are refused")


def main(words):
    library, program, *words = words
    every, workers = 1, 1
    while words[0] in ("--every", "--workers"):
        if words[0] == "--every":
            every = int(words[1])
        else:
            workers = int(words[1])
        words = words[2:]
    kind, *files = words
    setting = os.path.abspath(library), os.path.abspath(program), workers
    try:
        if kind == "script":
            run_scripts(setting, files, every)
        else:
            run_serve(setting, every)
    except Wrong as error:
        raise SystemExit(f"WRONG: {error}") from error


if __name__ == "__main__":
    main(sys.argv[1:])
