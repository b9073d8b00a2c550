#!/usr/bin/env python3
"""Tries what a daemon owes to whoever runs it as a service:

    python3 bench/serving/service.py PROGRAM [PART]..

Each part starts `PROGRAM serve` on the loopback address, says what it saw, and ends with an error where something is otherwise, or takes longer than its
bound. `addresses` are words behind `--listen`, good and bad; `closed` the listener of `--connections`; `idle` peers that send nothing; `stalled` one that
reads nothing; `last_lines` what a peer is told at its end, with more sent than is read; `input_ends` the end of standard input; `accepts` errors of
accept(2), made by `bench/serving/fail_accept.c`; `modules`, `memory` and `history` what standard error tells once of O4, M0 and H1. `history` takes some minutes.
"""
import argparse
import contextlib
import os
import re
import shutil
import socket
import subprocess
import sys
import tempfile
import threading
import time

from serving import Daemon, Peer, large_edit

HERE = os.path.dirname(os.path.abspath(__file__))


def fail(text):
    raise SystemExit(f"FAILED: {text}")


def wait_for(holds, seconds, what):
    """The seconds until something holds; an error where that takes too long."""
    began = time.monotonic()
    while not holds():
        if time.monotonic() - began > seconds:
            fail(f"{what}: not within {seconds} s")
        time.sleep(0.05)
    return time.monotonic() - began


def ended(daemon, seconds, status=0):
    """What a daemon said that ends by itself."""
    try:
        found = daemon.process.wait(timeout=seconds)
    except subprocess.TimeoutExpired:
        fail(f"the daemon has not ended in {seconds} s")
    said = daemon.process.stderr.read()
    if found != status:
        fail(f"the daemon ended with {found} and not {status}: {said!r}")
    return said


def is_gone(peer):
    """Whether a connection is closed, without waiting long."""
    peer.socket.settimeout(0.05)
    try:
        return peer.socket.recv(1, socket.MSG_PEEK) == b""
    except TimeoutError:
        return False
    except ConnectionError:
        return True
    finally:
        peer.socket.settimeout(60)


def opens(daemon, module):
    """Whether a new connection may open a module. It is closed behind that."""
    with Peer(daemon, timeout=20) as peer:
        try:
            return "ok" in peer.ask(cmd="open", module=module)
        except (EOFError, ConnectionError):
            return False


def addresses(program):
    """Bad addresses are status 2 and named, others that cannot be had status 1; a port alone is every address."""
    for word in ("nonsense", "127.0.0.1", "127.0.0.1:65536", "127.0.0.1:http", "127.0.0.1:", ":", ":70000", "[::1]", "[::1:7000", "::1:7000", "1:2:3"):
        run = subprocess.run([program, "serve", "--listen", word], stderr=subprocess.PIPE, text=True, timeout=10, check=False)
        said = f"govisd: {word} is no address with a port, as 127.0.0.1:7000 or :7000\ngovisd: the command line is refused\n"
        if (run.returncode, run.stderr) != (2, said):
            fail(f"--listen {word}: {run.returncode}, {run.stderr!r}")
    run = subprocess.run([program, "serve", "--listen", "203.0.113.1:0"], stderr=subprocess.PIPE, text=True, timeout=10, check=False)
    if run.returncode != 1 or not run.stderr.startswith("govisd: 203.0.113.1:0 cannot be listened on: "):
        fail(f"an address of others: {run.returncode}, {run.stderr!r}")
    process = subprocess.Popen([program, "serve", "--listen", ":0", "--connections", "1"], stderr=subprocess.PIPE, text=True)
    try:
        line = process.stderr.readline()
        found = re.fullmatch(r"govisd: listening on (?:\[::\]|0\.0\.0\.0):(\d+)\n", line)
        if not found or "no loopback address" not in process.stderr.readline():
            fail(f"a port alone: {line!r}")
        socket.create_connection(("127.0.0.1", int(found.group(1))), timeout=5).close()
        if process.wait(timeout=10):
            fail("a port alone: the daemon failed")
    finally:
        process.kill()
        process.wait()
    print("addresses: 11 bad words are status 2, an address of others 1, and a port alone is reached by 127.0.0.1")


def closed(program):
    """Behind the last connection the listener is closed, while those before it are served."""
    with Daemon(program, connections=2) as daemon:
        first, second = Peer(daemon), Peer(daemon)
        first.open("ex.com/a")
        second.open("ex.com/b")

        def is_refused():
            try:
                Peer(daemon, timeout=2).close()
            except ConnectionRefusedError:
                return True
            return False

        wait_for(is_refused, 2, "a connection behind the last is refused")
        first.edit("ex.com/a", "a.go", "package a\n")
        first.build()
        first.close()
        second.close()
        ended(daemon, 10)
        print("closed: a third connection is refused at once, two go on, and the daemon ended with 0")


def idle(program):
    """Peers that send nothing are closed, and make room; one that goes on asking stays, and then its module is free."""
    with Daemon(program, more=["--idle", "4"]) as daemon:
        busy = Peer(daemon)
        busy.open("ex.com/a")
        silent = [Peer(daemon) for _ in range(31)]
        began = time.monotonic()
        while time.monotonic() - began < 2:
            busy.want({"err": "O1"}, cmd="open", module="ex.com/a")
            if any(is_gone(it) for it in silent[:2]):
                fail("a silent peer is closed too early")
            time.sleep(0.5)

        def all_gone():
            busy.want({"err": "O1"}, cmd="open", module="ex.com/a")
            return all(is_gone(it) for it in silent)

        seconds = 2 + wait_for(all_gone, 10, "31 silent peers are closed")
        if opens(daemon, "ex.com/a"):
            fail("a peer that goes on asking has lost its module")
        later = wait_for(lambda: opens(daemon, "ex.com/a"), 15, "the module of a peer that asks no more is free")
        print(f"idle: with --idle 4, 31 silent peers are closed after {seconds:.1f} s, and one that asked is closed {later:.1f} s later")


def stalled(program):
    """A peer that reads nothing of its replies is closed."""
    with Daemon(program, more=["--stall", "3"]) as daemon:
        peer = socket.socket()
        peer.setsockopt(socket.SOL_SOCKET, socket.SO_RCVBUF, 4096)
        peer.settimeout(30)
        peer.connect(("127.0.0.1", daemon.port))
        peer.sendall(b'{"cmd":"open","module":"ex.com/a"}\n')

        def flood():
            with contextlib.suppress(OSError):
                for _ in range(400):
                    peer.sendall(b"{}\n" * 10000)

        sender = threading.Thread(target=flood, daemon=True)
        sender.start()
        time.sleep(1)
        if opens(daemon, "ex.com/a"):
            fail("the module of a peer that reads nothing is free at once")
        seconds = wait_for(lambda: opens(daemon, "ex.com/a"), 40, "a peer that reads nothing is closed")
        print(f"stalled: with --stall 3, a peer that reads nothing of millions of replies is closed after {seconds:.1f} s")


def last_lines(program):
    """The last line arrives, though more was sent than is read: V1 behind a line that is too long, and O4 in a full house."""
    with Daemon(program) as daemon:
        for _ in range(10):
            with Peer(daemon, timeout=20) as peer:
                with contextlib.suppress(ConnectionError):
                    peer.send(b"x" * 4_000_000)
                if peer.line() != b'{"err":"V1"}\n':
                    fail("a line that is too long: V1 does not arrive")
        wait_for(lambda: opens(daemon, "ex.com/x"), 5, "a place is free")
        full = [Peer(daemon) for _ in range(32)]
        for number, peer in enumerate(full):
            peer.open(f"ex.com/m{number}")
        for _ in range(20):
            with Peer(daemon, timeout=20) as peer:
                with contextlib.suppress(ConnectionError):
                    peer.send(b'{"cmd":"open","module":"ex.com/late"}\n' * 1000)
                if (peer.line(), peer.line()) != (b'{"err":"O4"}\n', b""):
                    fail("a peer that is turned away: O4 and the end do not arrive")
        print("last_lines: V1 arrives 10 times behind 4 MB, and O4 20 times in a full house")


def input_ends(program):
    """The daemon ends with its input, in order, and not by it alone."""
    with Daemon(program, more=["--until-input-ends"], stdin=subprocess.PIPE) as daemon:
        waiting, asking = Peer(daemon), Peer(daemon)
        waiting.open("ex.com/a")
        asking.open("ex.com/b")
        waiting.send(b'{"cmd":')
        daemon.process.stdin.write("what comes is not read for anything\n")
        daemon.process.stdin.flush()
        time.sleep(2.5)
        asking.want({"err": "O1"}, cmd="open", module="ex.com/b")
        daemon.process.stdin.close()
        began = time.monotonic()
        ended(daemon, 5)
        seconds = time.monotonic() - began
        if waiting.line() or asking.line():
            fail("a peer is told something at the end of the input")
    with Daemon(program, connections=1, more=["--until-input-ends"], stdin=subprocess.PIPE) as daemon:
        Peer(daemon).close()
        ended(daemon, 5)
    with Daemon(program, more=["--until-input-ends"], stdin=subprocess.DEVNULL) as daemon:
        ended(daemon, 5)
    print(f"input_ends: two sessions end, and the daemon with 0, {seconds:.1f} s behind its input; another ends with its last connection")


def made_failing(folder):
    """The library of `fail_accept.c`."""
    library = f"{folder}/fail_accept.so"
    compiler = next((it for it in ("cc", "gcc", "clang") if shutil.which(it)), None)
    if not compiler:
        return None
    subprocess.run([compiler, "-shared", "-fPIC", "-O1", "-o", library, f"{HERE}/fail_accept.c", "-ldl"], check=True)
    return library


def accepts(program):
    """Errors of accept(2) that pass do not end the daemon, and others do."""
    passing = (1, 4, 11, 12, 23, 24, 63, 64, 71, 92, 93, 94, 95, 100, 101, 103, 104, 105, 110, 112, 113)
    with tempfile.TemporaryDirectory() as folder:
        library = made_failing(folder)
        if not library:
            print("accepts: there is no C compiler, so nothing was tried")
            return
        os.environ["LD_PRELOAD"] = library
        try:
            for number in passing:
                os.environ["FAIL_ACCEPT"] = f"{number} 3"
                with Daemon(program, connections=1) as daemon:
                    began = time.monotonic()
                    with Peer(daemon, timeout=5) as peer:
                        peer.open("ex.com/a")
                    if time.monotonic() - began > 2:
                        fail(f"an accept that fails three times by {number} holds up others")
                    ended(daemon, 5)
            for number in (9, 22, 88):
                os.environ["FAIL_ACCEPT"] = f"{number} 3"
                with Daemon(program) as daemon:
                    with contextlib.suppress(ConnectionError, OSError):
                        Peer(daemon, timeout=5).close()
                    if ended(daemon, 5, status=1) != "govisd: a connection cannot be accepted\n":
                        fail(f"an accept that fails by {number}")
        finally:
            del os.environ["LD_PRELOAD"], os.environ["FAIL_ACCEPT"]
    print(f"accepts: {len(passing)} errors pass, three times each, and EBADF, EINVAL and ENOTSOCK end the daemon with 1")


def told(daemon, rule):
    """How often a rule stands in what a daemon said until it was killed."""
    daemon.process.kill()
    return sum(line.startswith(f"govisd: {rule}: ") for line in daemon.process.stderr.read().splitlines())


def once(daemon, rule):
    count = told(daemon, rule)
    if count != 1:
        fail(f"standard error tells {rule} {count} times")


def modules(program):
    """O4 by modules that nobody holds is told once."""
    with Daemon(program) as daemon:
        with Peer(daemon) as peer:
            for number in range(32):
                peer.open(f"ex.com/m{number}")
                peer.build()
                peer.want({"ok": {}}, cmd="close")
            for number in range(3):
                peer.want({"err": "O4"}, cmd="open", module=f"ex.com/n{number}")
        once(daemon, "O4")
    with Daemon(program) as daemon:
        full = [Peer(daemon) for _ in range(32)]
        for number, peer in enumerate(full):
            peer.open(f"ex.com/m{number}")
        with Peer(daemon, timeout=20) as peer:
            if peer.line() != b'{"err":"O4"}\n':
                fail("a full house is not O4")
        if told(daemon, "O4"):
            fail("a full house is told as modules that nobody holds")
    print("modules: O4 is told once where 32 modules are taken and nobody holds them, and not where 32 sessions are open")


def memory(program):
    """M0 of a build is told once."""
    with Daemon(program) as daemon:
        peers, refused = [Peer(daemon) for _ in range(4)], 0
        for number, peer in enumerate(peers):
            peer.open(f"ex.com/m{number}")
        for turn in range(8):
            for number, peer in enumerate(peers):
                peer.edit(f"ex.com/m{number}", "a.go", large_edit(turn)["text"].replace("package p", f"package m{number}"))
            daemon.refuse_memory(True)
            refused += sum(peer.ask(cmd="build") == {"err": "M0"} for peer in peers)
            daemon.refuse_memory(False)
            if refused > 1:
                break
        if refused < 2:
            fail(f"{refused} builds without memory are refused")
        once(daemon, "M0")
        print(f"memory: {refused} builds are refused, and M0 is told once")


def history(program, packages=128):
    """H1 is told once, where the history is full."""
    with Daemon(program) as daemon, Peer(daemon) as peer:
        peer.open("ex.com/a")
        for number in range(packages):
            peer.edit(f"ex.com/a/p{number}", "a.go", f"package p{number}\n")
        builds = 0
        while "ok" in (reply := peer.ask(cmd="build")):
            builds += 1
        if reply != {"err": "H1"} or peer.ask(cmd="build") != {"err": "H1"}:
            fail(f"behind {builds} builds one is told {reply}")
        once(daemon, "H1")
        print(f"history: full behind {builds} builds of {packages} packages, and H1 is told once")


PARTS = {it.__name__: it for it in (addresses, closed, idle, stalled, last_lines, input_ends, accepts, modules, memory, history)}


def main():
    parser = argparse.ArgumentParser(description=__doc__, formatter_class=argparse.RawDescriptionHelpFormatter)
    parser.add_argument("program")
    parser.add_argument("parts", nargs="*", choices=[[], *PARTS], metavar="PART")
    words = parser.parse_args()
    sys.stdout.reconfigure(line_buffering=True)
    for name in words.parts or [it for it in PARTS if it != "history"]:
        PARTS[name](os.path.abspath(words.program))


if __name__ == "__main__":
    main()
