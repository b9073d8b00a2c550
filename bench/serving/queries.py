#!/usr/bin/env python3
"""Times what sessions ask of a large workspace, beside gopls:

    python3 bench/serving/queries.py PROGRAM [--modules N] [--packages N] [--asked N] [--peer gopls]

The workspace is the one of serving.py's `speed`: 32 modules of 128 packages of some 5 KB with up to 60 imports, unless told. Of the first 200 packages, unless
told, every identifier is asked for by `complete` and `define`, each package's import by `doc`, with and without a type, and each module by `list`. Then an
edit of one body, and of a constant that 60 packages import, each with its build. With `--peer` a language server is asked for completions behind packages on
the same files, and told of edits of one body, until it tells the file's diagnostics.
"""
import argparse
import json
import os
import re
import resource
import shutil
import subprocess
import tempfile
import threading
import time

from serving import Daemon, fill_workspace, package_of_workspace, write_folders

IDENTIFIER = re.compile(r'//[^\n]*|"[^"]*"|([A-Za-z_]\w*)')
KEYWORDS = set("break case chan const continue default defer else fallthrough for func go goto if import interface map package range return select struct switch type var".split())


class Times:
    """Times in milliseconds."""

    def __init__(self, name):
        self.name, self.all = name, []

    def take(self, work):
        began = time.perf_counter()
        answer = work()
        self.all.append((time.perf_counter() - began) * 1000)
        return answer

    def tell(self):
        found = sorted(self.all)
        at = lambda part: found[min(len(found) - 1, int(len(found) * part))]
        print(f"{self.name}: {len(found)}, p50 {at(0.5):.2f} ms, p99 {at(0.99):.2f} ms, most {found[-1]:.2f} ms", flush=True)


def identifiers(text):
    """The offsets of the identifiers behind the package clause and the imports."""
    start = text.index("\nconst N")
    return [it.start() for it in IDENTIFIER.finditer(text, start) if it.group(1) and it.group(1) not in KEYWORDS]


def ask_all(peers, asked, packages):
    complete, define, doc, listing = Times("complete"), Times("define"), Times("doc"), Times("list")
    names = refused = 0
    for number in range(asked):
        peer, module, place = peers[number // packages], f"ex.com/m{number // packages}", number % packages
        path, text = f"{module}/p{place}", package_of_workspace(module, place)
        for offset in identifiers(text):
            reply = complete.take(lambda: peer.ask(cmd="complete", path=path, file="p.go", offset=offset))
            names, refused = names + len(reply.get("ok", {}).get("names", ())), refused + ("err" in reply)
            define.take(lambda: peer.ask(cmd="define", path=path, file="p.go", offset=offset))
        for other in range(max(0, place - 60), place):
            doc.take(lambda: peer.ask(cmd="doc", **{"from": path}, path=f"{module}/p{other}"))
    for number, peer in enumerate(peers):
        reply = listing.take(lambda: peer.ask(cmd="list", **{"from": f"ex.com/m{number}/p0"}))
        shown = len(reply.get("ok", {}).get("importable", ()))
    for it in (complete, define, doc, listing):
        if it.all:
            it.tell()
    print(f"names in all {names}; identifiers that declare, or are none, {refused}; packages listed {shown}", flush=True)


def edit_all(peer, packages):
    last, told = packages - 1, max(0, packages - 61)
    body, constant = Times("an edit of one body and its build"), Times("an edit of a constant that 60 packages import, and its build")
    for number in range(40):
        body.take(lambda: (peer.edit(f"ex.com/m0/p{last}", "q.go", f"package p{last}\n\nfunc h() int {{ return {number} }}\n"), peer.build()))
    text = package_of_workspace("ex.com/m0", told)
    for number in range(20):
        changed = text.replace(f"const N = {told}", f"const N = {1000 + number}")
        constant.take(lambda: (peer.edit(f"ex.com/m0/p{told}", "p.go", changed), peer.build()))
    body.tell()
    constant.tell()


class Server:
    """A language server over its standard input and output."""

    def __init__(self, program, folder):
        self.process = subprocess.Popen([program], cwd=folder, stdin=subprocess.PIPE, stdout=subprocess.PIPE, stderr=subprocess.DEVNULL)
        self.number, self.answers, self.told, self.change = 0, {}, [], threading.Condition()
        threading.Thread(target=self.read, daemon=True).start()

    def send(self, **message):
        data = json.dumps({"jsonrpc": "2.0", **message}).encode()
        self.process.stdin.write(b"Content-Length: %d\r\n\r\n" % len(data) + data)
        self.process.stdin.flush()

    def read(self):
        while True:
            length = 0
            for line in iter(self.process.stdout.readline, b"\r\n"):
                if not line:
                    return
                if line.lower().startswith(b"content-length:"):
                    length = int(line.split(b":")[1])
            message = json.loads(self.process.stdout.read(length))
            if "method" in message and "id" in message:
                wanted = message.get("params", {}).get("items", ())
                self.send(id=message["id"], result=[None] * len(wanted) if wanted else None)
            with self.change:
                if "method" not in message:
                    self.answers[message["id"]] = message
                elif message["method"] == "textDocument/publishDiagnostics":
                    self.told.append(message["params"])
                self.change.notify_all()

    def ask(self, method, **params):
        self.number += 1
        number = self.number
        self.send(id=number, method=method, params=params)
        with self.change:
            self.change.wait_for(lambda: number in self.answers, timeout=900)
            return self.answers.pop(number)

    def diagnosed(self, uri, version):
        """Waits for the diagnostics of a file at a version."""
        with self.change:
            self.change.wait_for(lambda: any(it["uri"] == uri and it.get("version", 0) >= version for it in self.told), timeout=900)

    def resident(self):
        with open(f"/proc/{self.process.pid}/status", encoding="ascii") as file:
            return next(int(line.split()[1]) for line in file if line.startswith("VmRSS")) / 1024


def ask_peer(program, modules, packages):
    with tempfile.TemporaryDirectory() as folder:
        write_folders(folder, modules, packages)
        with open(os.path.join(folder, "go.mod"), "w", encoding="utf-8") as file:
            file.write("module ex.com\n\ngo 1.18\n")
        server, last = Server(program, folder), packages - 1
        path = os.path.join(folder, "m0", f"p{last}", "p.go")
        uri, text = f"file://{path}", package_of_workspace("ex.com/m0", last)
        lines = [(number, line.index(".N") + 1) for number, line in enumerate(text.split("\n")) if ".N" in line]
        began = time.perf_counter()
        server.ask("initialize", processId=os.getpid(), rootUri=f"file://{folder}", capabilities={}, workspaceFolders=[{"uri": f"file://{folder}", "name": "w"}])
        server.send(method="initialized", params={})
        server.send(method="textDocument/didOpen", params={"textDocument": {"uri": uri, "languageId": "go", "version": 1, "text": text}})
        at = lambda place: {"textDocument": {"uri": uri}, "position": {"line": place[0], "character": place[1]}}
        server.ask("textDocument/completion", **at(lines[0]))
        print(f"{program}: first answer after {time.perf_counter() - began:.1f} s, {server.resident():.0f} MB", flush=True)
        server.diagnosed(uri, 1)
        complete, edits = Times(f"{program}: complete"), Times(f"{program}: an edit of one body, to the diagnostics of its file")
        for number in range(200):
            complete.take(lambda: server.ask("textDocument/completion", **at(lines[number % len(lines)])))
        for number in range(40):
            changed = {"textDocument": {"uri": uri, "version": number + 2}, "contentChanges": [{"text": f"{text}\nfunc h() int {{ return {number} + u }}\n"}]}
            edits.take(lambda: (server.send(method="textDocument/didChange", params=changed), server.diagnosed(uri, number + 2)))
        complete.tell()
        edits.tell()
        print(f"{program}: {server.resident():.0f} MB", flush=True)
        server.process.kill()


def main():
    parser = argparse.ArgumentParser()
    parser.add_argument("program", type=os.path.abspath)
    parser.add_argument("--modules", type=int, default=32)
    parser.add_argument("--packages", type=int, default=128)
    parser.add_argument("--asked", type=int, default=200)
    parser.add_argument("--peer", type=shutil.which)
    given = parser.parse_args()
    resource.setrlimit(resource.RLIMIT_NOFILE, resource.getrlimit(resource.RLIMIT_NOFILE)[1:] * 2)
    with Daemon(given.program, workers=4) as daemon:
        peers, seconds = fill_workspace(daemon, given.modules, given.packages)
        print(f"{given.modules * given.packages} packages: edits and builds {seconds:.1f} s, {daemon.resident():.0f} MB", flush=True)
        ask_all(peers, min(given.asked, given.modules * given.packages), given.packages)
        edit_all(peers[0], given.packages)
        print(f"{daemon.resident():.0f} MB", flush=True)
    if given.peer:
        ask_peer(given.peer, given.modules, given.packages)


if __name__ == "__main__":
    main()
