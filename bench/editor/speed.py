#!/usr/bin/env python3
"""Times of the server, in milliseconds: python3 bench/editor/speed.py [--packages N] [--edits N] SERVER WORD ..

A body is edited by one key at a time: the time from the key to what is told of the open file. Completions at half-written lines, references of a name that is used
1,000 times, and the memory before and after many edits. Figures of a machine that does other things too say little.
"""
import os
import sys
import tempfile
import time

sys.path.insert(0, os.path.dirname(os.path.abspath(__file__)))
from client import Client, uri_of
from modules import main_text, write_module


def memory(client):
    with open(f"/proc/{client.server.pid}/status", encoding="utf-8") as file:
        return [int(line.split()[1]) for line in file if line.startswith("VmRSS")][0]


def shown(times, part):
    return f"{sorted(times)[int(part * (len(times) - 1))]:.2f}"


def keystrokes(client, main, text, count):
    """The times from a key in a body to what is told of the open file."""
    times = []
    for number in range(count):
        now = text.replace("println(size(r))", "println(size(r), q.Wid)" if number % 2 else f"println(size(r), {number})")
        client.diagnostics.pop(uri_of(main), None)
        start = time.perf_counter()
        client.change(main, number + 2, now)
        while uri_of(main) not in client.diagnostics:
            client.take()
        times.append(1000 * (time.perf_counter() - start))
    client.change(main, count + 2, text)
    return times


def completions(client, main, text, count):
    times = []
    lines = ["\tr.", "\tprintln(r.", "\tif q.Wi", "\tp9.", "\tpr", "\tp9.Box9{", "\tx := q."]
    row = text[: text.index("\tprintln(size(r))")].count("\n")
    for number in range(count):
        line = lines[number % len(lines)]
        client.change(main, 10_000 + number, text.replace("\tprintln(size(r))", line))
        client.ask("workspace/symbol", {"query": "no such name"})
        start = time.perf_counter()
        client.at("completion", main, row, len(line))
        times.append(1000 * (time.perf_counter() - start))
    client.change(main, 20_000, text)
    return times


def main():
    words = sys.argv[1:]
    packages = int(words.pop(1 + words.index("--packages"))) if "--packages" in words else 120
    count = int(words.pop(1 + words.index("--edits"))) if "--edits" in words else 200
    server = [it for it in words if it not in ("--packages", "--edits")] or ["./govisd", "lsp"]
    with tempfile.TemporaryDirectory() as folder:
        root = f"{folder}/ws"
        write_module(root, packages)
        os.makedirs(f"{root}/many")
        with open(f"{root}/many/many.go", "w", encoding="utf-8") as file:
            file.write("package many\n\nvar Often int\n\nfunc Use() {\n" + "\tprintln(Often, Often)\n" * 500 + "}\n")
        client = Client(server)
        start = time.perf_counter()
        client.initialize(root)
        main, text = f"{root}/main.go", main_text(packages)
        client.open(main)
        client.told(main)
        print(f"{packages + 2} packages: first faults {1000 * (time.perf_counter() - start):.0f}")
        times = keystrokes(client, main, text, count)
        print(f"a key in a body to the open file's faults: median {shown(times, 0.5)}, p99 {shown(times, 0.99)}, most {shown(times, 1)}")
        times = completions(client, main, text, count)
        print(f"completion: median {shown(times, 0.5)}, p99 {shown(times, 0.99)}, most {shown(times, 1)}")
        times = []
        for _ in range(20):
            start = time.perf_counter()
            found = client.at("references", f"{root}/many/many.go", 2, 5, context={"includeDeclaration": False})
            times.append(1000 * (time.perf_counter() - start))
        print(f"references of a name that is used {len(found)} times: median {shown(times, 0.5)}, most {shown(times, 1)}")
        was = memory(client)
        keystrokes(client, main, text, 10 * count)
        print(f"memory in kB: {was}, and after {10 * count} edits {memory(client)}")
        client.end()


main()
