#!/usr/bin/env python3
"""Times of a key among many packages, in milliseconds: python3 bench/editor/large.py [--packages N] [--keys N] [--most N] [--processor] SERVER WORD ..

Three modules: each package imports the next, 16 layers with 8 imports each, and groups of 128 packages with 60 imports each. In each a body is edited by one key
at a time, at the bottom, in the middle and at the top: the time from the key to what is told of the open file. Then completions at a half-written line, and the time
until a file that is as in the folder is opened. With --most the status is 1 where the median of a key takes more. Figures of a machine that does other things too
say little: with --processor the time is that of the server's processors.
"""
import os
import random
import statistics
import sys
import tempfile
import time

sys.path.insert(0, os.path.dirname(os.path.abspath(__file__)))
from client import Client, uri_of

ON_PROCESSOR = "--processor" in sys.argv

def chain(number, count):
    return [number - 1] if number else []


def layers(number, count):
    """Eight packages of the layer below, of 16 layers."""
    wide = max(count // 16, 1)
    below = number // wide - 1
    if below < 0:
        return []
    chance = random.Random(number)
    return sorted(chance.sample(range(below * wide, (below + 1) * wide), min(8, wide)))


def groups(number, count):
    """The 60 packages before it, as far as they are in its group of 128."""
    return [*range(max(number - number % 128, number - 60), number)]


SHAPES = {"each imports the next": chain, "16 layers": layers, "groups of 128 with 60 imports": groups}


def text_of(number, imports):
    lines = [f"package p{number}", ""]
    if imports:
        lines += ["import (", *(f'\t"ex.com/m/p{it}"' for it in imports), ")", ""]
    lines += [f"type Box{number} struct {{", "\tWidth, Height int", "}", ""]
    lines += [f"func Make(w, h int) *Box{number} {{", f"\treturn &Box{number}{{Width: w, Height: h}}", "}", ""]
    lines += [f"func (b *Box{number}) Area() int {{", "\treturn b.Width * b.Height", "}", ""]
    lines += [f"func F{number}(x int) int {{", "\ts := 0", *(f"\ts = s + p{it}.F{it}(x)" for it in imports), "\treturn s", "}", ""]
    return "\n".join(lines)


def write(root, count, shape):
    os.makedirs(root)
    with open(f"{root}/go.mod", "w", encoding="utf-8") as file:
        file.write("module ex.com/m\n\ngo 1.22\n")
    for number in range(count):
        os.makedirs(f"{root}/p{number}")
        with open(f"{root}/p{number}/p{number}.go", "w", encoding="utf-8") as file:
            file.write(text_of(number, shape(number, count)))


def clock(client):
    """The time, or that of the server's processors."""
    if not ON_PROCESSOR:
        return 1000 * time.perf_counter()
    spent = 0
    for task in os.listdir(f"/proc/{client.server.pid}/task"):
        with open(f"/proc/{client.server.pid}/task/{task}/schedstat", encoding="utf-8") as file:
            spent += int(file.read().split()[0])
    return spent / 1e6


def told(client, path):
    """Waits until something is told of a file."""
    while uri_of(path) not in client.diagnostics:
        client.take()


def changed(client, path, version, text):
    """The time from a change to what is told of the file."""
    client.diagnostics.pop(uri_of(path), None)
    start = clock(client)
    client.change(path, version, text)
    told(client, path)
    return clock(client) - start


def opened(client, path):
    client.diagnostics.pop(uri_of(path), None)
    start = clock(client)
    client.open(path)
    told(client, path)
    return clock(client) - start


def completed(client, path, version, text):
    """The time of a completion at a half-written line."""
    front, _, rest = text.partition("\treturn s\n")
    client.change(path, version, f"{front}\tprintln(s, F\n\treturn s\n{rest}")
    client.ask("workspace/symbol", {"query": "no such name"})
    start = clock(client)
    client.at("completion", path, front.count("\n"), len("\tprintln(s, F"))
    return clock(client) - start


def measured(client, root, number, imports, keys):
    """The time of opening, the times of keys in a body, and those of completions."""
    path, text = f"{root}/p{number}/p{number}.go", text_of(number, imports)
    first = opened(client, path)
    times = [changed(client, path, it + 2, text.replace("s := 0", f"s := {it % 10}{it % 7}")) for it in range(keys)]
    # what is told has the version, so that each key is told of
    lines = [completed(client, path, keys + 2 + it, text) for it in range(5)]
    client.change(path, keys + 7, text)
    return first, times, lines


def main():
    words = sys.argv[1:]
    value = lambda name, other: int(words.pop(1 + words.index(name))) if name in words else other
    count, keys, most = value("--packages", 4096), value("--keys", 15), value("--most", 0)
    server = [it for it in words if not it.startswith("--")] or ["./govisd", "lsp"]
    slow = False
    for name, shape in SHAPES.items():
        with tempfile.TemporaryDirectory() as folder:
            root = f"{folder}/ws"
            write(root, count, shape)
            client = Client(server)
            start = clock(client)
            client.initialize(root)
            path = f"{root}/p0/p0.go"
            client.open(path)
            client.told(path)
            print(f"{name}: first faults {clock(client) - start:.0f}")
            for place, number in (("bottom", 1), ("middle", count // 2 + 63), ("top", count - 1)):
                first, times, lines = measured(client, root, number, shape(number, count), keys)
                median = statistics.median(times)
                slow = slow or 0 < most < median
                print(f"  {place}: opened {first:.1f}; a key: median {median:.1f}, least {min(times):.1f}, most {max(times):.1f}; a completion: median {statistics.median(lines):.1f}", flush=True)
            client.end()
    return 1 if slow else 0


if __name__ == "__main__":
    sys.exit(main())
