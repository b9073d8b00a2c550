#!/usr/bin/env python3
"""Renames of every name of generated modules, held against go/types: python3 bench/editor/renames.py [--count N] SERVER WORD ..

Each name that one of 50 generated modules declares is renamed, to a name that nothing has and to two that something may have. Either the server refuses, or go/types finds
in the renamed program the same resolution, identifier by identifier, and the same errors (resolved/main.go). A rename to a name that nothing has may only be refused
where go/types sees another program too. Needs `go`, 1.19 or later.
"""
import os
import random
import re
import shutil
import subprocess
import sys
import tempfile

HERE = os.path.dirname(os.path.abspath(__file__))
sys.path.insert(0, HERE)
from client import Client, uri_of

NAMES = ["a", "b", "c", "d", "e", "f"]
TYPES = ["A", "B", "C", "D"]
KEYWORDS = {"package", "import", "type", "struct", "interface", "func", "return", "var", "const", "if", "for"}


def body(chance, names, calls):
    """Lines of a body over names that are ints."""
    lines, here = [], list(names)
    for _ in range(chance.randint(2, 6)):
        value = chance.choice(here + ["1", "2"] + calls)
        kind = chance.randrange(4)
        if kind == 0:
            name = chance.choice(NAMES)
            lines += [f"\tif {value} > 0 {{", f"\t\t{name} := {value} + 1", f"\t\tprintln({name}, {value})", "\t}"]
        elif kind == 1:
            name = chance.choice(NAMES)
            if f"\t{name} := " not in "\n".join(lines) and name not in names:
                lines += [f"\t{name} := {value}", f"\tprintln({name})"]
                here.append(name)
        elif kind == 2:
            lines.append(f"\tprintln({value}, {chance.choice(here + ['3'])})")
        else:
            name = chance.choice(NAMES)
            lines += [f"\tfor {name} := 0; {name} < 3; {name} = {name} + 1 {{", f"\t\tprintln({name} + {value})", "\t}"]
    return lines


def package(chance, number):
    """A package in which names of several kinds hide one another."""
    own = f"p{number}"
    types, values = chance.sample(TYPES, 2), chance.sample(NAMES, 2)
    fields = chance.sample(NAMES, 2)
    method, func = chance.choice(["M", "N"]), chance.choice(["F", "G"])
    lines = [f"package {own}", ""]
    if number:
        lines += [f'import "ex.com/m/p{number - 1}"', "", f"var before = p{number - 1}.Value", ""]
    lines += [f"const {values[0]} = {number}", "", f"var {values[1]} = {values[0]} + 1", "", f"var Value = {values[1]}", ""]
    lines += [f"type {types[0]} struct {{", f"\t{fields[0]}, {fields[1]} int", "}", "", f"type {types[1]} struct {{", f"\t{types[0]}", f"\tExtra int", "}", ""]
    lines += [f"type I interface {{", f"\t{method}({chance.choice(NAMES)} int) int", "}", ""]
    receiver, param = chance.sample(NAMES, 2)
    lines += [f"func ({receiver} *{types[0]}) {method}({param} int) int {{", *body(chance, [param, f"{receiver}.{fields[0]}"], [f"{receiver}.{fields[1]}"]), f"\treturn {receiver}.{fields[0]} + {param}", "}", ""]
    param = chance.choice(NAMES)
    lines += [f"func {func}({param} int) int {{", *body(chance, [param], [values[0]] if values[0] != param else []), f"\treturn {param}", "}", ""]
    made = chance.choice(NAMES)
    lines += [f"func Use() I {{", f"\t{made} := &{types[1]}{{{types[0]}: {types[0]}{{{fields[0]}: 1, {fields[1]}: 2}}, Extra: {func}(3)}}", f"\tprintln({made}.{fields[0]}, {made}.{types[0]}.{fields[1]}, {made}.{method}(4))", f"\treturn &{made}.{types[0]}", "}", ""]
    return "\n".join(lines)


def write(chance, root):
    os.makedirs(root)
    with open(f"{root}/go.mod", "w", encoding="utf-8") as file:
        file.write("module ex.com/m\n\ngo 1.19\n")
    names = []
    for number in range(3):
        os.makedirs(f"{root}/p{number}")
        names.append(f"p{number}/p{number}.go")
        with open(f"{root}/{names[-1]}", "w", encoding="utf-8") as file:
            file.write(package(chance, number))
    return names


class Peer:
    def __init__(self, room):
        subprocess.run(["go", "build", "-o", f"{room}/resolved", f"{HERE}/resolved/main.go"], check=True, env={**os.environ, "GO111MODULE": "off"})
        self.peer = subprocess.Popen([f"{room}/resolved"], stdin=subprocess.PIPE, stdout=subprocess.PIPE, text=True)

    def told(self, root):
        self.peer.stdin.write(root + "\n")
        self.peer.stdin.flush()
        lines = []
        while (line := self.peer.stdout.readline()) not in (".\n", ""):
            lines.append(line)
        return lines


def applied(text, edits):
    lines = text.split("\n")
    for edit in sorted(edits, key=lambda it: (it["range"]["start"]["line"], it["range"]["start"]["character"]), reverse=True):
        start, end = edit["range"]["start"], edit["range"]["end"]
        line = lines[start["line"]]
        lines[start["line"]] = line[: start["character"]] + edit["newText"] + line[end["character"] :]
    return "\n".join(lines)


def main():
    words = sys.argv[1:]
    count = int(words.pop(1 + words.index("--count"))) if "--count" in words else 50
    server = [it for it in words if it != "--count"] or ["./govisd", "lsp"]
    chance, asked, done, refused, wrong, needless = random.Random(11), 0, 0, 0, 0, 0
    with tempfile.TemporaryDirectory() as room:
        room = os.path.realpath(room)
        peer = Peer(room)
        for number in range(count):
            root, copy = f"{room}/ws{number}", f"{room}/copy"
            names = write(chance, root)
            before = peer.told(root)
            if any(line.startswith("no program") for line in before):
                continue
            texts = {name: open(f"{root}/{name}", encoding="utf-8").read() for name in names}
            client = Client(server)
            client.initialize(root)
            seen = set()
            for name in names:
                client.open(f"{root}/{name}", texts[name])
                for line, row in enumerate(texts[name].split("\n")):
                    for match in re.finditer(r"[A-Za-z_]\w*", row):
                        if match[0] in KEYWORDS or row.startswith("import"):
                            continue
                        place = {"textDocument": {"uri": uri_of(f"{root}/{name}")}, "position": {"line": line, "character": match.start()}}
                        for new in ("zz", chance.choice(NAMES), chance.choice(TYPES + ["M", "F", "int"])):
                            found = client.request("textDocument/rename", {**place, "newName": new})
                            asked += 1
                            if "error" in found or not found.get("result"):
                                refused += 1
                                if new == "zz" and "error" in found and any(it in found["error"]["message"] for it in ("would change", "would be a fault", "is not exported")):
                                    needless += 1
                                continue
                            changes = found["result"]["changes"]
                            key = repr((sorted((uri, [(it["range"]["start"]["line"], it["range"]["start"]["character"]) for it in edits]) for uri, edits in changes.items()), new))
                            if key in seen:
                                continue
                            seen.add(key)
                            done += 1
                            shutil.rmtree(copy, ignore_errors=True)
                            shutil.copytree(root, copy)
                            for uri, edits in changes.items():
                                path = uri.removeprefix(uri_of(root) + "/")
                                with open(f"{copy}/{path}", "w", encoding="utf-8") as file:
                                    file.write(applied(texts[path], edits))
                            if peer.told(copy) != before:
                                wrong += 1
                                if wrong < 4:
                                    print(f"{name}:{line + 1}:{match.start() + 1} {match[0]} to {new}: another program")
                                    print(texts[name])
            client.end()
    print(f"{asked} renames asked, {refused} refused ({needless} of them to a name that nothing has), {done} different ones made, {wrong} of which go/types sees another program")
    sys.exit(1 if wrong or not done else 0)


main()
