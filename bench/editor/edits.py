#!/usr/bin/env python3
"""Random edits, and what is told of all files against a fresh check: python3 bench/editor/edits.py [--count N] [--seed N] SERVER WORD .. -- CHECK WORD ..

CHECK is a program that is called with a folder and writes a JSON object a line for each fault, as `./govisd check --format json`. After each of 500 edits at random places
of files of a module, what the server told of all files is compared with what CHECK says of the same texts: each fault that follows from no other one, with its place
and its rule. Where a text does not parse, that fault has to be told of its file, and something of each other file is allowed to differ.
"""
import os
import random
import shutil
import sys
import tempfile

sys.path.insert(0, os.path.dirname(os.path.abspath(__file__)))
from checks import checked, parses
from client import Client, uri_of
from modules import write_module

WORDS = ["x", "Make", "p0", "Width", "int", "string", "return ", "(", ")", "{", "}", ".", ",", "\n", "1", '"s"', " + ", "&", "*", "Box3", "func ", "é", ":=", "if ", "q"]
NAMES = ["Width", "Height", "Make", "Area", "int", "s", "x", "w", "b", "Box1", "p1", "F1"]


def place_told(fault, wanted):
    """The place that is told of a fault: the start of its range, or one that is wanted of its rule in these lines, where none is wanted there."""
    start, end = ((it["line"], it["character"]) for it in (fault["range"]["start"], fault["range"]["end"]))
    at_start = *start, fault["code"]
    beside = [it for it in sorted(wanted) if it[2] == fault["code"] and start[0] <= it[0] <= end[0]]
    return at_start if at_start in wanted or not beside else beside[0]


def told_by(client, root, wanted):
    """What the server told of each file, where these places are wanted: the range of a fault is that of what is amiss, an operand or an expression around its place."""
    client.ask("workspace/symbol", {"query": "no such name"})
    found = {}
    for uri, params in client.diagnostics.items():
        path = uri.removeprefix(uri_of(root) + "/")
        places = {place_told(it, wanted.get(path, ())) for it in params["diagnostics"] if "code" in it}
        if places:
            found[path] = places
    return found


def edited(chance, text):
    """A text with an edit at a random place."""
    kind = chance.randrange(6)
    at = chance.randint(0, len(text))
    if kind == 0:
        return text[:at] + chance.choice(WORDS) + text[at:]
    if kind == 1:
        return text[:at] + text[at + chance.randint(1, 6) :]
    old, new = chance.choice(NAMES), chance.choice(NAMES)
    places = [it for it in range(len(text)) if text.startswith(old, it)]
    if not places:
        return text
    at = chance.choice(places)
    return text[:at] + new + text[at + len(old) :]


def main():
    words = sys.argv[1:]
    count = int(words.pop(1 + words.index("--count"))) if "--count" in words else 500
    seed = int(words.pop(1 + words.index("--seed"))) if "--seed" in words else 5
    words = [it for it in words if it not in ("--count", "--seed")]
    server, check = words[: words.index("--")], words[words.index("--") + 1 :]
    chance, bad, compared, broken = random.Random(seed), 0, 0, 0
    with tempfile.TemporaryDirectory() as folder:
        root, copy = f"{folder}/ws", f"{folder}/copy"
        write_module(root, 30)
        shutil.copytree(root, copy)
        client = Client(server)
        client.initialize(root, general={"positionEncodings": ["utf-8"]})
        names = ["main.go", *(f"p{it}/p{it}.go" for it in range(30))]
        texts, first = {}, {}
        for name in names:
            with open(f"{root}/{name}", encoding="utf-8") as file:
                first[name] = texts[name] = file.read()
            client.open(f"{root}/{name}")
        for version in range(2, count + 2):
            name = chance.choice(names)
            texts[name] = first[name] if chance.randrange(3) == 0 else edited(chance, texts[name])
            client.change(f"{root}/{name}", version, texts[name])
            with open(f"{copy}/{name}", "w", encoding="utf-8") as file:
                file.write(texts[name])
            wanted, faults = checked(check, copy)
            told = told_by(client, root, wanted)
            if parses(faults):
                compared += 1
                same = told == wanted
            else:
                broken += 1
                texts_of = [(it["file"], (it["line"] - 1, it["column"] - 1, it["rule"])) for it in faults if it["rule"][0] in "LPE"]
                same = all(place in told.get(path, ()) for path, place in texts_of) and all(path in told for path in wanted if path in [it for it, _ in texts_of])
                for path, _ in texts_of:
                    if chance.randrange(2) == 0:
                        # it is mended again soon, so that most comparisons are of texts that parse
                        texts[path] = first[path]
                        client.change(f"{root}/{path}", version, texts[path])
                        with open(f"{copy}/{path}", "w", encoding="utf-8") as file:
                            file.write(texts[path])
            if not same:
                bad += 1
                if bad < 4:
                    print(f"edit {version} of {name}: told {sorted(told.items())}, checked {sorted(wanted.items())}")
        client.end()
    print(f"{compared} edits compared in full, {broken} with a text that does not parse, {bad} differ")
    sys.exit(1 if bad else 0)


main()
