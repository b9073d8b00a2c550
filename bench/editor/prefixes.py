#!/usr/bin/env python3
"""Texts that end too soon: python3 bench/editor/prefixes.py [--files N] SERVER WORD .. -- CHECK WORD ..

Each prefix of ten files is shown to a server in place of the file. It has to answer each request, and to tell something of the file wherever a check of the same
texts does. CHECK is as for `edits.py`.
"""
import os
import shutil
import sys
import tempfile

sys.path.insert(0, os.path.dirname(os.path.abspath(__file__)))
from checks import checked
from client import Client, uri_of
from modules import write_module


def end_of(text):
    lines = text.split("\n")
    return len(lines) - 1, len(lines[-1].encode())


def main():
    words = sys.argv[1:]
    count = int(words.pop(1 + words.index("--files"))) if "--files" in words else 10
    words = [it for it in words if it != "--files"]
    server, check = words[: words.index("--")], words[words.index("--") + 1 :]
    shown = silent = 0
    with tempfile.TemporaryDirectory() as folder:
        root, copy = f"{folder}/ws", f"{folder}/copy"
        write_module(root, 10)
        shutil.copytree(root, copy)
        client = Client(server)
        client.initialize(root, general={"positionEncodings": ["utf-8"]})
        for name in ["main.go", *(f"p{it}/p{it}.go" for it in range(9))][:count]:
            path = f"{root}/{name}"
            with open(path, encoding="utf-8") as file:
                whole = file.read()
            client.open(path)
            for length in range(len(whole)):
                text = whole[:length]
                client.change(path, length + 2, text)
                line, character = end_of(text)
                client.at("hover", path, line, character)
                client.at("completion", path, line, character)
                client.at("definition", path, 0, 9)
                client.ask("textDocument/documentSymbol", {"textDocument": {"uri": uri_of(path)}})
                client.ask("textDocument/semanticTokens/full", {"textDocument": {"uri": uri_of(path)}})
                with open(f"{copy}/{name}", "w", encoding="utf-8") as file:
                    file.write(text)
                shown += 1
                if name in checked(check, copy)[0] and not client.told(path):
                    silent += 1
                    if silent < 4:
                        print(f"nothing is told of {name} with {length} bytes")
            client.change(path, len(whole) + 2, whole)
            shutil.copy(path, f"{copy}/{name}")
        client.end()
    print(f"{shown} prefixes, {silent} of which nothing is told though a check does")
    sys.exit(1 if silent else 0)


main()
