#!/usr/bin/env python3
"""The scripts for neovim against a server, and against gopls where it is there: python3 bench/editor/run_neovim.py PACKAGES SERVER WORD ..

Each script writes what it saw, with times in milliseconds, to standard output.
"""
import os
import shutil
import subprocess
import sys
import tempfile

HERE = os.path.dirname(os.path.abspath(__file__))
sys.path.insert(0, HERE)
from modules import write_module


def main():
    count, server = int(sys.argv[1]), sys.argv[2:]
    for which in ["govisd", *(["gopls"] if shutil.which("gopls") else [])]:
        for script in ["edit.lua", "broken.lua"]:
            with tempfile.TemporaryDirectory() as folder:
                root, out = f"{folder}/ws", f"{folder}/out.txt"
                write_module(root, count)
                env = dict(os.environ, WS=root, WHICH=which, OUT=out, SERVER=" ".join(server))
                words = ["nvim", "--headless", "-u", "NONE", "-i", "NONE", "-n", "-S", f"{HERE}/{script}"]
                subprocess.run(words, env=env, timeout=300, stdin=subprocess.DEVNULL, stdout=subprocess.DEVNULL, stderr=subprocess.STDOUT)
                print(f"== {which}, {script}, {count} packages")
                with open(out, encoding="utf-8") as file:
                    print(file.read())


main()
