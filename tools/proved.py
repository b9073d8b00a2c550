#!/usr/bin/env python3
"""Finds what the documents name that is not there: python3 tools/proved.py [--check]

It writes nothing, with --check or without. The status is 1 where a crate has no page, or where a document names a file, a definition or a call that is not
there. It takes a second.
"""
import os
import re
import sys

ROOT = os.path.dirname(os.path.dirname(os.path.abspath(__file__)))
# The documents that are read, and the folders whose words are those that there are.
DOCUMENTS = ["README.md", "docs/PROVED.md", "docs/RULES.md", "docs/DESIGN.md"]
PARTS = ["src", "specs", "proofs"]


def text_of(path):
    with open(f"{ROOT}/{path}", encoding="utf-8") as file:
        return file.read()


def crates():
    lines = text_of("crates.txt").splitlines()
    return [it.partition(":")[0].split()[0] for it in lines if it.strip() and not it.startswith("#")]


def has_page(crate):
    """Whether a crate has a page that begins with its name."""
    path = f"crates/{crate}/README.md"
    return os.path.exists(f"{ROOT}/{path}") and text_of(path).startswith(f"# {crate}\n")


def words_there(names):
    """Each word of the sources, by crate and in all."""
    found = {}
    for crate in names:
        words = set()
        for part in PARTS:
            for at, _, files in os.walk(f"{ROOT}/crates/{crate}/{part}"):
                for name in files:
                    words.add(name.rpartition(".")[0])
                    with open(f"{at}/{name}", encoding="utf-8") as file:
                        words |= set(re.findall(r"\w+", file.read()))
        found[crate] = words
    found["tools"] = set(re.findall(r"\w+", "".join(text_of(f"tools/{it}") for it in os.listdir(f"{ROOT}/tools") if it.endswith(".py"))))
    return found


def missing(document, words):
    """What a document names that is not there."""
    text = text_of(document)
    everywhere = set().union(*words.values())
    for path in sorted(set(re.findall(r"`((?:crates|docs|bench|tools|examples)/[\w./-]+)`", text))):
        if not re.search(r"/[A-Z]+[/.]", path + "/") and not os.path.exists(f"{ROOT}/{path}"):
            yield f"{document}: no file {path}"
    # a file of definitions, and behind it their names
    for crate, listed in re.findall(r"`crates/(\w+)/specs/[\w/]+\.antt`: ([\w, ]+)", text):
        for name in re.findall(r"\w+", listed):
            if name not in words.get(crate, set()) and name not in everywhere:
                yield f"{document}: no definition {name} in {crate}"
    # a call or a definition: words that are joined, or that begin with a capital letter and are longer than one
    for name in sorted(set(re.findall(r"`((?:[A-Za-z]\w*::)*[A-Za-z]\w*)`", text))):
        last = name.split("::")[-1]
        if ("_" in last or re.match(r"[A-Z][a-z]+[A-Z]", last)) and last not in everywhere and last not in words:
            yield f"{document}: nothing is named {name}"


def main():
    names = crates()
    faults = [f"crates/{it}/README.md: no page" for it in names if not has_page(it)]
    words = words_there(names)
    for document in DOCUMENTS:
        faults += missing(document, words)
    for fault in faults:
        print(fault)
    return 1 if faults else 0


sys.exit(main())
