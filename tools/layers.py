#!/usr/bin/env python3
"""Writes the layers into docs/DESIGN.md from crates.txt and the pages of the crates: python3 tools/layers.py [--check]

The sections are those of crates.txt, each with its line. A crate has the first sentence of crates/NAME/README.md, and each of its modules that has a section
there (## `MODULE`) the first sentence of that section. With --check nothing is written, and the status is 1 where docs/DESIGN.md has other layers, where a page
has no first sentence or a long one, where a public module has no section, or a section names a module that is not there. It takes a second.
"""
import os
import re
import sys

ROOT = os.path.dirname(os.path.dirname(os.path.abspath(__file__)))
DESIGN = "docs/DESIGN.md"
BEGIN = "<!-- The layers, made by tools/layers.py from crates.txt and the pages of the crates. -->\n"
END = "<!-- The end of the layers. -->\n"
# The longest first sentence of a page or of a section.
LONGEST = 240


def text_of(path):
    with open(f"{ROOT}/{path}", encoding="utf-8") as file:
        return file.read()


def sections():
    """The sections of crates.txt that have crates: name, line, crates."""
    found = []
    for line in text_of("crates.txt").splitlines():
        if line.startswith("#"):
            name, _, what = line[1:].strip().partition(": ")
            found.append((name, what[:1].upper() + what[1:], []))
        elif line.strip():
            found[-1][2].append(line.partition(":")[0].split()[0])
    return [it for it in found if it[2]]


def sentence_of(paragraph):
    """The first sentence of a paragraph, in one line."""
    return re.split(r"(?<=\.) (?=[A-Z`])", " ".join(paragraph.split()))[0]


def layers_of(crate):
    """What a crate and each of its modules answer, by the crate's page."""
    parts = text_of(f"crates/{crate}/README.md").split("\n\n")
    yield crate, sentence_of(parts[1]) if len(parts) > 1 and parts[0] == f"# {crate}" else ""
    for head, first in zip(parts[2:], parts[3:] + [""]):
        module = re.fullmatch(r"## `(\w+)`", head.strip())
        if module:
            yield f"{crate}::{module[1]}", sentence_of(first)


def is_there(layer):
    crate, _, module = layer.partition("::")
    return not module or any(os.path.exists(f"{ROOT}/crates/{crate}/{it}") for it in (f"src/{module}.rt", f"specs/{module}", f"specs/{module}.antt"))


def modules_of(crate):
    """The public modules of a crate that are files."""
    path = f"crates/{crate}/src/lib.rt"
    return re.findall(r"(?m)^pub mod (\w+);", text_of(path)) if os.path.exists(f"{ROOT}/{path}") else []


def main():
    number = sum(len(crates) for _, _, crates in sections())
    faults, lines = [], [BEGIN, f"\nThere are {number} crates.\n"]
    for name, what, crates in sections():
        lines.append(f"\n### {name}\n\n{what}\n\n| Crate | Answers |\n|---|---|\n")
        for crate in crates:
            layers = [*layers_of(crate)]
            for layer in {f"{crate}::{it}" for it in modules_of(crate)} - {it for it, _ in layers}:
                faults.append(f"crates/{crate}/README.md: no section of {layer}")
            for layer, sentence in layers:
                if not sentence.endswith(".") or sentence[:1] in "#-|" or len(sentence) > LONGEST:
                    faults.append(f"crates/{crate}/README.md: no first sentence of at most {LONGEST} characters of {layer}")
                if not is_there(layer):
                    faults.append(f"crates/{crate}/README.md: there is no {layer}")
                shown = f"[`{layer}`](../crates/{crate}/README.md)" if layer == crate else f"`{layer}`"
                lines.append(f"| {shown} | {sentence} |\n")
    lines.append("\n" + END)
    text = text_of(DESIGN)
    before, begin, rest = text.partition(BEGIN)
    _, end, after = rest.partition(END)
    if not begin or not end:
        faults.append(f"{DESIGN}: no place for the layers")
    elif "--check" in sys.argv[1:]:
        if text != before + "".join(lines) + after:
            faults.append(f"{DESIGN}: run tools/layers.py")
    else:
        with open(f"{ROOT}/{DESIGN}", "w", encoding="utf-8") as file:
            file.write(before + "".join(lines) + after)
    for fault in faults:
        print(fault)
    return 1 if faults else 0


sys.exit(main())
