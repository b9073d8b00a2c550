"""What the scripts of this folder share of the toolchain's own `rt`: how it is loaded, and the libraries that were proved on this machine.

rattle-kit-13f keeps what passes by itself. rattle-kit-13b keeps nothing, and reads the sources of a library once for each path of crates.txt that leads to
it. For such a kit `Store` keeps a library that was proved, in ~/.cache/govisd/base, under the sum of its sources and of those below it.
"""
import contextlib
import hashlib
import importlib.machinery
import importlib.util
import os
import shutil
import subprocess
import sys

KIT = os.path.realpath(subprocess.run(["rt", "doc"], stdout=subprocess.PIPE, text=True, check=True).stdout.strip() + "/..")
STORE, MOST = os.path.expanduser("~/.cache/govisd/base"), 200


def load():
    """The kit's `rt`, as a module."""
    sys.dont_write_bytecode = True
    loader = importlib.machinery.SourceFileLoader("rt", f"{KIT}/bin/rt")
    made = importlib.util.module_from_spec(importlib.util.spec_from_loader("rt", loader))
    sys.modules["rt"] = made
    loader.exec_module(made)
    return made


rt = load()
rtlib = rt.rtlib

# Whether the kit keeps what passes.
KEEPS = hasattr(rt, "Kept")


def below(crate):
    """The libraries below a crate, each once and behind those that it uses."""
    if "libraries" not in crate.__dict__:
        found = {}
        for dep in crate.deps:
            found.update({it.name: it for it in [*dep.below(), dep]})
        crate.__dict__["libraries"] = [*found.values()]
    return crate.__dict__["libraries"]


def stamp_of(crate, seen):
    """The sum of a crate's sources and of those below it, found once for each crate."""
    if crate.name not in seen:
        found = hashlib.sha256(repr(crate.said).encode())
        for file in rtlib.files_of(crate.folder):
            with open(file, "rb") as it:
                found.update(file.removeprefix(crate.folder).encode() + it.read())
        for dep in crate.deps:
            found.update(stamp_of(dep, seen).encode())
        seen[crate.name] = found.hexdigest()
    return seen[crate.name]


class Store:
    """A library that was proved: a mark beside it has the sum of what it was made from, and it stands under that sum in a folder, as links to the same files."""

    def __init__(self, crate, stamp):
        self.crate, self.stamp, self.mark = crate, stamp, f"{crate.folder}/out/rlib/built"
        self.kept = f"{STORE}/{crate.name}-{stamp[:32]}"

    def is_there(self):
        return not self.crate.is_program and os.path.isdir(self.crate.rlib) and rtlib.text_of(self.mark) == self.stamp

    def is_given(self):
        """Whether the library was kept: it is put into out/."""
        if self.crate.is_program or rtlib.text_of(f"{self.kept}/built") != self.stamp:
            return False
        os.utime(self.kept)
        linked(self.kept, os.path.dirname(self.mark))
        return True

    def keep(self):
        """Marks and keeps the library that was just proved, and drops those that were not used for the longest time."""
        with open(self.mark, "w", encoding="utf-8") as file:
            file.write(self.stamp)
        with contextlib.suppress(OSError):
            linked(os.path.dirname(self.mark), self.kept)
            kept = sorted((it.path for it in os.scandir(STORE)), key=os.path.getmtime)
            for path in kept[:-MOST]:
                shutil.rmtree(path, ignore_errors=True)


def link_or_copy(path, to):
    try:
        os.link(path, to)
    except OSError:
        shutil.copy2(path, to)


def linked(folder, to):
    """Puts links to a folder's files into another, in place of what is there."""
    for path in (to, f"{to}.new"):
        shutil.rmtree(path, ignore_errors=True)
    os.makedirs(os.path.dirname(to), exist_ok=True)
    shutil.copytree(folder, f"{to}.new", copy_function=link_or_copy)
    os.rename(f"{to}.new", to)
