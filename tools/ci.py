#!/usr/bin/env python3
"""Runs the merge gate, `rt ci`, with whatever kit is there: python3 tools/ci.py

A kit that keeps what passes (rattle-kit-13f) is called as it is. rattle-kit-13b keeps nothing, and reads the sources of a library once for each path of
crates.txt that leads to it, which takes four hours here. For such a kit the same `rt ci` runs in this process, with three changes:

- for the sum of a library's sources each library below it is read once;
- a library that was proved on this machine from the same sources, by the same call (of tools/base.py, or of this script), is taken from where it was kept,
  and one that is proved now is kept there. Each that is taken is named;
- a check is reckoned to need 3 GB, which is what the largest take, and not the 10 GB of the kit's own reckoning, so that no processor stands idle.

Before it tools/base.py proves the libraries, since it gives the longest chain of crates more than one processor; `rt ci` then takes them. A library that
fails there is proved again by `rt ci`, which tells why.

What is proved and refused, the wrong bodies, the programs and what they print are the kit's own. Without ~/.cache/govisd/base all is proved from nothing.
"""
import os
import subprocess
import sys
import threading

HERE = os.path.dirname(os.path.abspath(__file__))
sys.path.insert(0, HERE)
from kept import KEEPS, Store, below, rt, rtlib, stamp_of

# `rt ci` puts its own class in the place of the kit's.
KITS_STAMP, KITS_BUILD = rtlib.Crate.stamp, rtlib.Crate.build_rlib
SUMS = threading.local()


def stamp(crate):
    """As the kit's, with each library below read once for each sum that is asked."""
    if getattr(SUMS, "seen", None) is None:
        SUMS.seen = {}
        try:
            return crate.stamp()
        finally:
            SUMS.seen = None
    if crate.name not in SUMS.seen:
        SUMS.seen[crate.name] = KITS_STAMP(crate)
    return SUMS.seen[crate.name]


def build_rlib(crate, flags, anew):
    """As the kit's, but for a library that was kept."""
    store = Store(crate, stamp_of(crate, {}))
    if anew and store.is_given():
        rt.say(f"{crate.name}: proved on this machine from the same sources, and kept", crate.out)
        return 0
    status = KITS_BUILD(crate, flags, anew)
    if anew and not status and stamp_of(crate, {}) == store.stamp:
        store.keep()
    return status


def main():
    if KEEPS:
        os.execvp("rt", ["rt", "ci"])
    subprocess.run([sys.executable, f"{HERE}/base.py", "libraries", str(len(os.sched_getaffinity(0)))], check=False)
    rt.Crate.below, rt.Crate.stamp, rt.Crate.build_rlib = below, stamp, build_rlib
    rt.need = lambda crate: 3_000_000_000
    os.environ.pop("RT_JOBS", None)
    sys.exit(rt.main(["ci"]))


if __name__ == "__main__":
    main()
