"""Checks a crate over stubs of the libraries that are not proved: python3 wip/thin/stub_check.py STUBS ROOM CRATE [rattle's flags]

STUBS has, below a line `== CRATE FILE: LISTS` for each file, the sources of stubs: the types and signatures that the crate names, without clauses, and bodies that answer want of memory. They are
written to ROOM. Crates that no stub stands for come from the work tree's libraries. `--only ''` ends after names, types and borrows, 30 processor seconds.
"""
import os
import subprocess
import sys

HERE = os.path.dirname(os.path.abspath(__file__))
TREE = os.path.dirname(os.path.dirname(HERE))
sys.path.insert(0, f"{TREE}/tools")
from quick_build import KIT, lists

ROOM, CRATE = os.path.abspath(sys.argv[2]), sys.argv[3]
USES, STUBS = lists(), {}
with open(sys.argv[1], encoding="utf-8") as file:
    for part in file.read().split("== ")[1:]:
        head, _, text = part.partition("\n")
        place, _, uses = head.partition(":")
        name, file_name = place.split()
        STUBS[name] = uses.split()
        os.makedirs(f"{ROOM}/{name}", exist_ok=True)
        with open(f"{ROOM}/{name}/{file_name}", "w", encoding="utf-8") as out:
            out.write(text)


def uses_of(crate):
    return STUBS.get(crate, USES.get(crate, []))


def walk(crate, found):
    for it in uses_of(crate):
        if (it in USES or it in STUBS) and it not in found:
            walk(it, found)
            found.append(it)
    return found


under = walk(CRATE, [])
words = ["rattle", "check", "--crate-name", CRATE, "src/lib.rt", "--extern", f"std={KIT}/rlibs/std.rlib", "-L", f"dependency={KIT}/rlibs"]
for it in sorted({it for crate in [CRATE, *under] for it in uses_of(crate) if it not in USES and it not in STUBS}):
    words += ["--extern", f"{it}={KIT}/rlibs/{it}.rlib"]
for it in under:
    if it in STUBS:
        words += ["--lib", f"{it}:{','.join(['std', *STUBS[it]])}={ROOM}/{it}/lib.rt"]
    else:
        out = f"{TREE}/crates/{it}/out/rlib"
        words += ["--extern", f"{it}={out}/{it}.rlib", "-L", f"dependency={out}"]
words += ["--antt-project", f"{KIT}/rattle/logic/antt-project.json", "--logic-built", f"{KIT}/logic_built", *sys.argv[4:]]
os.chdir(f"{TREE}/crates/{CRATE}")
sys.exit(subprocess.run(words).returncode)
