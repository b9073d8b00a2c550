"""Checks a crate over what the base has proved and over thin copies of the rest: python3 wip/thin/thin_check.py TREE CRATE [rattle's flags]

TREE is a work tree whose base has run (tools/base.py; its log is .git/base/log). Crates that are proved there go by --extern, those that are not by --lib:
from THIN=FOLDER, where `thin.py TREE FOLDER CRATE ..` has put a copy with holes for proofs, and else from the tree. A function that then `depends on a hole`
of a library alone has no open goal of its own. Over many thin copies a check takes 5 minutes and 8 GB before it begins: it pays where a few libraries lack.
"""
import os
import subprocess
import sys

TREE, CRATE = os.path.abspath(sys.argv[1]), sys.argv[2]
THIN = os.environ.get("THIN", "/nowhere")
sys.path.insert(0, f"{TREE}/tools")
from quick_build import KIT, below, lists

USES = lists()

with open(f"{TREE}/.git/base/log", encoding="utf-8") as log:
    PROVED = {line.split()[1] for line in log if " ok " in line}


def is_proved(crate):
    return crate in PROVED and all(is_proved(it) for it in USES[crate] if it in USES)


under = below(CRATE, USES, [])
root = "main.rt" if os.path.exists(f"{TREE}/crates/{CRATE}/src/main.rt") else "lib.rt"
words = ["rattle", "check", "--crate-name", CRATE, f"src/{root}", "--extern", f"std={KIT}/rlibs/std.rlib", "-L", f"dependency={KIT}/rlibs"]
for it in sorted({it for crate in [CRATE, *under] for it in USES[crate] if it not in USES}):
    words += ["--extern", f"{it}={KIT}/rlibs/{it}.rlib"]
for it in under:
    out = f"{TREE}/crates/{it}/out/rlib"
    if is_proved(it):
        words += ["--extern", f"{it}={out}/{it}.rlib", "-L", f"dependency={out}"]
    else:
        home = THIN if os.path.isdir(f"{THIN}/crates/{it}") else TREE
        words += ["--lib", f"{it}:{','.join(['std', *USES[it]])}={home}/crates/{it}/src/lib.rt"]
words += ["--antt-project", f"{KIT}/rattle/logic/antt-project.json", "--logic-built", f"{KIT}/logic_built", *sys.argv[3:]]
os.chdir(f"{TREE}/crates/{CRATE}")
sys.exit(subprocess.run(words).returncode)
