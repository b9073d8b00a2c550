#!/usr/bin/env python3
"""Tries the program as a person would, without the toolchain: python3 tools/test_program.py PROGRAM [SERVER WORD ..]

`./govisd --test` calls it with the program that `./govisd` starts. It runs the examples of examples/README.md, modules with a small mistake each, small
programs, the example of each rule, stored sessions with one and with eight workers, and those of an editor, and compares what comes with what is written
there. An editor is served by `PROGRAM lsp`, or by another command that is given. It takes a minute or two, and ends with status 0 where all is as it must
be. That says nothing of the proofs: `rt ci` makes those.
"""
import os
import re
import subprocess
import sys

ROOT = os.path.dirname(os.path.dirname(os.path.abspath(__file__)))
PAGE = f"{ROOT}/examples/README.md"

# Of each example its section in examples/README.md, the words that are asked, the file on standard input and the status.
EXAMPLES = [
    ("shadowing.go", ["resolve"], "examples/shadowing.go", 0),
    ("faults.go", ["resolve"], "examples/faults.go", 1),
    ("typo", ["check", "examples/typo"], None, 1),
    ("shop", ["check", "examples/shop", "--module", "ex.com/shop"], None, 1),
    ("primes", ["run", "examples/primes"], None, 0),
]

# Each table with its script, and the line that the script ends with where all is well.
TABLES = [
    ("modules with a small mistake", "bench/messages/messages.py", r"^(\d+) modules: .* 0 differ from the table$"),
    ("small programs that are run", "bench/run_cases/run_cases.py", r"^(\d+) passed, 0 failed$"),
    ("examples of rules", "bench/messages/explained.py", r"^(\d+) rules, .* 0 wrong$"),
    ("scripts of sessions", "bench/serving/script.sh", r"^(\d+) scripts, 0 differ$"),
]

# The same of the command that serves an editor.
EDITOR_TABLES = [
    ("messages to an editor", "bench/editor/stored.py", r"^(\d+) messages to editors, 0 sessions differ$"),
    ("cases of the editor's server", "bench/editor/check.py", r"^(\d+) cases, 0 do not hold$"),
]


def wanted(section):
    """What the page says that an example prints: the first block of its section."""
    with open(PAGE, encoding="utf-8") as file:
        text = re.search(rf"(?ms)^## {re.escape(section)}$(.*?)(?=^## |\Z)", file.read())
    return re.search(r"(?ms)^```$\n(.*?)^```$", text[1])[1]


def example_holds(program, section, words, given, status):
    with open(f"{ROOT}/{given}" if given else os.devnull, "rb") as text:
        ran = subprocess.run([program, *words], stdin=text, capture_output=True, cwd=ROOT, timeout=60)
    told = (ran.stdout + ran.stderr).decode()
    # of the program that is run the page has the end alone
    is_right = told.endswith(wanted(section)) if words[0] == "run" else told == wanted(section)
    if not is_right or ran.returncode != status:
        print(f"examples/{section}: `{' '.join(words)}` printed, with status {ran.returncode}:\n{told}")
        return False
    return True


def table_holds(command, script, last):
    """How many cases a table has, where all of them hold; what its script printed is shown where one does not."""
    words = [sys.executable, "-B"] if script.endswith(".py") else ["sh"]
    ran = subprocess.run([*words, f"{ROOT}/{script}", *command], capture_output=True, text=True, cwd=ROOT, timeout=600)
    lines = (ran.stdout + ran.stderr).strip().split("\n")
    found = re.match(last, lines[-1])
    if ran.returncode or not found:
        print("\n".join(lines))
        return 0
    return int(found[1])


def tables_hold(command, tables):
    """How many cases of some tables hold, and how many tables do not; each is told of in a line."""
    passed, failed = 0, 0
    for name, script, last in tables:
        count = table_holds(command, script, last)
        passed, failed = passed + count, failed + (not count)
        print(f"{name}: {f'all {count} as they must be' if count else 'NOT as they must be'}", flush=True)
    return passed, failed


def main():
    if len(sys.argv) < 2:
        sys.exit(__doc__)
    program, *server = sys.argv[1:]
    program = os.path.abspath(program)
    passed = sum(example_holds(program, *example) for example in EXAMPLES)
    failed = len(EXAMPLES) - passed
    print(f"examples: {passed} of {len(EXAMPLES)} print what examples/README.md says", flush=True)
    for command, tables in (([program], TABLES), (server or [program, "lsp"], EDITOR_TABLES)):
        good, bad = tables_hold(command, tables)
        passed, failed = passed + good, failed + bad
    print(f"{passed} passed, {failed} failed")
    return 1 if failed else 0


sys.exit(main())
