#!/usr/bin/env python3
"""run_cases.py GOVISD [NAME ..]: runs small Go programs by `govisd run`, and compares what they print, what is said on standard error, and the status.

Each folder beside this file is a case, or those that are named: a tree of Go files, and `runs.txt` with what is run in it and what has to come, which was
worked out from docs/RULES.md. There a run is

    $ govisd run . --module ex.com/m --steps 3     the command
    3 true                                         lines of standard output
    ! govisd: the steps are done                   lines of standard error, each behind `! `
    status 3                                       the status, which ends the run

with blank lines between runs. Status 0 where all is as it has to be, 1 where not, 2 where nothing could be run."""
import os
import shlex
import subprocess
import sys

CASES = os.path.dirname(os.path.realpath(__file__))
SECONDS = 60


def runs_in(text):
    """The runs of a file: the words of each command, and the output, the error and the status that it has to give."""
    command, output, error = None, [], []
    for line in text.splitlines(keepends=True):
        if command is None:
            if line.startswith("$ "):
                command, output, error = shlex.split(line[2:]), [], []
            elif line.strip():
                raise ValueError(f"no command before: {line!r}")
        elif line.startswith("status "):
            yield command, ("".join(output), "".join(error), int(line.split()[1]))
            command = None
        elif line.startswith("! "):
            error.append(line[2:])
        else:
            output.append(line)
    if command is not None:
        raise ValueError(f"no status behind: {shlex.join(command)}")


def ran(program, words, folder):
    """What a command writes and says, and its status."""
    try:
        it = subprocess.run([program, *words], cwd=folder, stdin=subprocess.DEVNULL, capture_output=True, timeout=SECONDS, check=False)
    except subprocess.TimeoutExpired:
        return "", f"it took more than {SECONDS} seconds\n", None
    return it.stdout.decode(errors="backslashreplace"), it.stderr.decode(errors="backslashreplace"), it.returncode


def shown(answer):
    output, error, status = answer
    return f"    output {output!r}\n    error {error!r}\n    status {status}"


def main():
    if len(sys.argv) < 2 or not os.access(sys.argv[1], os.X_OK):
        print(__doc__, file=sys.stderr)
        return 2
    program, names = os.path.realpath(sys.argv[1]), sys.argv[2:] or sorted(it for it in os.listdir(CASES) if os.path.exists(f"{CASES}/{it}/runs.txt"))
    passed = failed = 0
    for name in names:
        folder = os.path.join(CASES, name)
        with open(os.path.join(folder, "runs.txt"), encoding="utf-8") as it:
            runs = [*runs_in(it.read())]
        for command, wanted in runs:
            found = ran(program, command[1:], folder)
            if found == wanted:
                passed += 1
                continue
            failed += 1
            print(f"FAILED: {name}: {shlex.join(command)}\n  wanted\n{shown(wanted)}\n  found\n{shown(found)}")
    print(f"{passed} passed, {failed} failed")
    return 1 if failed or not passed else 0


if __name__ == "__main__":
    sys.exit(main())
