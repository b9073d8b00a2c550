#!/usr/bin/env python3
"""mutants.py GOVISD [COUNT]: what `govisd check` shows of small modules with one mistake each, beside go/types.

A module is one of checked.py, without a fault: some packages, each of which imports up to three of those before it. One token of it is changed: a name becomes another one of the same
file, a number a string, an operator another operator, a bracket goes, a word is spelled otherwise. COUNT such modules (400 unless given) are checked.

It counts the modules in which go/types finds an error, those of which govisd shows nothing then, and those faults that govisd shows at a line where go/types has no
error; of a text without a tree (P1) any error in its file will do. The status is 1 where govisd is silent of a module with an error, or more than 3 of 100 faults stand at a line where go/types has none."""
import collections
import json
import os
import re
import subprocess
import sys
import tempfile

HERE = os.path.dirname(os.path.abspath(__file__))
sys.path.insert(0, f"{HERE}/../shared")
import checked
from generate import Numbers

MEMBER = re.compile(r"^-- ex\.com/m/(\S+) --\n(.*?)(?=^-- |\Z)", re.M | re.S)
TOKEN = re.compile(r'//[^\n]*|"(?:\\.|[^"\\\n])*"|[A-Za-z_]\w*|\d+|:=|[=!<>]=|&&|\|\||\s+|.', re.S)
WORDS = set("break case const continue else for func if import interface map package range return struct type var true false".split())
OPERATORS = ("+", "-", "*", "==", "!=", "<", "&&", "||")


def changed(numbers, text):
    """The text with one token changed."""
    tokens = list(TOKEN.finditer(text))
    names = [it[0] for it in tokens if it[0][0].isalpha() and it[0] not in WORDS]
    while True:
        it = numbers.pick(tokens)
        word = it[0]
        if word[0].isalpha() and word not in WORDS:
            cut = numbers.below(max(len(word) - 1, 1))
            new = numbers.pick([numbers.pick(names), word[:cut] + word[cut + 1 :] or "x", word + "s"])
        elif word.isdigit():
            new = f'"{word}"'
        elif word[0] == '"' and "ex.com" not in word:
            new = "7"
        elif word in OPERATORS:
            new = numbers.pick(OPERATORS)
        elif word in "(){}," and numbers.below(4) == 0:
            new = ""
        elif word == "return" and numbers.below(2) == 0:
            new = ""
        else:
            continue
        if new != word:
            return text[: it.start()] + new + text[it.end() :]


def shown(program, members):
    """The faults that are shown, as (file, rule, line)."""
    with tempfile.TemporaryDirectory() as folder:
        for path, text in [("go.mod", "module ex.com/m\n"), *members]:
            os.makedirs(os.path.dirname(f"{folder}/{path}"), exist_ok=True)
            with open(f"{folder}/{path}", "w", encoding="utf-8") as file:
                file.write(text)
        ran = subprocess.run([program, "check", "--format", "json", folder], stdout=subprocess.PIPE, stderr=subprocess.PIPE, text=True)
    if ran.returncode not in (0, 1):
        sys.exit(f"status {ran.returncode}\n{ran.stderr}")
    faults = [json.loads(line) for line in ran.stdout.splitlines()]
    return [(it["file"], it["rule"], it["line"]) for it in faults if it["severity"] == "error" and not it["cause"]]


def errors(peer, members):
    """Where go/types finds errors, as (file, line)."""
    with tempfile.NamedTemporaryFile("w", suffix=".txtar") as file:
        file.write("".join(f"-- ex.com/m/{path} --\n{text}" for path, text in members))
        file.flush()
        ran = subprocess.run([peer, "errors", file.name], stdout=subprocess.PIPE, text=True, check=True)
    return [(it[1], int(it[2])) for it in re.finditer(r"^ex\.com/m/(\S+?):(\d+):\d+: ", ran.stdout, re.M)]


def main(program, count="400"):
    program = os.path.abspath(program)
    peer = subprocess.run([f"{HERE}/../shared/go_peer.sh", "shared/gofront"], stdout=subprocess.PIPE, text=True, check=True).stdout.strip()
    seen, rules, lines, other = collections.Counter(), collections.Counter(), 0, 0
    for seed in range(int(count)):
        numbers = Numbers(seed)
        members = [(it[1], it[2]) for it in MEMBER.finditer(checked.packages(9 + seed % 7))]
        which = numbers.below(len(members))
        members[which] = members[which][0], changed(numbers, members[which][1])
        theirs, ours = errors(peer, members), shown(program, members)
        seen["modules with an error"] += bool(theirs)
        seen["lines of go/types"] += len(theirs)
        if theirs and not ours:
            seen["silent"] += 1
            print(f"seed {seed}: govisd shows nothing, go/types {theirs[0]}")
        lines += len(ours)
        for file, rule, line in ours:
            if (file, line) not in theirs and not (rule == "P1" and file in {it for it, _ in theirs}):
                other += 1
                rules[rule] += 1
                print(f"seed {seed}: {file}:{line}: {rule}, where go/types has {theirs[:1]}")
    print(f"{count} modules: {seen['modules with an error']} with an error by go/types ({seen['lines of go/types']} lines); govisd shows {lines} faults,")
    print(f"nothing of {seen['silent']} modules with an error, and {other} where go/types has no error: {dict(rules)}")
    return 1 if seen["silent"] or other * 100 > 3 * lines else 0


if __name__ == "__main__":
    sys.exit(main(*sys.argv[1:]))
