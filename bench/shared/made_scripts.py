#!/usr/bin/env python3
"""Makes long scripts of sessions, each with its replies, which were worked out from docs/RULES.md and docs/DAEMON.md:

    python3 bench/shared/made_scripts.py FOLDER [NAME]..

A script is FOLDER/NAME.txt, and its replies are FOLDER/NAME.replies. Without names it makes those that are below; `history` takes 50 MB.
"""
import json
import os
import sys


def compact(value):
    return json.dumps(value, separators=(",", ":"), sort_keys=True, ensure_ascii=False)


class Script:
    """Requests with their replies."""

    def __init__(self):
        self.requests = []
        self.replies = []

    def line(self, line, reply):
        self.requests.append(line)
        self.replies.append(compact(reply))

    def ask(self, session, cmd, reply, **members):
        """A request with what stands behind `ok`, or the rule that refuses it."""
        answer = {"err": reply} if isinstance(reply, str) else {"ok": reply}
        self.line(compact({"cmd": cmd, "s": session, **members}), {**answer, "s": session})

    def open(self, session, module, rule=None):
        self.ask(session, "open", rule or {"module": module}, module=module)

    def edit(self, session, path, file, text, rule=None):
        self.ask(session, "edit", rule or {}, path=path, file=file, text=text)

    def build(self, session, batch, faults=()):
        self.ask(session, "build", {"batch": batch, "faults": [{"at": at, "rule": rule} for at, rule in faults]})

    def write(self, folder, name):
        for ending, lines in (("txt", self.requests), ("replies", self.replies)):
            with open(os.path.join(folder, f"{name}.{ending}"), "w", encoding="utf-8", newline="") as file:
                file.writelines(line + "\n" for line in lines)


LONGEST_LINE = 2_097_152
LONGEST_TEXT = 1_048_576


def lines():
    """Lines at the limit of length, a request among them, and one that is a byte longer, which ends all."""
    script = Script()
    script.line("a" * LONGEST_LINE, {"err": "V2"})
    script.line(compact({"cmd": "open", "module": "ex.com/a", "s": 1}).ljust(LONGEST_LINE), {"ok": {"module": "ex.com/a"}, "s": 1})
    script.edit(1, "ex.com/a", "a.go", "package a\n")
    script.build(1, 1)
    script.line("a" * (LONGEST_LINE + 1), {"err": "V1"})
    script.requests.append(compact({"cmd": "close", "s": 1}))
    return script


def blank():
    """A blank line that is too long."""
    script = Script()
    script.requests.append(" " * LONGEST_LINE)
    script.open(1, "ex.com/a")
    script.line(" " * (LONGEST_LINE + 1), {"err": "V1"})
    return script


def sizes():
    """Texts, packages and modules at their limits of size, and one beyond."""
    script = Script()
    script.open(1, "ex.com/a")
    longest = "package a\n\nconst V = 1 //".ljust(LONGEST_TEXT)
    script.edit(1, "ex.com/a", "a.go", longest)
    script.edit(1, "ex.com/a", "a.go", longest + " ", "E3")
    script.edit(1, "ex.com/a", "b.go", "package a\n//" + "é" * ((LONGEST_TEXT - 12) // 2))
    script.edit(1, "ex.com/a", "b.go", "package a\n//" + "é" * ((LONGEST_TEXT - 12) // 2 + 1), "E3")
    script.build(1, 1)
    for number in range(256):
        script.edit(1, "ex.com/a/p", f"f{number}.go", "package p\n")
    script.edit(1, "ex.com/a/p", "more.go", "package p\n", "E4")
    script.edit(1, "ex.com/a/p", "more.go", longest + " ", "E3")
    script.edit(1, "ex.com/a/p", "f7.go", "package p\n\nconst V = none\n")
    script.build(1, 2, [("ex.com/a/p/f7.go:21", "N1")])
    script.edit(1, "ex.com/a/p", "f7.go", None)
    script.edit(1, "ex.com/a/p", "more.go", "package p\n")
    for number in range(126):
        script.edit(1, f"ex.com/a/q{number}", "f.go", "package q\n")
    script.edit(1, "ex.com/a/more", "f.go", "package q\n", "E5")
    script.edit(1, "ex.com/a/q7", "f.go", None)
    script.edit(1, "ex.com/a/more", "f.go", "package q\n")
    script.build(1, 3)
    return script


def modules():
    """As many modules as may be taken, of which one session published each, and as many sessions as may be open."""
    script = Script()
    for number in range(1, 33):
        script.open(1, f"ex.com/m{number}")
        script.build(1, number)
        script.ask(1, "close", {})
    script.open(1, "ex.com/more", "O4")
    for number in range(1, 33):
        script.open(number, f"ex.com/m{number}")
    script.build(32, 33)
    return script


def ring():
    """4,096 types, each of which embeds a pointer to the next one, the last to the first."""
    script = Script()
    types = "".join(f"type T{n} struct{{ *T{n + 1} }}\n" for n in range(4095))
    text = f"package a\n\n{types}type T4095 struct {{\n\t*T0\n\tf int\n}}\n\nfunc g(x T0) int {{ return x.f + x.none }}\n"
    use = text.index("x.f")
    script.open(1, "ex.com/a")
    script.edit(1, "ex.com/a", "a.go", text)
    script.build(1, 1, [(f"ex.com/a/a.go:{text.index('none')}", "S1")])
    place = {"path": "ex.com/a", "file": "a.go"}
    script.ask(1, "define", {"batch": 1, "decl": f"ex.com/a/a.go:{text.index('f int')}"}, offset=use + 2, **place)
    script.ask(1, "define", "S1", offset=text.index("none"), **place)
    return script


def deep_texts(more=0):
    """Packages without fault whose trees are as high as trees may be, 200, or so much higher: all that can stand inside itself does, many times."""
    n, m, odd = 198 + more, 196 + more, ";" * more
    return {name: "package a\n\n" + text for name, text in {
        "parentheses": f"const c = {'(' * n}1{')' * n}\n",
        "signs": f"const c = {'-+' * 99}{'-' * more}1\n",
        "negations": f"const c = {'!' * n}true\n",
        "operators": f"const c = 1{' + 1' * n}\n",
        "pointers": f"var v {'*' * n}int\n",
        "types": f"var v {'(' * n}int{')' * n}\n",
        "structs": f"var v {'struct{ a ' * n}int{' }' * n}\n",
        "interfaces": f"var v {'interface{ m() ' * n}int{' }' * n}\n",
        "parameters": f"func f(a {'*' * n}int) {{ }}\n",
        "results": f"func f() (a {'(' * n}int{')' * n}) {{ return }}\n",
        "selectors": f"type T struct{{ t *T }}\n\nfunc f(x *T) *T {{ return x{'.t' * m} }}\n",
        "calls": f"type T struct{{ t *T }}\n\nfunc (x *T) m() *T {{ return x.t }}\n\nfunc f(x *T) *T {{ return x{'.m()' * 98}{'.t' * more} }}\n",
        "arguments": f"func f(x int) int {{ return {'f(' * m}x{')' * m} }}\n",
        "literals": f"type T struct{{ t any }}\n\nfunc f() T {{ return {'T{t: ' * (m - 1)}T{{}}{'}' * (m - 1)} }}\n",
        "assigned": f"func f(x int) {{ x = {'(' * m}x{')' * m} }}\n",
        "declared": f"func f(x int) {{ var y = {'(' * m}x{')' * m} }}\n",
        "blocks": f"func f() {{ {'{' * n}{'}' * n} }}\n",
        "ifs": f"func f() {{ {'if true { ' * 99}{odd}{'} ' * 99}}}\n",
        "elses": f"func f() {{ if true {{ }}{' else if true { }' * m} }}\n",
        "fors": f"func f() {{ {'for { ' * 99}{odd}{'} ' * 99}}}\n",
    }.items()}


def deep():
    """Packages as high as trees may be."""
    script = Script()
    script.open(1, "ex.com/a")
    for name, text in deep_texts().items():
        script.edit(1, f"ex.com/a/{name}", "a.go", text)
    script.build(1, 1)
    return script


def history():
    """As many events as a daemon takes: an open and a close are one each, and so is the build of a module without packages and its publication."""
    script = Script()
    script.open(1, "ex.com/a")
    for _ in range(524_287):
        script.open(2, "ex.com/b")
        script.ask(2, "close", {})
    script.open(2, "ex.com/b")
    script.ask(3, "open", "H1", module="ex.com/c")
    script.ask(1, "build", "H1")
    script.ask(3, "open", "O3", module="ex.com/a/b")
    script.edit(1, "ex.com/a", "a.go", "package a\n")
    script.ask(1, "list", "Q1", **{"from": "ex.com/a"})
    script.ask(2, "close", {})
    script.ask(2, "open", "H1", module="ex.com/b")
    return script


MADE = {"lines": lines, "blank": blank, "sizes": sizes, "modules": modules, "ring": ring, "deep": deep}

if __name__ == "__main__":
    folder, *names = sys.argv[1:]
    for it in names or MADE:
        {**MADE, "history": history}[it]().write(folder, it)
