#!/usr/bin/env python3
"""Drives the editor's server: python3 bench/editor/check.py [SERVER WORD ..]    (./govisd lsp)

Each case is a sentence; those that do not hold are named, and the status is 1.
"""
import json
import os
import random
import subprocess
import sys
import tempfile

sys.path.insert(0, os.path.dirname(os.path.abspath(__file__)))
from client import WAIT, Client, uri_of
from modules import main_text, write_module

TRIED, BAD = [], []


def holds(case, is_so, seen=None):
    TRIED.append(case)
    if not is_so:
        BAD.append(case)
        print(f"does not hold: {case}: {seen!r}")


def place(text, word, at=0, nth=1):
    """The line and the UTF-16 character of an offset in the nth occurrence of a word."""
    offset = -1
    for _ in range(nth):
        offset = text.index(word, offset + 1)
    front = text[: offset + at]
    line = front.count("\n")
    return line, len(front.rsplit("\n", 1)[-1].encode("utf-16-le")) // 2


def said(hover):
    return hover["contents"]["value"] if hover else ""


def begun(server, root, **capabilities):
    client = Client(server)
    client.initialize(root, **capabilities)
    return client


def manners(server, root):
    """The order of a session, and messages that are none."""
    client = Client(server)
    holds("before initialize -32002", client.request("textDocument/hover", {}).get("error", {}).get("code") == -32002)
    result = client.initialize(root, general={"positionEncodings": ["utf-8", "utf-16"]})
    holds("UTF-8 where it is offered", result["capabilities"]["positionEncoding"] == "utf-8", result)
    holds("a second initialize -32600", client.request("initialize", {}).get("error", {}).get("code") == -32600)
    holds("an unknown method -32601", client.request("textDocument/none", {}).get("error", {}).get("code") == -32601)
    holds("no position -32602", client.request("textDocument/hover", {"textDocument": {"uri": "file:///x"}}).get("error", {}).get("code") == -32602)
    client.raw(b"{ this is no json")
    holds("no JSON -32700", client.take().get("error", {}).get("code") == -32700)
    client.raw(b"[1]")
    holds("no request -32600", client.take().get("error", {}).get("code") == -32600)
    client.note("textDocument/unheard", {})
    client.note("textDocument/didChange", {"textDocument": {"uri": 3}})
    client.note("textDocument/didOpen", None)
    client.note("textDocument/didSave", {"textDocument": {"uri": uri_of(f"{root}/main.go")}})
    client.note("$/cancelRequest", {"id": 1})
    client.send({"id": "a text", "method": "workspace/symbol", "params": {"query": "Make"}})
    holds("an id that is a text comes back", client.answer("a text").get("result"))
    holds("served on", client.ask("workspace/symbol", {"query": "Make"}) != [])
    client.ask("shutdown", None)
    holds("after shutdown -32600", client.request("textDocument/hover", {}).get("error", {}).get("code") == -32600)
    client.note("exit", None)
    holds("exit after shutdown is 0", client.server.wait(timeout=WAIT) == 0)
    client = Client(server)
    result = client.initialize(root, general={"positionEncodings": ["utf-16"]})
    holds("UTF-16 where no other is offered", result["capabilities"]["positionEncoding"] == "utf-16", result)
    client.note("exit", None)
    holds("exit with no shutdown is 1", client.server.wait(timeout=WAIT) == 1)
    client = Client(server)
    client.note("exit", None)
    holds("exit before initialize is 1", client.server.wait(timeout=WAIT) == 1)
    client = Client(server, subprocess.PIPE)
    client.initialize(root)
    client.server.stdin.close()
    holds("a client that is gone ends it with 1", client.server.wait(timeout=WAIT) == 1)
    said = client.server.stderr.read()
    holds("and it says so", said == b"govisd: the editor's messages ended before it said exit\n", said)


def definitions(client, root):
    main, text = f"{root}/main.go", main_text(11)
    lib = open(f"{root}/p9/p9.go", encoding="utf-8").read()
    found = client.at("definition", main, *place(text, "r.Area", 3))
    line, character = place(lib, "Area() int {", 0)
    holds("definition of a method", found and found[0]["uri"] == uri_of(f"{root}/p9/p9.go"), found)
    holds("its range is the name", found[0]["range"] == {"start": {"line": line, "character": character}, "end": {"line": line, "character": character + 4}}, found)
    found = client.at("definition", main, *place(text, "q.Width", 3))
    holds("definition behind characters of two units", found and found[0]["uri"] == uri_of(f"{root}/p0/p0.go"), found)
    found = client.at("definition", main, *place(text, "ex.com/m/p9", 4))
    holds("definition of an import is the package's files", [it["uri"] for it in found] == [uri_of(f"{root}/p9/p9.go")], found)
    found = client.at("definition", main, *place(text, "size(s", 1))
    holds("definition of a declaration is itself", found and found[0]["range"]["start"] == dict(zip(("line", "character"), place(text, "size(s"))), found)
    found = client.at("references", main, *place(text, "p9.Make", 4), context={"includeDeclaration": True})
    holds("references with the declaration", len(found) == 2, found)
    found = client.at("references", f"{root}/p9/p9.go", *place(lib, "Make(w", 1), context={"includeDeclaration": False})
    holds("references of a declaration", [it["uri"] for it in found] == [uri_of(main)], found)
    found = client.at("references", main, *place(text, "size(s ", 5), context={"includeDeclaration": True})
    holds("references of a parameter from where it is declared", found and len(found) == 2, found)
    found = client.at("documentHighlight", main, *place(text, "r.Area"))
    holds("highlights of a local", len(found) == 4, found)
    found = client.at("hover", main, *place(text, "p9.Make", 4))
    holds("hover has the head and the comment", "func Make(w, h int) *Box9" in said(found) and "Make makes a box" in said(found), found)
    found = client.at("hover", main, *place(text, "size(r)", 5))
    holds("hover of a local has its type", "var r *p9.Box9" in said(found), found)
    found = client.ask("textDocument/documentSymbol", {"textDocument": {"uri": uri_of(f"{root}/p9/p9.go")}})
    holds("symbols of a file", [it["name"] for it in found or []] == ["Box9", "Make", "Area", "Shape", "F9"], found)
    holds("members of a type", found and [it["name"] for it in found[0]["children"]] == ["Width", "Height"], found)
    found = client.ask("workspace/symbol", {"query": "Box"})
    holds("symbols of all packages", len(found or []) == 11, found)
    now = text + "\n// tick has ``` and ```` in its comment.\nfunc tick() {\n}\n"
    client.change(main, 2, now)
    found = client.at("hover", main, *place(now, "tick() {"))
    holds("a block of a hover ends where its text does", "\n`````go\n// tick has ``` and ```` in its comment.\n`````\n" in said(found), found)
    client.change(main, 3, text)


def faults(client, root):
    main, text = f"{root}/main.go", main_text(11)
    holds("no fault", client.told(main) == [], client.diagnostics)
    client.change(main, 2, text.replace("p0.Make", "p0.Mak"))
    told = client.told(main)
    holds("one fault, and nothing that follows from it", len(told) == 1, told)
    line, character = place(text, "p0.Make", 3)
    holds("its range is the name", told and told[0]["range"] == {"start": {"line": line, "character": character}, "end": {"line": line, "character": character + 3}}, told)
    holds("its version", client.diagnostics[uri_of(main)].get("version") == 2, client.diagnostics)
    holds("its message has what the rule means", told and "Mak" in told[0]["message"] and told[0]["code"] + ": " in told[0]["message"], told)
    client.change(main, 3, text)
    holds("mended", client.told(main) == [], client.diagnostics)
    client.change(main, 3, text.replace("q := p0", "q := 1\n\tq := p0"))
    told = client.told(main)
    holds("the first of two is a place beside", told and [it["location"]["uri"] for it in told[0]["relatedInformation"]] == [uri_of(main)], told)
    client.change(main, 3, text)
    lib = open(f"{root}/p9/p9.go", encoding="utf-8").read()
    client.open(f"{root}/p9/p9.go")
    client.change(f"{root}/p9/p9.go", 2, lib.replace("func Make", "func Mke"))
    holds("a fault of an importer", len(client.told(main)) >= 1, client.diagnostics)
    client.note("textDocument/didClose", {"textDocument": {"uri": uri_of(f"{root}/p9/p9.go")}})
    holds("a closed file is as it is in the folder", client.told(main) == [], client.diagnostics)
    client.change(main, 4, text.replace('import (', 'import (\n\t"fmt"').replace("println(size(r))", "fmt.Println(size(r))"))
    told = client.told(main)
    holds("an import of the standard library is one information", [it["severity"] for it in told] == [3], told)
    for path, severity in (("example.org/far/lib", 3), ("ex.com/m/pp9", 1)):
        client.change(main, 5, text.replace('import (', f'import (\n\t_ "{path}"'))
        told = client.told(main)
        holds(f"the severity of an import of {path}", [(it["code"], it["severity"]) for it in told] == [("I2", severity)], told)
    client.change(main, 6, text)


def unused(client, root):
    """Variables that nothing uses, and files that are not read."""
    main, text = f"{root}/main.go", main_text(11)
    warned = lambda: [(it["range"]["start"]["line"], it["message"].split(" ")[0]) for it in client.told(main) if it["severity"] == 2 and it["tags"] == [1]]
    row = text[: text.index("\tprintln(size(r))")].count("\n")
    cases = [
        ("a variable that nothing uses", "\tk := 1", [(row, "k")]), ("one with var", "\tvar k int", [(row, "k")]), ("one that is only given a value", "\tk := 1\n\tk = 2", [(row, "k")]),
        ("one of two", "\tk, l := 1, 2\n\tprintln(l)", [(row, "k")]), ("the outer one of a name", "\tk := 1\n\tif q.Width > 1 {\n\t\tk := 2\n\t\tprintln(k)\n\t}", [(row, "k")]),
        ("one that is used", "\tk := 1\n\tprintln(k)", []), ("one that a sum uses", "\tk := 1\n\tk += k", []), ("one behind a pointer", "\tk := &q.Width\n\t*k = 2", []),
        ("a field that is set", "\tk := *q\n\tk.Width = 2", []), ("a constant", "\tconst k = 1", []), ("one that what is not known uses", "\tk := 1\n\tlost.Call(k, lost.Other(k))", []),
        ("one that a method uses that is not there", "\tk := 1\n\tq.Lost(k)", []), ("the blank one", "\tvar _ = 1", []),
    ]
    for version, (case, lines, wanted) in enumerate(cases, 30):
        client.change(main, version, text.replace("\tprintln(size(r))", lines))
        holds(f"unused: {case}", warned() == wanted, client.told(main))
    client.change(main, 60, text.replace("\tprintln(size(r))", "\tk := 1\n\tr."))
    holds("a text that does not parse has no variable that nothing uses", warned() == [], client.told(main))
    client.change(main, 61, text)
    os.makedirs(f"{root}/a b", exist_ok=True)
    for name in ("main_test.go", "a b.go", "vendor/x.go", "a b/x.go", "_x.go"):
        client.open(f"{root}/{name}", "package main\n\nvar x y\n")
        told = client.told(f"{root}/{name}")
        holds(f"{name} is not read, and it is said", [(it["severity"], it["range"]["start"]["line"]) for it in told] == [(3, 0)] and "nothing is checked in this file: " in told[0]["message"], told)
        client.note("textDocument/didClose", {"textDocument": {"uri": uri_of(f"{root}/{name}")}})
        holds(f"nothing is said of {name} once it is closed", client.told(f"{root}/{name}") == [], client.diagnostics)
    client.open(f"{root}/go.mod")
    holds("nothing is said of a go.mod", client.told(f"{root}/go.mod") == [], client.diagnostics)
    client.note("textDocument/didClose", {"textDocument": {"uri": uri_of(f"{root}/go.mod")}})


def broken(client, root):
    main, text = f"{root}/main.go", main_text(11)
    version = 10
    for line in ("\tr.", "\tif r.Width > ", "\tx := ", "\tfoo(", '\t"abc'):
        now = text.replace("\tprintln(size(r))", line)
        client.change(main, version, now)
        version += 1
        found = client.at("definition", main, *place(now, "p9.Make", 4))
        holds(f"definition beside {line!r}", bool(found), found)
        found = client.at("references", main, *place(now, "p9.Make", 4), context={"includeDeclaration": True})
        holds(f"references beside {line!r}", found and len(found) == 2, found)
        told = client.told(main)
        holds(f"one fault with {line!r}", len(told) == 1, told)
        headline = told[0]["message"].split("\n")[0] if told else ""
        holds(f"it says what was met with {line!r}, and no more than what helps", ("unexpected " in headline or "no end" in headline) and all(it.startswith("help: ") for it in told[0]["message"].split("\n")[1:]), told)
    client.change(main, version, text)
    holds("mended", client.told(main) == [], client.diagnostics)


COMPLETIONS = [
    ("\tr.", {"Area", "Height", "Width"}), ("\tr.A", {"Area"}), ("\tx := r.", {"Area", "Height", "Width"}), ("\tprintln(r.", {"Area", "Height", "Width"}),
    ("\tprintln(size(r.", {"Area"}), ("\tif r.", {"Area", "Height", "Width"}), ("\tfor i := 0; i < r.", {"Area", "Height", "Width"}),
    ("\tr.Width = p9.", {"F9", "Make"}), ("\treturn p9.", {"F9", "Make"}), ("\tp9.Box9{", {"Width", "Height"}), ("\tvar b p9.", {"Box9", "Shape"}),
    ("\tif q.Width > 1 { r.", {"Area"}), ("\tp", {"p0", "p9", "println"}), ("\tq.Wi", {"Width"}), ("\tprintln(q.Width, r.", {"Area", "Width"}), ("\tp4.", {"Make"}),
]


def completions(client, root):
    main, text = f"{root}/main.go", main_text(11)
    version = 100
    for line, wanted in COMPLETIONS:
        now = text.replace("\tprintln(size(r))", line)
        client.change(main, version, now)
        version += 1
        row = text[: text.index("\tprintln(size(r))")].count("\n")
        found = client.at("completion", main, row, len(line))
        names = {it["label"] for it in (found or {}).get("items", [])}
        holds(f"completion of {line!r}", wanted <= names, sorted(names))
        if line == "\tr.A":
            item = client.ask("completionItem/resolve", found["items"][0])
            holds("an item that is resolved has head and comment", "Area() int" in item.get("detail", "") and "its area" in item.get("documentation", ""), item)
        if line == "\treturn p9.":
            make = [it for it in found["items"] if it["label"] == "Make"][0]
            holds("an item has its kind and its head", make["kind"] == 3 and "func Make" in make.get("detail", ""), make)
        if line == "\tp4.":
            edit = [it for it in found["items"] if it["label"] == "Make"][0].get("additionalTextEdits")
            holds("a package that is not imported comes with the import", edit and "ex.com/m/p4" in edit[0]["newText"], edit)
            holds("in the parentheses of the others", edit and edit[0]["range"]["start"] == dict(zip(("line", "character"), place(text, "import (", 8))), edit)
    for line, back in (("\t// p4.", 0), ("\t// p4. A sentence. pr", 0), ('\tprintln("p4.")', 2), ("\tprintln(`pr`)", 2), ("\t/* p4. */", 3), ("\t/* it's q. */", 3)):
        now = text.replace("\tprintln(size(r))", line)
        client.change(main, version, now)
        version += 1
        found = client.at("completion", main, row, len(line) - back)
        holds(f"nothing is offered in {line!r}", found == {"isIncomplete": False, "items": []}, found)
    for line, wanted in (("\t// All of it.\n\tp", {"p0", "p9", "p4", "println"}), ("\t/* it's a\n\tblock. */\n\tr.A", {"Area"}), ("\tprintln(6 / r.", {"Width"}), ('\tprintln("\\"", r.', {"Width"})):
        now = text.replace("\tprintln(size(r))", line)
        client.change(main, version, now)
        version += 1
        found = client.at("completion", main, row + line.count("\n"), len(line.rsplit("\n", 1)[-1]))
        names = {it["label"] for it in found["items"]}
        holds(f"completion of {line!r}", wanted <= names, sorted(names))
    client.change(main, version, text)


def fixes(client, root):
    """Quick fixes, each tried before it is offered."""
    main, text = f"{root}/main.go", main_text(11)
    cases = [("q.Width", "q.Widht", 2, {"change Widht to Width"}), ("p0.Make", "p0.Mkae", 3, {"change Mkae to Make"}), ("ex.com/m/p9", "ex.com/m/pp9", 0, {"import ex.com/m/p9"}), ("p0.Make(1, 2)", "p4.Make(1, 2)", 0, {"import ex.com/m/p4"})]
    for version, (old, new, at, wanted) in enumerate(cases, 600):
        now = text.replace(old, new, 1)
        client.change(main, version, now)
        line, character = place(now, new, at)
        spot = {"line": line, "character": character}
        found = client.ask("textDocument/codeAction", {"textDocument": {"uri": uri_of(main)}, "range": {"start": spot, "end": spot}, "context": {"diagnostics": []}})
        titles = {it["title"] for it in found or []}
        holds(f"a fix of {new}", wanted <= titles or (new.startswith("p4") and titles), (titles, client.told(main)))
        for action in found or []:
            edit = action["edit"]["changes"][uri_of(main)][0]
            lines = now.split("\n")
            start, end = edit["range"]["start"], edit["range"]["end"]
            same = lines[start["line"]].encode("utf-16-le")
            front, back = same[: 2 * start["character"]].decode("utf-16-le"), same[2 * end["character"] :].decode("utf-16-le")
            lines[start["line"]] = front + edit["newText"] + back
            before = len(client.told(main))
            client.change(main, version, "\n".join(lines))
            holds(f"the fix {action['title']} leaves fewer faults", len(client.told(main)) < before, (action, client.told(main)))
            client.change(main, version, now)
    beside = {"line": line, "character": 0}
    found = client.ask("textDocument/codeAction", {"textDocument": {"uri": uri_of(main)}, "range": {"start": beside, "end": beside}, "context": {"diagnostics": client.told(main)}})
    holds("a fix of what the editor shows on the line", found, found)
    found = client.ask("textDocument/codeAction", {"textDocument": {"uri": uri_of(main)}, "range": {"start": beside, "end": beside}, "context": {"diagnostics": []}})
    holds("and none where it shows nothing", found == [], found)
    for only, wanted in ((["source.organizeImports"], False), (["quickfix"], True), ([""], True)):
        found = client.ask("textDocument/codeAction", {"textDocument": {"uri": uri_of(main)}, "range": {"start": spot, "end": spot}, "context": {"diagnostics": [], "only": only}})
        holds(f"fixes where the kinds {only} are wanted", bool(found) == wanted, found)
    client.change(main, 650, text)


def tokens(client, root):
    main, text = f"{root}/main.go", main_text(11).replace("\tq := p0", "\tconst k = 2\n\tprintln(k)\n\tq := p0")
    client.change(main, 670, text)
    found = client.ask("textDocument/semanticTokens/full", {"textDocument": {"uri": uri_of(main)}})["data"]
    line = character = 0
    seen = {}
    for at in range(0, len(found), 5):
        line, character = line + found[at], found[at + 1] + (character if found[at] == 0 else 0)
        word = text.split("\n")[line].encode("utf-16-le")[2 * character : 2 * (character + found[at + 2])].decode("utf-16-le")
        seen.setdefault(word, set()).add((found[at + 3], found[at + 4]))
    holds("a function and its declaration", {(5, 0), (5, 1)} <= seen.get("size", set()), seen.get("size"))
    holds("a method, a field, a package, a predeclared function", seen.get("Area") == {(6, 0)} and seen.get("Width") == {(4, 0)} and (0, 0) in seen.get("p9", set()) and seen.get("println") == {(5, 4)}, seen)
    holds("a parameter where it is declared and where it is used", seen.get("s") == {(2, 1), (2, 0)}, seen.get("s"))
    holds("a constant of a function and a variable of it", seen.get("k") == {(3, 3), (3, 2)} and seen.get("r") == {(3, 1), (3, 0)}, (seen.get("k"), seen.get("r")))
    client.change(main, 671, main_text(11))


def work(server, root):
    """Two modules of one `go.work`."""
    for name, lines in (("go.work", "go 1.22\n\nuse (\n\t./one\n\t./two // the second\n)\n"), ("one/go.mod", "module ex.com/one\n"), ("two/go.mod", "module ex.com/two\n"), ("one/a/a.go", "package a\n\nfunc A() int {\n\treturn 1\n}\n"), ("two/main.go", 'package main\n\nimport "ex.com/one/a"\n\nfunc main() {\n\tprintln(a.A(), a.B())\n}\n')):
        os.makedirs(os.path.dirname(f"{root}/{name}"), exist_ok=True)
        with open(f"{root}/{name}", "w", encoding="utf-8") as file:
            file.write(lines)
    client = begun(server, f"{root}/two")
    client.open(f"{root}/two/main.go")
    told = client.told(f"{root}/two/main.go")
    holds("modules of one workspace see one another", [it["range"]["start"] for it in told] == [{"line": 5, "character": 18}], told)
    found = client.at("definition", f"{root}/two/main.go", 5, 11)
    holds("a definition in another module", found and found[0]["uri"] == uri_of(f"{root}/one/a/a.go"), found)
    with open(f"{root}/one/a/a.go", "a", encoding="utf-8") as file:
        file.write("\nfunc B() int {\n\treturn 2\n}\n")
    client.note("workspace/didChangeWatchedFiles", {"changes": [{"uri": uri_of(f"{root}/one/a/a.go"), "type": 2}]})
    holds("a file of the folder that changed", client.told(f"{root}/two/main.go") == [], client.diagnostics)
    client.end()


def folders(server, root):
    """Files of which the editor named no folder, files outside it, a `go.mod` that changes, and texts of the folder that are not taken."""
    write_module(root, 3)
    client = Client(server)
    client.ask("initialize", {"processId": None, "rootUri": None, "capabilities": {"workspace": {"didChangeWatchedFiles": {"dynamicRegistration": True}}}})
    client.note("initialized", {})
    text = main_text(3)
    client.open(f"{root}/main.go")
    found = client.at("definition", f"{root}/main.go", *place(text, "p2.Make", 4))
    holds("the folder is that of the first file where none is named", found and found[0]["uri"] == uri_of(f"{root}/p2/p2.go"), found)
    holds("the editor is asked to watch files", [it["method"] for it in client.notes] == ["client/registerCapability"], client.notes)
    os.makedirs(f"{root} beside")
    client.open(f"{root} beside/other.go", "package other\n\nvar x y\n")
    found = client.at("hover", f"{root} beside/other.go", 2, 4)
    holds("nothing is said of a file outside", found is None and client.told(f"{root} beside/other.go") == [], (found, client.diagnostics))
    for path, faults in (("ex.com/n", 2), ("ex.com/m", 0)):
        with open(f"{root}/go.mod", "w", encoding="utf-8") as file:
            file.write(f"module {path}\n")
        client.note("workspace/didChangeWatchedFiles", {"changes": [{"uri": uri_of(f"{root}/go.mod"), "type": 2}]})
        told = client.told(f"{root}/main.go")
        holds(f"the module is {path} once its go.mod says so", len(told) == faults, told)
    half = "package p1\n\ntype Box1 struct {\n\tWide int\n\tHigh int\n}\n\nfunc F1(b Box1) int {\n\treturn b.Wide + b.High\n}\n"
    client.open(f"{root}/p1/p1.go")
    client.change(f"{root}/p1/p1.go", 2, half)
    client.change(f"{root}/p1/p1.go", 3, half.replace("\tHigh int\n", "\tHigh int\n\tLow struct {\n"))
    before = client.told(f"{root}/p1/p1.go")
    client.note("workspace/didChangeWatchedFiles", {"changes": [{"uri": uri_of(f"{root}/go.mod"), "type": 2}]})
    told = client.told(f"{root}/p1/p1.go")
    holds("a text that does not parse has its fault alone once the go.mod is read again", [it["code"] for it in told] == ["P1"] and told == before, (before, told))
    client.note("textDocument/didClose", {"textDocument": {"uri": uri_of(f"{root}/p1/p1.go")}})
    lib = f"{root}/p2/p2.go"
    with open(lib, "rb") as file:
        kept = file.read()
    for case, now, rules in (("no UTF-8", kept + b"// \xff\n", ["L1"]), ("too long", kept + b"//" + b"x" * 1_048_576, ["L1"]), ("as it was", kept, [])):
        with open(lib, "wb") as file:
            file.write(now)
        client.note("workspace/didChangeWatchedFiles", {"changes": [{"uri": uri_of(lib), "type": 2}]})
        told = [it["code"] for it in client.told(lib)]
        holds(f"a file of the folder that is {case}", told == rules and client.told(f"{root}/main.go") == [], (told, client.told(f"{root}/main.go")))
    client.end()


def renames(client, root):
    main, text = f"{root}/main.go", main_text(11)
    lib = open(f"{root}/p9/p9.go", encoding="utf-8").read()
    found = client.at("rename", main, *place(text, "p9.Make", 4), newName="Build")
    edits = {uri: len(all) for uri, all in (found or {}).get("changes", {}).items()}
    holds("a rename edits the declaration and each use", edits == {uri_of(main): 1, uri_of(f"{root}/p9/p9.go"): 1}, found)
    found = client.at("rename", main, *place(text, "r := ", 0), newName="box")
    edits = {uri: len(all) for uri, all in (found or {}).get("changes", {}).items()}
    holds("a rename of a local", edits == {uri_of(main): 4}, found)
    line, character = place(text, "size(s ", 5)
    answer = client.request("textDocument/rename", {"textDocument": {"uri": uri_of(main)}, "position": {"line": line, "character": character}, "newName": "shape"})
    edits = {uri: len(all) for uri, all in ((answer.get("result") or {}).get("changes") or {}).items()}
    holds("a rename of a parameter from where it is declared", edits == {uri_of(main): 2}, answer)
    for case, word, at, name in (("a name that is taken", "r := ", 0, "q"), ("no name", "r := ", 0, "a b"), ("a method that makes the type fit", "r.Area", 3, "Size"), ("what is not exported", "p9.Make", 4, "make9")):
        line, character = place(text, word, at)
        answer = client.request("textDocument/rename", {"textDocument": {"uri": uri_of(main)}, "position": {"line": line, "character": character}, "newName": name})
        holds(f"refused: {case}", answer.get("error", {}).get("code") == -32803, answer)
    found = client.at("prepareRename", main, *place(text, "r := "))
    line, character = place(text, "r := ")
    holds("what is renamed", found == {"start": {"line": line, "character": character}, "end": {"line": line, "character": character + 1}}, found)
    for case, word in (("a predeclared name is not renamed, and why is said", "println"), ("nor is `main`", "main() {"), ("nor a package", "p9.Make")):
        line, character = place(text, word)
        answer = client.request("textDocument/prepareRename", {"textDocument": {"uri": uri_of(main)}, "position": {"line": line, "character": character}})
        holds(case, answer.get("error", {}).get("code") == -32803 and answer["error"]["message"], answer)
    line, character = place(text, "r := ")
    answer = client.request("textDocument/rename", {"textDocument": {"uri": uri_of(main)}, "position": {"line": line, "character": character}, "newName": "size"})
    holds("a refusal names the place", "size at main.go:" in answer.get("error", {}).get("message", ""), answer)
    for name, wanted in (("make9", "make9 is not exported, and another package uses Make at main.go:"), ("F9", "a fault at p9/p9.go:")):
        line, character = place(text, "p9.Make", 4)
        answer = client.request("textDocument/rename", {"textDocument": {"uri": uri_of(main)}, "position": {"line": line, "character": character}, "newName": name})
        holds(f"why Make is not renamed to {name}", wanted in answer.get("error", {}).get("message", ""), answer)


def signatures(client, root):
    main, text = f"{root}/main.go", main_text(11)
    now = text.replace("\tprintln(size(r))", "\tp9.Make(3, ")
    client.change(main, 200, now)
    row = text[: text.index("\tprintln(size(r))")].count("\n")
    found = client.at("signatureHelp", main, row, len("\tp9.Make(3, "))
    holds("the signature of what is called", found and found["signatures"][0]["label"].startswith("func Make(w, h int)") and found["activeParameter"] == 1, found)
    for line, back in (('\tp9.Make(3, "a, (b', 0), ('\tp9.Make(3, "a, (b", 5)', 6), ("\tp9.Make(3, /* a, (b */ 5)", 6), ("\tp9.Make(3, `a, (", 0), ("\tp9.Make(/* , */ 3, ", 0)):
        client.change(main, 201, text.replace("\tprintln(size(r))", line))
        found = client.at("signatureHelp", main, row, len(line) - back)
        holds(f"the signature in {line!r}", found and found["signatures"][0]["label"].startswith("func Make(w, h int)") and found["activeParameter"] == 1, found)
    client.change(main, 202, text)


def units(text, offset):
    """The line and the UTF-16 character of an offset."""
    front = text[:offset]
    return {"line": front.count("\n"), "character": len(front.rsplit("\n", 1)[-1].encode("utf-16-le")) // 2}


def edits(client, root):
    """Edits of parts, among characters of two units and over lines."""
    main = f"{root}/main.go"
    text = main_text(11).replace("\tr := p9", "\t/* é😀x */ r := p9")
    client.change(main, 300, text)
    chance = random.Random(7)
    for version in range(301, 420):
        start, end = text.index("/*") + 2, text.index("*/")
        first, second = sorted(chance.randint(start, end) for _ in range(2))
        second = min(second, first + 3)
        new = "".join(chance.choice("aé😀\n x") for _ in range(chance.randint(0, 4)))
        client.note("textDocument/didChange", {"textDocument": {"uri": uri_of(main), "version": version}, "contentChanges": [{"range": {"start": units(text, first), "end": units(text, second)}, "text": new}]})
        text = text[:first] + new + text[second:]
        if version % 7 == 0:
            where = units(text, text.index("r.Area"))
            found = client.at("definition", main, where["line"], where["character"])
            offset = text.index("r := p9")
            holds("the text after edits of parts", found and found[0]["range"] == {"start": units(text, offset), "end": units(text, offset + 1)}, (text, found))
    client.change(main, 500, main_text(11))


def beside(server, root):
    """Faults of files that are not open: each is told once, as long as it is as it was."""
    write_module(root, 4)
    for number in range(4):
        with open(f"{root}/p{number}/more.go", "w", encoding="utf-8") as file:
            file.write(f'package p{number}\n\nimport "fmt"\n\nfunc Show() {{\n\tfmt.Println({number})\n}}\n')
    client = begun(server, root)
    main, text = f"{root}/main.go", main_text(4)
    others = [uri_of(f"{root}/p{number}/more.go") for number in range(4)]
    rules = lambda: [[it["code"] for it in client.diagnostics.get(uri, {"diagnostics": []})["diagnostics"]] for uri in others]
    client.open(main)
    holds("files that are not open have their faults", client.told(main) == [] and rules() == [["I2"]] * 4, client.diagnostics)
    client.diagnostics.clear()
    client.change(main, 2, text.replace("println(size(r))", "println(size(r), 1)"))
    client.told(main)
    holds("a key tells of the open file alone", list(client.diagnostics) == [uri_of(main)], list(client.diagnostics))
    more = f"{root}/p2/more.go"
    client.open(more)
    client.told(more)
    holds("a file that is opened has its version", client.diagnostics[uri_of(more)].get("version") == 1, client.diagnostics)
    client.note("textDocument/didClose", {"textDocument": {"uri": uri_of(more)}})
    client.told(more)
    holds("and none once it is closed", "version" not in client.diagnostics[uri_of(more)] and rules()[2] == ["I2"], client.diagnostics)
    client.diagnostics.clear()
    with open(more, "w", encoding="utf-8") as file:
        file.write('package p2\n\n\nimport "fmt"\n\nfunc Show() {\n\tfmt.Println(2)\n}\n')
    client.note("workspace/didChangeWatchedFiles", {"changes": [{"uri": uri_of(more), "type": 2}]})
    told = client.told(more)
    holds("a file of the folder that changed has its faults anew", [it["range"]["start"]["line"] for it in told] == [3] and list(client.diagnostics) == [uri_of(more)], client.diagnostics)
    os.makedirs(f"{root}/a")
    with open(f"{root}/a/a.go", "w", encoding="utf-8") as file:
        file.write('package a\n\nimport "fmt"\n\nfunc Show() {\n\tfmt.Println(2)\n}\n')
    client.diagnostics.clear()
    client.note("workspace/didChangeWatchedFiles", {"changes": [{"uri": uri_of(f"{root}/a/a.go"), "type": 1}]})
    told = client.told(f"{root}/a/a.go")
    holds("so has one of a new package, and no other one", [it["code"] for it in told] == ["I2"] and list(client.diagnostics) == [uri_of(f"{root}/a/a.go")], client.diagnostics)
    with open(f"{root}/p3/more.go", "w", encoding="utf-8") as file:
        file.write("package p3\n")
    client.note("workspace/didChangeWatchedFiles", {"changes": [{"uri": uri_of(f"{root}/p3/more.go"), "type": 2}]})
    holds("what is mended is told", client.told(f"{root}/p3/more.go") == [] and others[3] in client.diagnostics, client.diagnostics)
    client.end()


def storm(server, root):
    """Many changes at once, in one write and byte by byte: what is told in the end is what the last text has."""
    main, text = f"{root}/main.go", main_text(11)
    for pieces in (False, True):
        client = begun(server, root)
        client.open(main)
        sent = b""
        for version in range(2, 60):
            now = text.replace("p0.Make", "p0.Mak") if version % 2 else text
            body = json.dumps({"jsonrpc": "2.0", "method": "textDocument/didChange", "params": {"textDocument": {"uri": uri_of(main), "version": version}, "contentChanges": [{"text": now}]}}, ensure_ascii=False).encode()
            sent += b"Content-Length: %d\r\n\r\n" % len(body) + body
        for at in range(0, len(sent), 97 if pieces else len(sent)):
            client.server.stdin.write(sent[at : at + (97 if pieces else len(sent))])
            client.server.stdin.flush()
        told = client.told(main)
        holds("after a storm what the last text has", client.diagnostics[uri_of(main)].get("version") == 59 and len(told) >= 1, client.diagnostics.get(uri_of(main)))
        client.change(main, 60, text)
        holds("and nothing where that has nothing", client.told(main) == [], client.diagnostics)
        client.end()


def main():
    server = sys.argv[1:] or ["./govisd", "lsp"]
    with tempfile.TemporaryDirectory() as folder:
        root = f"{folder}/ws é"
        write_module(root, 11)
        manners(server, root)
        client = begun(server, root)
        client.open(f"{root}/main.go")
        definitions(client, root)
        faults(client, root)
        broken(client, root)
        unused(client, root)
        completions(client, root)
        renames(client, root)
        signatures(client, root)
        fixes(client, root)
        tokens(client, root)
        edits(client, root)
        holds("the end is 0", client.end() == 0)
        storm(server, root)
        beside(server, f"{folder}/beside")
        work(server, f"{folder}/work")
        folders(server, f"{folder}/alone")
    print(f"{len(TRIED)} cases, {len(BAD)} do not hold")
    sys.exit(1 if BAD else 0)


main()
