"""What `go list` says that packages of a workspace may import and what their imports are, beside what `list` answers: read by queries.py.

All workspaces are folders of one module. For each package a copy of its workspace has a file more in it, which imports all packages that do not lead to
it; for each package that leads to it, by imports that are refused too, one that imports this one alone."""
import json
import os
import re
import shutil
import subprocess

ABOVE = "ex.com"  # the module that all workspaces lie in
PROBE = "zz9.go"  # the file that a copy has more
GO = {"GOFLAGS": "-mod=mod", "GOPROXY": "off", "GO111MODULE": "on", "GOWORK": "off", "GOTOOLCHAIN": "local"}
FIELDS = "ImportPath,Name,GoFiles,Imports,Deps,Error,DepsErrors"
ESCAPED = ABOVE + r"/\x77"
INTERNAL = re.compile(r"use of internal package \S+ not allowed")
PROGRAM = re.compile(r'import "([^"]+)" is a program, not an importable package')
CYCLE = re.compile(r"import cycle not allowed")
MALFORMED = re.compile(r"invalid import path|malformed import path")
CLAUSE = re.compile(r"^package (\w+)", re.MULTILINE)


def may_import(importer, path):
    """Whether a package may import a path, by the rule of internal directories."""
    of, elements = importer.split("/"), path.split("/")
    return all(of[:at] == elements[:at] for at, element in enumerate(elements) if element == "internal")


class Tree:
    """A workspace: its texts by place, and what `go list` says of its packages."""

    def __init__(self, texts):
        self.texts = texts
        # what `go list` is shown: roots are replaced there, and some imports are spelled with an escape
        self.plain = {place: text.replace(ESCAPED, f"{ABOVE}/w") for place, text in texts.items()}
        self.root = "/".join(next(iter(texts)).split("/")[:2])
        self.paths = sorted({place.rsplit("/", 1)[0] for place in texts})
        self.records, self.refused, self.copies, self.has_cycle = {}, set(), {}, False
        self.unparsed, self.assembled = set(), {}

    def is_malformed(self):
        """Whether an import is of no path: `go list` reads no more of such a file."""
        return any(MALFORMED.search(error["Err"]) for record in self.records.values() for error in errors_of(record))

    def is_assembled(self, path):
        if path not in self.assembled:
            self.assembled[path] = self.assembles(path)
        return self.assembled[path]

    def assembles(self, path):
        """Whether the files of a package parse, and have one name that is not the blank one."""
        places = [place for place in self.texts if place.rsplit("/", 1)[0] == path]
        named = {clause for place in places for clause in CLAUSE.findall(self.texts[place])[:1]}
        return len(named) == 1 and "_" not in named and not self.unparsed.intersection(places)

    def passes(self, importer, path):
        """Whether an import leads to a package, cycles aside."""
        return path in self.records and (importer, path) not in self.refused and self.is_assembled(path) and self.records[path]["Name"] != "main"

    def edges(self, path):
        if path not in self.records or not self.is_assembled(path):
            return []
        return [to for to in self.records[path].get("Imports") or () if self.passes(path, to)]

    def written(self, path):
        """All imports of a package of the workspace, those that are refused among them."""
        return [to for to in self.records.get(path, {}).get("Imports") or () if to in self.records]

    def reached(self, path, edges):
        """What edges lead to from a package."""
        found, open_paths = set(), [path]
        while open_paths:
            for to in edges(open_paths.pop()):
                if to not in found:
                    found.add(to)
                    open_paths.append(to)
        return found

    def imports(self, path):
        """The imports of a package that lie on no cycle."""
        return [to for to in self.edges(path) if to != path and path not in self.reached(to, self.edges)]

    def entry(self, importer, path):
        """What `list` shows of a package to another."""
        record = self.records[path]
        deps = self.reached(path, self.imports)
        return {
            "Deps": sorted(it for it in deps if may_import(importer, it)),
            "GoFiles": sorted(record.get("GoFiles") or ()),
            "ImportPath": path,
            "Imports": sorted(it for it in self.imports(path) if may_import(importer, it)),
            "Name": record["Name"],
        }


def write_tree(folder, root, tree, more):
    """Writes the files of a workspace below another root, with some more."""
    for place, text in {**tree.plain, **more}.items():
        file = os.path.join(folder, (root + place[len(tree.root) :])[len(ABOVE) + 1 :])
        os.makedirs(os.path.dirname(file), exist_ok=True)
        with open(file, "w", encoding="utf-8", newline="") as it:
            it.write(text.replace(tree.root, root))


def listed(go, cache, folder):
    """The records of all packages of the module in a folder."""
    with open(os.path.join(folder, "go.mod"), "w", encoding="ascii") as it:
        it.write(f"module {ABOVE}\n\ngo 1.19\n")
    words = [go, "list", "-e", f"-json={FIELDS}", "./..."]
    ran = subprocess.run(words, cwd=folder, env={**os.environ, **GO, "GOCACHE": os.path.abspath(cache)}, stdout=subprocess.PIPE, stderr=subprocess.DEVNULL, check=True)
    decoder, text, at, found = json.JSONDecoder(), ran.stdout.decode(), 0, {}
    while at < len(text.rstrip()):
        record, at = decoder.raw_decode(text, at)
        at += len(text[at:]) - len(text[at:].lstrip())
        found[record["ImportPath"]] = record
    return found


def unparsed(go, folder):
    """The files below a folder that go/parser refuses, by gofmt: `go list` reads no more of a file than its imports."""
    ran = subprocess.run([os.path.join(os.path.dirname(go), "gofmt"), "-l", folder], stdout=subprocess.DEVNULL, stderr=subprocess.PIPE, check=False)
    found = re.findall(rf"^{re.escape(folder)}/(.+?\.go):\d+:\d+: ", ran.stderr.decode(), re.MULTILINE)
    return {f"{ABOVE}/{file}" for file in found}


def errors_of(record):
    return [error for error in [record.get("Error"), *(record.get("DepsErrors") or ())] if error]


def imported_at(tree, root, error, more):
    """The importer and the import at the place of an error, as of the workspace itself."""
    found = re.match(r"(.+)/([^/]+\.go):(\d+):", error.get("Pos", ""))
    if not found:
        return None
    importer = tree.root + f"{ABOVE}/{found[1]}"[len(root) :]
    text = {**tree.plain, **more}.get(f"{importer}/{found[2]}")
    path = re.search(r'"([^"]+)"', text.split("\n")[int(found[3]) - 1]) if text else None
    return path and (importer, re.sub(r"\\x([0-9a-f]{2})", lambda byte: chr(int(byte[1], 16)), path[1]))


def note_errors(tree, root, records, more):
    """The imports that `go list` refuses below a root, and whether it names a cycle there. That a package is a program it says once of a package and of all that
    this leads to, at one import."""
    refused, is_cycle = set(), False
    for path, record in records.items():
        if path == root or path.startswith(root + "/"):
            for error in errors_of(record):
                is_cycle = is_cycle or bool(CYCLE.search(error["Err"]))
                program = PROGRAM.search(error["Err"])
                if INTERNAL.search(error["Err"]) or program:
                    refused.add(imported_at(tree, root, error, more))
                if program and program[1] in (record.get("Imports") or ()):
                    refused.add((tree.root + path[len(root) :], tree.root + program[1][len(root) :]))
    return refused - {None}, is_cycle


def probe(tree, importer, paths):
    """The file that a copy has more in a package, which imports these."""
    lines = "".join(f'import _ "{path}"\n' for path in paths)
    return {f"{importer}/{PROBE}": f"package {tree.records[importer]['Name']}\n{lines}"}


def plan_copies(tree, number):
    """The copies of a workspace, by their roots: the importer, and what it imports more."""
    found = {}
    for importer in filter(tree.is_assembled, tree.paths):
        others = [path for path in tree.paths if path != importer and tree.is_assembled(path)]
        leading = [path for path in others if importer in tree.reached(path, tree.written)]
        for some in [[path for path in others if path not in leading], *([path] for path in leading)]:
            found[f"{ABOVE}/c{number:03}x{len(found):03}"] = (importer, some)
    return found


def ask_go(go, cache, folder, trees):
    """Sets what `go list` says of the packages of workspaces, and of copies of them with more imports."""
    shutil.rmtree(folder, ignore_errors=True)
    for tree in trees:
        write_tree(folder, tree.root, tree, {})
    records, refused = listed(go, cache, folder), unparsed(go, folder)
    shutil.rmtree(folder)
    planned = []
    for number, tree in enumerate(trees):
        tree.records = {path: records[path] for path in tree.paths if path in records}
        tree.unparsed = refused.intersection(tree.texts)
        tree.refused, tree.has_cycle = note_errors(tree, tree.root, records, {})
        for root, (importer, paths) in plan_copies(tree, number).items():
            planned.append((tree, root, importer, paths))
            write_tree(folder, root, tree, probe(tree, importer, paths))
    records = listed(go, cache, folder)
    for tree, root, importer, paths in planned:
        below = {path: record for path, record in records.items() if path == root or path.startswith(root + "/")}
        refused, is_cycle = note_errors(tree, root, below, probe(tree, importer, paths))
        for path in paths:
            tree.copies[importer, path] = ((importer, path) in refused, is_cycle)


def is_importable(tally, tree, importer, path):
    """Whether a package of the same workspace may import another by what `go list` says, which must be what the rules say."""
    if path == importer or not tree.is_assembled(path):
        return False
    is_refused, is_cycle = tree.copies[importer, path]
    by_rules = not may_import(importer, path) or tree.records[path]["Name"] == "main"
    leads = importer in tree.reached(path, tree.edges)
    if is_refused != by_rules and not leads:
        tally.differ("list: go list refuses an import that the rules let pass, or the other way", f"{importer} {path} {is_refused}")
    if tree.has_cycle:
        tally.add("list: imports whose cycles are judged by edges, since there is a cycle before")
    elif is_cycle and not leads and importer in tree.reached(path, tree.written):
        tally.add("list: go list names a cycle through an import that is refused for another reason, which is no edge")
    elif is_cycle != leads and not is_refused:
        tally.differ("list: go list names a cycle where no edges lead back, or the other way", f"{importer} {path} {is_cycle}")
    tally.add("list, go list: " + ("refused (internal, main)" if is_refused else "on a cycle" if leads else "may be imported"))
    return not is_refused and not leads


def compare_entry(tally, what, wanted, given, record, importer):
    if given != wanted:
        tally.differ(f"list: {what}", f"{importer}: {given} and not {wanted}")
        return
    tally.add(f"list: {what} is the same")
    if not errors_of(record) and sorted(record.get("Deps") or ()) == wanted["Deps"] and sorted(record.get("Imports") or ()) == wanted["Imports"]:
        tally.add("list: entries with Imports and Deps as go list itself has them")


def ask(script, session, tally, tree, trees):
    """Asks `list` from each package of a workspace, and from a path that has none."""
    script.refused(tally, "list: from a path that no package has", "Q1", cmd="list", s=session, **{"from": f"{tree.root}/none9"})
    for importer in tree.paths:
        if not tree.is_assembled(importer):
            script.refused(tally, "list: from a package that does not assemble", "Q1", cmd="list", s=session, **{"from": importer})
            continue
        script.ask(lambda reply, importer=importer: compare(tally, tree, trees, importer, reply), cmd="list", s=session, **{"from": importer})


def compare(tally, tree, trees, importer, reply):
    """Compares the answer to `list` from a package."""
    if "ok" not in reply:
        tally.differ("list: refused", f"{importer} {reply}")
        return
    compare_entry(tally, "the entry of the package itself", tree.entry(importer, importer), reply["ok"]["self"], tree.records[importer], importer)
    wanted = {path: tree for path in tree.paths if is_importable(tally, tree, importer, path)}
    for other in trees:
        for path in other.paths if other is not tree else ():
            if other.is_assembled(path) and may_import(importer, path) and other.records[path]["Name"] != "main":
                wanted[path] = other
    given = {entry["ImportPath"]: entry for entry in reply["ok"]["importable"]}
    if list(given) != sorted(wanted):
        differing = sorted(set(given) ^ set(wanted))
        tally.differ("list: which packages may be imported", f"{importer}: {differing}")
    for path in given.keys() & wanted.keys():
        compare_entry(tally, "an entry", wanted[path].entry(importer, path), given[path], wanted[path].records[path], importer)
