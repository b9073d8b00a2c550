#!/usr/bin/env python3
"""Finds imports of definitions and lemmas that lead nowhere, by text alone and in seconds: python3 tools/imports.py [ROOT] [CRATE ..]

Of each `use Rattle.CRATE.MODULE` in crates/ it asks that the module is there, or is passed on from where it is, and that what stands between its
braces is named in it, beside its comments and what it imports for itself; of what stands in definitions and lemmas behind another name of a module the same; of each written answer that its goals are those of its own folder; and of each crate that no lemma file has the name of a
module of its code but for the case of its letters. It proves nothing, and knows nothing of what the toolchain makes (`specs.declared`, goals)."""
import os
import re
import sys

USE = re.compile(r"use Rattle\.(go\w+)\.([\w.]+?)(?:\.(\{[^}]*\}))?(?: as \w+)?(?=[;\n}]|$)")
AS = re.compile(r"(?m)^(?:ghost )?use Rattle\.(go\w+)\.([\w.]+) as (\w+);?$")
OWN = re.compile(r"(?m)^use [^\n]*$|^ *--[^\n]*$")
GOALS = re.compile(r"(Rattle\.[^\s{}]*?)\.(?:Goals|Given)\b")
MADE = ("declared", "contracts")


class Sources:
    def __init__(self, root):
        self.crates, self.texts, self.shown = os.path.join(root, "crates"), {}, {}

    def text(self, path):
        if path not in self.texts:
            self.texts[path] = None
            if os.path.isfile(path):
                with open(path, encoding="utf-8") as file:
                    self.texts[path] = file.read()
        return self.texts[path]

    def module(self, crate, parts, depth=0):
        """The file in which a module stands, `""` for one that the toolchain makes, or None."""
        if parts[0] == "specs" and parts[1:2] and parts[1] in MADE:
            return ""
        at = lambda count: os.path.join(self.crates, crate, *parts[:count]) + ".antt"
        if self.text(at(len(parts))) is not None:
            return at(len(parts))
        for count in range(len(parts) - 1, 0, -1):
            text = self.text(at(count))
            if text is not None:
                name = re.escape(parts[count])
                way = re.search(rf"(?m)^pub use Rattle\.(\w+)\.(\S+) as {name}$|^pub use Rattle\.(\w+)\.((?:\S+\.)?{name})$", text)
                if not way or depth > 40:
                    return None
                return self.module(way[1] or way[3], (way[2] or way[4]).split(".") + parts[count + 1 :], depth + 1)
        return None

    def names(self, file, name):
        if not file:
            return True
        if file not in self.shown:
            self.shown[file] = OWN.sub("", self.text(file))
        return re.search(rf"(?m)(^|[\s{{,.]){re.escape(name)}(\s|[,}}:]|$)", self.shown[file]) is not None

    def lost(self, crate, path, braces):
        """What an import names that is not there."""
        parts = path.split(".")
        file = self.module(crate, parts)
        if file is None:
            above = self.module(crate, parts[:-1]) if len(parts) > 2 else None
            return [] if above is not None and self.names(above, parts[-1]) else [path]
        wanted = [it.strip().split(" as ")[0].strip() for it in (braces or "{}")[1:-1].split(",")]
        return [it for it in wanted if it and not self.names(file, it)]


def faults_of(sources, crate):
    folder = os.path.join(sources.crates, crate)
    modules = {it[:-3].lower() for it in os.listdir(f"{folder}/src")}
    for at, folders, files in os.walk(folder):
        folders[:] = sorted(it for it in folders if it != "out")
        for name in sorted(it for it in files if it.endswith((".rt", ".antt"))):
            path = f"{at}/{name}"
            for crate_named, module, braces in USE.findall(GOALS.sub("", sources.text(path))):
                for it in sources.lost(crate_named, module, braces):
                    yield f"{os.path.relpath(path, sources.crates)}: {crate_named} has no {it}"
            for crate_named, module, alias in AS.findall(sources.text(path)) if name.endswith(".antt") else []:
                file = sources.module(crate_named, module.split("."))
                for it in sorted(set(re.findall(rf"(?<![\w.]){alias}\.([A-Za-z_]\w*)", OWN.sub("", sources.text(path))))):
                    if file and not sources.names(file, it):
                        yield f"{os.path.relpath(path, sources.crates)}: {crate_named}.{module} has no {it}"
            own = "Rattle." + ".".join(os.path.relpath(at, sources.crates).split(os.sep))
            for it in GOALS.findall(sources.text(path)):
                if it != own:
                    yield f"{os.path.relpath(path, sources.crates)}: the goals of {it} are not its own"
            if at == f"{folder}/proofs" and name != "Lib.antt" and name[: -len(".antt")].lower() in modules:
                yield f"{crate}/proofs/{name}: a module of the code has this name, but for the case of its letters"


def main(words):
    root = os.path.abspath(words[0] if words else ".")
    sources, count = Sources(root), 0
    for crate in words[1:] or sorted(os.listdir(sources.crates)):
        for fault in faults_of(sources, crate):
            print(fault)
            count += 1
    print(f"{count} found")
    return 1 if count else 0


if __name__ == "__main__":
    sys.exit(main(sys.argv[1:]))
