#!/usr/bin/env python3
"""Writes the lists of crates.txt, and what crates pass on, anew: python3 tools/lists.py [ROOT]

A crate lists what it names, in code, in definitions and in proofs, but for some that it has through another: the toolchain goes down every path of
crates.txt some sixteen times a crate, so the paths are kept within BUDGET. What a crate does not list is passed on by one between, a *signpost*: in code
item by item, in a module `x_core` at the end of src/lib.rt, in definitions and proofs module by module, in a file specs/x_core.antt. Each name in src/,
specs/, proofs/, must-fail/ and bench/wrong_bodies/ is written by the way that leads to it. The lists stay as they are as long as they do: a name that is
listed, or that a signpost leads to, stays so, and a new one is listed, until there are too many paths; then the signposts are taken that spare the most.
It may be run again at any time, and changes nothing where nothing is to be changed. Run `rt fmt` in the crates that it names, since the order of `use`
lines may be another. Why is in docs/DESIGN.md, "What a crate lists".
"""
import os
import re
import sys
from collections import defaultdict

# How many paths of crates.txt there may be, summed over the crates: a million costs a gate some 15 seconds.
BUDGET = 9_000_000
# Crates with types that reach themselves: a crate that names them lists them, since the toolchain finds what such a type means only there
# ("no module that this path begins with is at hand for the term").
BESIDE = {"go_tree_nodes", "go_term_core"}
# Modules that are named as a word of the library, which a reader would take them for: what they are passed on as.
PASSED_AS = {"All": "AllPackages"}
# Modules that the toolchain makes, which are passed on as a whole.
MADE = ("declared", "contracts")

NAME = r"go\w*|test_\w+"
SEGMENT = r"[^\s.{}(),;\[\]`'\"<>|&]+"
LOGIC = re.compile(rf"(?<![\w.])Rattle\.({NAME})((?:\.{SEGMENT})*)")
CODE = re.compile(rf"(?<![\w.:$])({NAME}|crate)((?:::\w+)+)(?!::?\w|::\{{)")
USE = re.compile(rf"(?m)^([ \t]*(?:pub(?:\([^)]*\))? )?use )({NAME}|crate)((?:::\w+)*)(?:::(\{{[^{{}}]*\}}|\*))?( as \w+)?;")
USE_HERE = re.compile(r"(?m)^pub use ([\w:]+?)(?:::(\{[^{}]*\}))?;")
GHOST = re.compile(r"(?m)^[ \t]*ghost use [^;]*;")
ATTRIBUTE = re.compile(r"(?m)^[ \t]*#!?\[tactic[^\n]*$")
SIGNPOST = re.compile(r"(?m)^pub use Rattle\.(\w+)\.(\S+?)(?: as (\w+))?$")
PASSED = re.compile(r"(?m)\n?/// What the crates above name of `(\w+)`\.\npub mod (\w+) \{\n(.*?)\n\}\n", re.S)
PARTS = ("src", "specs", "proofs", "must-fail")
WIDTH = 100


class Stop(Exception):
    """Something that this script does not know."""


def text_of(path):
    with open(path, encoding="utf-8") as file:
        return file.read()


def alias(crate):
    return crate.removeprefix("go_")


def capital(name):
    """`after_dot` as the beginning of a module's name, `AfterDot`."""
    return "".join(it[:1].upper() + it[1:] for it in name.split("_"))


def lines_of(text):
    """Lines of crates.txt: by name the head of the line (with its words) and what it uses."""
    found = {}
    for line in text.split("\n"):
        line = line.partition("#")[0].strip()
        if line:
            head, _, rest = line.partition(":")
            found[head.split()[0]] = head.strip(), rest.split()
    return found


def is_signpost(text):
    """Whether a file of definitions is nothing but `pub use`."""
    lines = [it for it in text.split("\n") if it.strip() and not it.startswith("--")]
    return bool(lines) and all(it.startswith("pub use ") for it in lines)


def items_of(text):
    """The items of `{A, B as C}`, each in one line."""
    return [" ".join(it.split()) for it in text[1:-1].split(",") if it.strip()]


def written(head, path, items):
    """A `use` of items as `rt fmt` lays it out."""
    if len(items) == 1:
        return f"{head}{path}::{items[0]};"
    line = f"{head}{path}::{{{', '.join(items)}}};"
    if len(line) <= WIDTH:
        return line
    indent = re.match(r"[ \t]*", head)[0]
    rows, row = [], indent + "   "
    for it in items:
        if len(f"{row} {it},") > WIDTH:
            rows.append(row)
            row = indent + "   "
        row += f" {it},"
    return f"{head}{path}::{{\n" + "\n".join([*rows, row]) + f"\n{indent}}};"


class Tree:
    """The texts of a repository: `texts[crate, path]`, paths below crates/CRATE, and edits of bench/wrong_bodies as `wrong_bodies/NAME.edit`."""

    def __init__(self, root):
        self.root = root
        self.lists = lines_of(text_of(f"{root}/crates.txt"))
        self.texts, self.others = {}, {}
        for crate in self.lists:
            self.read(crate)
        self.crates = {alias(it): it for it in self.lists}
        self.posts, self.passed, self.post_files = {}, {}, set()
        self.modules = {it: self.modules_of(it) for it in self.lists}
        for crate in self.lists:
            self.find_signposts(crate)

    def read(self, crate):
        top = f"{self.root}/crates/{crate}"
        if not os.path.isdir(top):
            raise Stop(f"crates.txt lists {crate}, which is no folder of crates/")
        for at, folders, files in os.walk(top):
            folders[:] = sorted(it for it in folders if not (at == top and it == "out"))
            for name in sorted(files):
                rel = os.path.relpath(f"{at}/{name}", top)
                if rel.split("/")[0] in PARTS:
                    self.texts[crate, rel] = text_of(f"{at}/{name}")
                else:
                    self.others[crate, rel] = f"{at}/{name}"
        edits = f"{self.root}/bench/wrong_bodies/{crate}"
        for name in sorted(os.listdir(edits)) if os.path.isdir(edits) else []:
            if name.endswith(".edit"):
                self.texts[crate, f"wrong_bodies/{name}"] = text_of(f"{edits}/{name}")
            else:
                self.others[crate, f"wrong_bodies/{name}"] = f"{edits}/{name}"

    def path(self, crate, rel):
        below = f"bench/wrong_bodies/{crate}{rel.removeprefix('wrong_bodies')}" if rel.startswith("wrong_bodies/") else f"crates/{crate}/{rel}"
        return f"{self.root}/{below}"

    def modules_of(self, crate):
        """The public modules of a crate: a name may begin with one, in code and in definitions."""
        return set(re.findall(r"(?m)^pub mod (\w+);$", self.texts.get((crate, "src/lib.rt"), "")))

    def find_signposts(self, crate):
        """`posts[crate, file]`: what a file that only passes on has of names; `passed[crate, module]`: the same in code."""
        for rel, text in [(rel, text) for (of, rel), text in self.texts.items() if of == crate]:
            found = re.fullmatch(r"specs/(\w+)\.antt", rel)
            if found and is_signpost(text) and all(it[1] in self.lists for it in SIGNPOST.finditer(text)):
                post = self.posts[crate, found[1]] = {}
                self.post_files.add((crate, rel))
                for line in text.split("\n"):
                    it = SIGNPOST.match(line)
                    if it:
                        post[it[3] or it[2].split(".")[-1]] = f"Rattle.{it[1]}.{it[2]}"
                    elif line.startswith("pub use "):
                        raise Stop(f"crates/{crate}/{rel}: a line that is not `pub use PATH as NAME`: {line}")
        for _, name, body in PASSED.findall(self.texts.get((crate, "src/lib.rt"), "")):
            found = self.passed[crate, name] = {}
            for way in re.findall(r"pub use [^;]*;", body):
                it = USE.fullmatch(way)
                if not it:
                    raise Stop(f"crates/{crate}/src/lib.rt: what is passed on is not understood: {way}")
                path = it[3].split("::")[1:]
                items = items_of(it[4]) if it[4] else [path.pop() + (it[5] or "")]
                for item in items:
                    old, _, new = item.partition(" as ")
                    found[new or old] = it[2], [*path, old]

    def own(self):
        """The texts without what is passed on: crate, path, text."""
        for (crate, rel), text in self.texts.items():
            if (crate, rel) in self.post_files:
                continue
            if rel == "src/lib.rt":
                text = PASSED.sub("", text)
            if rel == "specs/Lib.antt":
                text = "".join(it for it in text.splitlines(True) if not ((found := re.match(r"pub mod (\w+)$", it)) and (crate, found[1]) in self.posts))
            yield crate, rel, text

    def direct(self, crate, parts, depth=0):
        """Where a name of definitions or lemmas leads past signposts: the crate that has it, and the parts of its path."""
        if len(parts) >= 2 and parts[0] == "specs" and (crate, parts[1]) in self.posts:
            post = self.posts[crate, parts[1]]
            if len(parts) == 2 or parts[2] not in post or depth > 60:
                raise Stop(f"Rattle.{'.'.join([crate, *parts])}: nothing is passed on under this name")
            found = LOGIC.fullmatch(post[parts[2]])
            return self.direct(found[1], [*found[2].split(".")[1:], *parts[3:]], depth + 1)
        if len(parts) > 3 and parts[1] in MADE and (crate, parts[2]) in self.passed:
            # what the toolchain makes of an item that is passed on in code
            other, path = self.declared(*self.direct_code(crate, parts[2:4]))
            return self.direct(other, ["specs", parts[1], *path, *parts[4:]], depth + 1)
        return crate, parts

    def declared(self, crate, path):
        """Where an item is declared that the root of a crate gives out, by its `pub use`."""
        for match in USE_HERE.finditer(PASSED.sub("", self.texts.get((crate, "src/lib.rt"), ""))):
            items = items_of(match[2]) if match[2] else [match[1].split("::")[-1]]
            at = match[1].split("::") if match[2] else match[1].split("::")[:-1]
            if path[0] in items and len(path) == 1:
                if at[0] in self.lists or at[0] == "crate":
                    return self.declared(*self.direct_code(at[0] if at[0] != "crate" else crate, [*at[1:], path[0]]))
                return crate, [*at, path[0]]
        return crate, path

    def direct_code(self, crate, parts, depth=0):
        """The same of a name in code."""
        if parts and (crate, parts[0]) in self.passed:
            found = self.passed[crate, parts[0]]
            if len(parts) == 1 or parts[1] not in found or depth > 60:
                raise Stop(f"{'::'.join([crate, *parts])}: nothing is passed on under this name")
            other, path = found[parts[1]]
            return self.direct_code(other, [*path, *parts[2:]], depth + 1)
        return crate, parts

    def is_lemmas(self, crate, module):
        return (crate, f"proofs/{module}.antt") in self.texts


class Rewriter:
    """Rewrites the names of a text. `logic(crate, parts)` and `code(crate, parts)` give a name as it shall be, by the crate that it leads to."""

    def __init__(self, tree, logic, code):
        self.tree, self.logic, self.code = tree, logic, code

    def in_logic(self, text):
        def name(match):
            if match[1] not in self.tree.lists:
                return match[0]
            tail = re.search(r"[.:]*$", match[2])[0]
            parts = match[2][: len(match[2]) - len(tail)].split(".")[1:]
            return self.logic(*self.tree.direct(match[1], parts)) + tail if parts else match[0]

        return LOGIC.sub(name, text)

    def statement(self, match):
        """A `use`, which may become several."""
        head, crate, path, braces, renamed = match.groups()
        if crate not in self.tree.lists and crate != "crate":
            return match[0]
        path = path.split("::")[1:]
        if braces == "*":
            raise Stop(f"a `use` of everything: {match[0]}")
        items = items_of(braces) if braces else [path.pop() + (renamed or "")]
        found = {}
        for item in items:
            old, _, new = item.partition(" as ")
            parts = self.code(*self.tree.direct_code(crate, [*path, old]))
            if parts[-1] != old and not new:
                new = old
            found.setdefault("::".join(parts[:-1]), []).append(parts[-1] + (f" as {new}" if new else ""))
        return "\n".join(written(head, at, them) for at, them in found.items())

    def inline(self, match, is_comment):
        crate, parts = match[1], match[2].split("::")[1:]
        if crate not in self.tree.lists and crate != "crate":
            return match[0]
        try:
            return "::".join(self.code(*self.tree.direct_code(crate, parts)))
        except Stop:
            if is_comment:
                return match[0]
            raise

    def in_code(self, text):
        """A text of code: its statements `use`, block by block, and the names inside."""
        text, rows = self.in_logic(text), []
        kept = []

        def keep(it):
            kept.append(it)
            return f"\0{len(kept) - 1}\0"

        text = GHOST.sub(lambda it: keep(it[0]), text)
        text = ATTRIBUTE.sub(lambda it: keep(self.attribute(it[0])), text)
        text = USE.sub(lambda it: keep(self.statement(it)), text)
        for line in text.split("\n"):
            is_comment = line.lstrip().startswith("//")
            rows.append(CODE.sub(lambda it, is_comment=is_comment: self.inline(it, is_comment), line))
        text = "\n".join(rows)
        return re.sub(r"\0(\d+)\0", lambda it: kept[int(it[1])], text)

    def attribute(self, text):
        """Lemmas and definitions that an attribute names as `crate::proofs::M::lemma`."""

        def name(match):
            crate, parts = match[1], match[2].split("::")[1:]
            if crate not in self.tree.lists and crate != "crate" or parts[0] not in ("specs", "proofs"):
                return match[0]
            if crate != "crate":
                raise Stop(f"an attribute names another crate: {text}")
            return self.logic(crate, parts).replace(".", "::")

        return CODE.sub(name, text)

    def text(self, rel, text):
        if rel.endswith(".antt"):
            return self.in_logic(text)
        if rel.endswith(".rt"):
            return in_order(text, self.in_code(text))
        # an edit: each of its lines stands for itself
        return "\n".join(it[:5] + self.in_code(it[5:]) if it[:5] in ("old: ", "new: ") else it for it in text.split("\n"))


BLOCK = re.compile(r"(?m)(?:^(?:pub(?:\([^)]*\))? )?use [^;]*;\n)+")


def in_order(before, text):
    """The blocks of `use` at the top level that are others than before, in the order in which `rt fmt` has them, and each path once."""
    there = set(BLOCK.findall(before))

    def block(match):
        if match[0] in there:
            return match[0]
        found, single = {}, []
        for it in re.findall(r"[^;]*;", match[0].rstrip("\n")):
            it = it.strip("\n")
            head, path = re.match(r"((?:pub(?:\([^)]*\))? )?use )(.*)", it, re.S).groups()
            parts = re.fullmatch(r"((?:\w+::)*\w+)::(?:\{([^{}]*)\}|(\w+(?: as \w+)?));", path)
            if parts and parts[1].split("::")[0] != "std":
                items = items_of("{" + (parts[2] or parts[3]) + "}")
                found.setdefault((parts[1], head), []).extend(items)
            else:
                single.append((re.split(r"[;{]", path)[0].removesuffix("::").split(" as ")[0], head, it))
        rows = [(path if len(items) > 1 else f"{path}::{items[0]}", head, written(head, path, sorted(set(items), key=item_key))) for (path, head), items in found.items()]
        return "".join(it + "\n" for _, _, it in sorted(rows + single, key=lambda it: [part_key(part) for part in it[0].split("::")]))

    return BLOCK.sub(block, text)


def part_key(part):
    """`crate` first, then types, then modules, as `rt fmt` has them."""
    return {"self": 0, "super": 1, "crate": 2}.get(part, 3), kind_of(part), part


def item_key(item):
    return kind_of(item), item


def kind_of(name):
    return name[:1].islower() or name[:1] == "_"


class Names:
    """What each crate names of each other: modules in definitions and proofs, items in code, as they are passed on one by one."""

    def __init__(self, tree):
        self.tree = tree
        self.logic, self.code = defaultdict(lambda: defaultdict(set)), defaultdict(lambda: defaultdict(set))
        # by which crate a name of another is reached as it stands
        self.through = defaultdict(set)
        for crate, rel, text in tree.own():
            self.note(crate, rel, text)

    def note(self, crate, rel, text):
        for match in LOGIC.finditer(text):
            if match[1] in self.tree.lists:
                parts = match[2].rstrip(".:").split(".")[1:]
                if parts:
                    other, parts = self.tree.direct(match[1], parts)
                    if other != crate:
                        self.logic[crate][other].add(self.unit(other, parts))
                        self.through[crate, other].add(match[1])
        if rel.endswith((".rt", ".edit")):
            rows = "\n".join(it for it in GHOST.sub("", text).split("\n") if not it.lstrip().startswith("//"))
            if rel.endswith(".edit"):
                rows = "\n".join(it[5:] for it in rows.split("\n") if it[:5] in ("old: ", "new: "))
            for match in USE.finditer(rows):
                path = match[3].split("::")[1:]
                for item in items_of(match[4]) if match[4] else [path.pop()]:
                    self.note_code(crate, match[2], [*path, item.split(" as ")[0]])
            for match in CODE.finditer(USE.sub("", rows)):
                self.note_code(crate, match[1], match[2].split("::")[1:])

    def note_code(self, crate, named, parts):
        if named in self.tree.lists:
            other, parts = self.tree.direct_code(named, parts)
            if other != crate:
                count = 2 if parts[0] in self.tree.modules[other] else 1
                self.code[crate][other].add(tuple(parts[:count]))
                self.through[crate, other].add(named)

    def unit(self, crate, parts):
        """The module in which a name of definitions or lemmas is passed on; none where it is of what the toolchain makes."""
        if parts[0] == "specs":
            return tuple(parts[: 3 if len(parts) > 2 and parts[1] in self.tree.modules[crate] and parts[1] not in MADE else 2])
        if parts[0] == "proofs" and len(parts) > 1 and self.tree.is_lemmas(crate, parts[1]):
            return tuple(parts[:2])
        return None

    def of(self, crate):
        return {*self.logic[crate], *self.code[crate]}

    def leads_to_kit(self, crate, module, seen):
        """Whether lemmas lead to lemmas of the kit's crates: a clause may not name a file that does, so these have a file of their own."""
        text = self.tree.texts.get((crate, f"proofs/{module}.antt"))
        if text is None or (crate, module) in seen:
            return False
        seen.add((crate, module))
        if re.search(rf"Rattle\.(?!std\b|{NAME})\w+\.proofs\.", text):
            return True
        for match in LOGIC.finditer(text):
            if match[1] in self.tree.lists and match[2]:
                other, parts = self.tree.direct(match[1], match[2].split(".")[1:])
                if parts[:1] == ["proofs"] and len(parts) > 1 and self.leads_to_kit(other, parts[1], seen):
                    return True
        return False

    def file_of(self, crate, unit):
        """The file in which a module is passed on."""
        return alias(crate) + "_lemmas" * (unit[0] == "proofs" and self.leads_to_kit(crate, unit[1], set()))

    def passed_name(self, crate, unit):
        name = "".join(capital(it) for it in unit[1:]) if len(unit) > 2 else unit[1]
        name = PASSED_AS.get(name, name)
        return f"{name}Proofs" if unit[0] == "proofs" and self.is_definitions(crate, name) else name

    def is_definitions(self, crate, name):
        """Whether definitions of a crate are passed on under a name."""
        inside = [(it, name.removeprefix(capital(it))) for it in self.tree.modules[crate] if name.startswith(capital(it))]
        return any((crate, rel) in self.tree.texts for rel in (f"specs/{name}.antt", *[f"specs/{at}/{it}.antt" for at, it in inside]))


class Ways:
    """The lists, and by which crate each crate reaches another: none where it lists it."""

    def __init__(self, tree, names, budget):
        self.tree, self.names = tree, names
        named = {it: names.of(it) for it in tree.lists}
        self.order = self.from_below(named)
        self.programs = {it for it in tree.lists if (it, "src/main.rt") in tree.texts}
        self.named = {a: {*named[a], *self.kept(a)} for a in named}
        clashing = self.clashing()
        self.fixed = {(a, b) for a in self.named for b in self.named[a] if self.is_fixed(a, b, clashing)}
        self.edges = {a: {b for b in self.named[a] if (a, b) in self.fixed or not self.is_through(a, b)} for a in self.named}
        self.posts = {(a, tree.crates[it]) for a, file in tree.posts for it in [file.removesuffix("_lemmas")] if it in tree.crates}
        self.choose(budget)
        self.through, self.logic, self.code = defaultdict(dict), defaultdict(lambda: defaultdict(set)), defaultdict(lambda: defaultdict(set))
        for crate in reversed(self.order):
            for other in sorted({*self.named[crate], *self.logic[crate], *self.code[crate]} - self.edges[crate] - {crate}):
                self.route(crate, other)

    def from_below(self, named):
        found = {}

        def visit(crate, above):
            if crate in above:
                raise Stop("crates name one another in a circle: " + " ".join([*above[above.index(crate) :], crate]))
            if crate not in found:
                for it in sorted(named[crate]):
                    visit(it, [*above, crate])
                found[crate] = None

        for crate in self.tree.lists:
            visit(crate, [])
        return [*found]

    def kept(self, crate):
        """What a program lists stays: nothing is asked of its sources, since no crate lists it."""
        return {it for it in self.tree.lists[crate][1] if it in self.tree.lists} if crate in self.programs else set()

    def clashing(self):
        """Of each crate the names under which two of its modules or items would be passed on."""
        found = defaultdict(lambda: defaultdict(set))
        for a in self.named:
            for b in self.named[a]:
                for unit in self.names.logic[a].get(b, ()):
                    if unit:
                        found[b]["specs", self.names.passed_name(b, unit)].add(unit)
                for unit in self.names.code[a].get(b, ()):
                    found[b]["code", unit[-1]].add(unit)
        return {b: {unit for units in them.values() if len(units) > 1 for unit in units} for b, them in found.items()}

    def is_fixed(self, a, b, clashing):
        """Whether a crate lists another whatever it costs."""
        units = {*self.names.logic[a].get(b, ()), *self.names.code[a].get(b, ())}
        return b in BESIDE or not b.startswith("go_") or None in units or bool(units & clashing.get(b, set())) or b in self.kept(a)

    def is_through(self, a, b):
        """Whether what a crate names of another is reached through a third as it stands, which it lists."""
        found = self.names.through[a, b]
        return bool(found) and b not in found and b not in self.tree.lists[a][1]

    def choose(self, budget):
        while True:
            paths, ups = {}, dict.fromkeys(self.order, 1)
            for it in self.order:
                paths[it] = 1 + sum(paths[d] for d in self.edges[it])
            for it in reversed(self.order):
                for d in self.edges[it]:
                    ups[d] += ups[it]
            self.paths = sum(paths.values())
            if self.paths <= budget:
                return
            spared = defaultdict(int)
            for a in self.order:
                for b in self.edges[a]:
                    if (a, b) not in self.fixed:
                        for c in self.edges[a]:
                            if b in self.edges[c]:
                                spared[c, b] += ups[a] * paths[b]
            if not spared:
                raise Stop(f"{self.paths:,} paths, and nothing is left to be passed on")
            c, b = max(sorted(spared), key=lambda it: spared[it])
            self.posts.add((c, b))
            for a in self.order:
                if c in self.edges[a] and b in self.edges[a] and (a, b) not in self.fixed:
                    self.edges[a].discard(b)

    def route(self, crate, other):
        below = {}

        def reached(it):
            if it not in below:
                below[it] = {it}.union(*[reached(d) for d in self.edges[it]])
            return below[it]

        above = [it for it in self.edges[crate] if other in reached(it)]
        if not above:
            self.edges[crate].add(other)
            return
        there = self.names.through[crate, other]
        chosen = min(above, key=lambda it: ((it, other) not in self.posts, it not in there, other not in self.edges[it], len(reached(it)), it))
        self.through[crate][other] = chosen
        self.posts.add((chosen, other))
        self.logic[chosen][other] |= self.names.logic[crate].get(other, set()) | self.logic[crate].get(other, set())
        self.code[chosen][other] |= self.names.code[crate].get(other, set()) | self.code[crate].get(other, set())


class Writer:
    def __init__(self, tree, names, ways):
        self.tree, self.names, self.ways, self.changed = tree, names, ways, set()

    def logic_name(self, own, crate, parts):
        through = self.ways.through[own].get(crate) if crate != own else None
        if through is None:
            return ".".join(["Rattle", crate, *parts])
        unit = self.names.unit(crate, parts)
        return ".".join(["Rattle", through, "specs", self.names.file_of(crate, unit), self.names.passed_name(crate, unit), *parts[len(unit) :]])

    def code_name(self, own, crate, parts):
        through = self.ways.through[own].get(crate) if crate not in (own, "crate") else None
        if through is None:
            return [crate, *parts]
        return [through, alias(crate), *self.passed_parts(crate, parts)]

    def passed_parts(self, crate, parts):
        return parts[1:] if parts[0] in self.tree.modules[crate] else parts

    def code_passed_on(self, crate):
        text = ""
        for other in sorted(it for it, found in self.ways.code[crate].items() if found):
            ways = defaultdict(set)
            for unit in self.ways.code[crate][other]:
                name = self.code_name(crate, other, list(unit))
                ways["::".join(name[:-1])].add(name[-1])
            uses = "\n".join(written("    pub use ", path, sorted(found, key=item_key)) for path, found in sorted(ways.items()))
            text += f"\n/// What the crates above name of `{other}`.\npub mod {alias(other)} {{\n{uses}\n}}\n"
        return text

    def logic_passed_on(self, crate, other):
        """What is passed on of a crate, by the files in which it stands."""
        files = defaultdict(lambda: [f"-- What the crates above name of {other}."])
        for unit in sorted(self.ways.logic[crate][other], key=lambda it: (self.names.passed_name(other, it), it)):
            files[self.names.file_of(other, unit)].append(f"pub use {self.logic_name(crate, other, list(unit))} as {self.names.passed_name(other, unit)}")
        return {name: "\n".join(lines) + "\n" for name, lines in files.items()}

    def texts(self):
        texts = {}
        for crate, rel, text in self.tree.own():
            rewriter = Rewriter(self.tree, lambda *it, crate=crate: self.logic_name(crate, *it) if it[0] != "crate" else ".".join(["crate", *it[1]]), lambda *it, crate=crate: self.code_name(crate, *it))
            texts[crate, rel] = rewriter.text(rel, text)
        for crate in self.tree.lists:
            passed = self.code_passed_on(crate)
            if passed:
                texts[crate, "src/lib.rt"] = texts[crate, "src/lib.rt"].rstrip("\n") + "\n" + passed
            files = {}
            for other in sorted(it for it, found in self.ways.logic[crate].items() if found):
                files.update(self.logic_passed_on(crate, other))
            if files:
                lines = texts.get((crate, "specs/Lib.antt"), "").split("\n")
                texts[crate, "specs/Lib.antt"] = "\n".join([*filter(None, lines), *[f"pub mod {it}" for it in sorted(files)]]) + "\n"
            for name, text in files.items():
                texts[crate, f"specs/{name}.antt"] = text
        return texts

    def write(self):
        texts = self.texts()
        for crate, rel in self.tree.post_files:
            if (crate, rel) not in texts:
                os.remove(self.tree.path(crate, rel))
                self.changed.add(crate)
        for (crate, rel), text in texts.items():
            if without_layout(self.tree.texts.get((crate, rel), "")) != without_layout(text):
                os.makedirs(os.path.dirname(self.tree.path(crate, rel)), exist_ok=True)
                with open(self.tree.path(crate, rel), "w", encoding="utf-8") as file:
                    file.write(text)
                self.changed.add(crate)
        lists = self.lists()
        with open(f"{self.tree.root}/crates.txt", "w", encoding="utf-8") as file:
            file.write(lists)

    def lists(self):
        """crates.txt with these lists, each from the bottom up, and what a crate lists of the kit behind."""
        order, rows = [*self.tree.lists], []
        for line in text_of(f"{self.tree.root}/crates.txt").split("\n"):
            head = line.partition(":")[0]
            name = (head.split() or [""])[0]
            if name in self.tree.lists:
                of_kit = [it for it in self.tree.lists[name][1] if it not in self.tree.lists]
                line = " ".join([f"{head}:", *sorted(self.ways.edges[name], key=order.index), *of_kit])
            rows.append(line)
        return "\n".join(rows)


def without_layout(text):
    """A text without what `rt fmt` decides: spaces, and the order of `use` lines."""
    return sorted(re.sub(r"\s+|,(?=\s*\})", "", it) for it in text.split(";"))


def main(words):
    tree = Tree(os.path.abspath(words[0] if words else "."))
    names = Names(tree)
    ways = Ways(tree, names, BUDGET)
    writer = Writer(tree, names, ways)
    writer.write()
    posts = sum(is_signpost(text) for (_, rel), text in Tree(tree.root).texts.items() if rel.startswith("specs/"))
    print(f"{ways.paths:,} paths, {sum(map(len, ways.edges.values()))} names in lists, {posts} signposts")
    print(f"changed: {' '.join(sorted(writer.changed)) or 'nothing'}")


if __name__ == "__main__":
    try:
        main(sys.argv[1:])
    except Stop as why:
        sys.exit(f"lists.py: {why}")
