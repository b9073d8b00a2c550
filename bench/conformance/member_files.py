"""Makes files whose types have few names of members, embedded, promoted, hidden and repeated, and whose functions select them and write literals of them,
most rightly and some wrongly: read by queries.py. A third of the declarations of types are of aliases. The same bytes for each seed."""
from generate import Numbers

NAMES = ["A", "B", "C", "d", "e", "\u00e9t\u00e9"]
TYPES = ["S", "T", "u", "V"]
FACES = ["I", "j"]
ALIASES = ["R", "o", "W"]
FOREIGN = ["lib.L", "lib.M", "lib.K", "lib.N", "lib.Every"]

LIBRARY = """package lib

type L struct {
	A, d int
	*M
}

type M struct {
	B int
	e bool
	L2
}

type L2 struct{ C int }

// K is M.
type K = M

type N = n

type Every = Face

type e = K

type n struct {
	A int
	d int
}

type Face interface {
	A() int
	d() int
}

// C is of a value.
func (l L) C() M { return M{B: 1, e: true} }

func (l L) e() int { return l.d }

// B is of a pointer.
func (l *L2) B() *L { return nil }

/* D is. */
func (m *M) D() n { return n{A: 1} }

var (
	One L
	Two *M
	own n
	Four e
)

func Made(x Face) L { return L{A: x.A(), d: own.d} }
"""

# What the library shows: the fields of its types by name, with their types, the methods with their results, and the values.
SHOWN = {
    "lib.L": ([("A", "int"), ("M", "*lib.M")], {"C": "lib.M"}),
    "lib.M": ([("B", "int"), ("L2", "lib.L2")], {"D": "lib.n"}),
    "lib.L2": ([("C", "int")], {"B": "*lib.L"}),
    "lib.n": ([("A", "int")], {}),
    "lib.Face": ([], {"A": "int"}),
}
VALUES = [("lib.One", "lib.L"), ("lib.Two", "*lib.M"), ("lib.Four", "lib.K"), ("lib.Made(nil)", "lib.L")]
# The aliases of the library, with what they mean.
TARGETS = {"lib.K": "lib.M", "lib.N": "lib.n", "lib.Every": "lib.Face"}


class Dotted:
    """A file, with the types of what it writes, so that most of it is right."""

    def __init__(self, seed):
        self.numbers = Numbers(seed)
        self.fields = {name: list(fields) for name, (fields, _) in SHOWN.items()}
        self.methods = {name: dict(methods) for name, (_, methods) in SHOWN.items()}
        self.pointers = {}
        self.targets = dict(TARGETS)
        self.values = list(VALUES)
        self.fresh = 0

    def chance(self, percent):
        return self.numbers.below(100) < percent

    def pick(self, items):
        return self.numbers.pick(items)

    def meant(self, kind):
        """What a type means: the end of a chain of aliases, or, where that leads round, one of these."""
        base, star = self.of(kind), "*" if kind.startswith("*") else ""
        for _ in range(len(ALIASES) + len(TARGETS)):
            base = self.targets.get(base, base)
        return star + base

    def by_value(self, later):
        """The types that may stand for values: of those of the file, and of the aliases of these, the later ones."""
        aliases = [name for name in ALIASES if self.meant(name) not in TYPES or later is None or self.meant(name) in later]
        return ["int", "bool", *FOREIGN[:2], self.pick(FOREIGN), "*lib.L", *(TYPES if later is None else later), *aliases]

    def written_type(self, later=None):
        """A type; by value one of the later ones alone, where these are given, but for some that reach themselves."""
        if self.chance(15):
            return self.pick(FACES)
        if self.chance(40) or self.chance(1):
            return self.pick(["*", "*", ""]) + self.pick([*TYPES, *ALIASES])
        return self.pick(self.by_value(later))

    def alias_decls(self):
        """The aliases of the file: of its types, of those of the library, of predeclared ones and of one another, of which few lead round."""
        found = []
        for at, name in enumerate(ALIASES):
            others = [ALIASES[(at + 1) % len(ALIASES)]] if self.chance(2) else ALIASES[:at]
            self.targets[name] = self.pick([*TYPES, *TYPES, *FACES, *FOREIGN, *others, *others, self.pick(["int", "error", "bool", name if self.chance(10) else "string"])])
            found.append(f"{self.comment(name)}type {name} = {self.targets[name]}\n\n")
        return found

    def declared(self):
        """The types of the file."""
        aliases, parts = self.alias_decls(), self.type_decls()
        for text in aliases:
            parts.insert(self.numbers.below(len(parts) + 1), text)
        return "".join(parts)

    def type_decls(self):
        """The types of the file that are no aliases."""
        parts = []
        for name in TYPES:
            form = self.numbers.below(10)
            if form == 0 and name != TYPES[0]:
                parts.append(f"type {name} {TYPES[0]}\n\n")
                self.fields[name], self.methods[name] = self.fields[TYPES[0]], {}
            elif form == 1 and name != TYPES[0]:
                parts.append(f"type {name} *{TYPES[0]}\n\n")
                self.fields[name], self.methods[name] = self.fields[TYPES[0]], {}
                self.pointers[name] = True
            else:
                parts.append(self.struct(name))
        for name in FACES:
            text = f"type {name} interface {{\n"
            self.fields[name], self.methods[name] = [], {}
            for method in self.some(NAMES, 3):
                self.methods[name][method] = self.written_type()
                text += f"\t{method}() {self.methods[name][method]}\n"
            parts.append(text + "}\n\n")
        return parts

    def some(self, items, most):
        found = []
        for _ in range(self.numbers.below(most + 1)):
            item = self.pick(items)
            if item not in found or self.chance(5):
                found.append(item)
        return found

    def struct(self, name):
        lines, fields = "", []
        later = TYPES[TYPES.index(name) + 1 :]
        for field in self.some(NAMES, 4):
            kind = self.written_type(later)
            if kind in TYPES and kind not in later and not self.chance(3):
                kind = "*" + kind
            lines += f"\t{field} {kind}\n"
            fields.append((field, kind))
        if self.chance(10):
            lines += "\t_ int\n"
        if self.chance(15):
            lines += "\tin struct{ A int; d bool }\n"
            fields.append(("in", "struct{ A int; d bool }"))
        aliases = [it for it in self.by_value(later) if it in ALIASES and self.meant(it) not in self.pointers]
        for base in self.some([*later, *later, *FOREIGN, "error", "int", *FACES, *aliases, *aliases], 2):
            star = "*" if self.chance(40) and self.meant(base) not in [*FACES, "error", "lib.Face"] else ""
            lines += f"\t{star}{base}\n"
            fields.append((base.split(".")[-1], star + base))
        self.fields[name], self.methods[name] = fields, {}
        return f"type {name} struct {{\n{lines}}}\n\n"

    def comment(self, name):
        return self.pick(["", "", f"// {name} is.\n", f"// {name} is\n// of two lines.\n", f"/* {name}\n is. */\n", f"// Apart.\n\n", f"// Apart.\n\n// {name} is.\n"])

    def method_decls(self):
        text = ""
        for base in TYPES:
            for name in self.some(NAMES, 3):
                if base in self.pointers or any(name == field for field, _ in self.fields[base]) and not self.chance(5):
                    continue
                kind = self.written_type()
                self.methods[base][name] = kind
                names = [base, base, base, *(it for it in ALIASES if self.meant(it) == base)]
                written = self.pick(ALIASES) if self.chance(1) else self.pick(names)
                text += f"{self.comment(name)}func (r {self.pick(['', '*'])}{written}) {name}() {kind} {{\n{self.body([('r', base)], kind, 2)}}}\n\n"
        return text

    def of(self, kind):
        return kind[1:] if kind.startswith("*") else kind

    def members(self, kind, depth=0):
        """Most of what may be selected behind a value of a type, with the type of each."""
        base = self.of(self.meant(kind))
        if base.startswith("struct"):
            return [("A", "int"), ("d", "bool")]
        found = list(self.fields.get(base, ()))
        found += [(name + "()", result) for name, result in self.methods.get(base, {}).items()]
        if depth < 3:
            for name, inner in list(found):
                if name == self.of(inner).split(".")[-1]:
                    found += self.members(inner, depth + 1)
        return found

    def operand(self, names, depth):
        form = self.numbers.below(20)
        if form < 9 and names:
            return self.pick(names)
        if form < 12 and self.values:
            return self.pick(self.values)
        if form < 14:
            base = self.pick([*TYPES, *ALIASES, *FOREIGN[:4], "lib.n"])
            text = self.literal(names, base, depth)
            return (text, base) if form == 12 else (f"(&{text})", "*" + base)
        if form == 14 and names:
            text, kind = self.pick(names)
            return self.pick([(f"(&{text})", "*" + kind), (f"(*{text})", self.of(kind)), (f"({text})", kind)])
        if form == 15:
            base = self.pick([*TYPES, *FACES, *ALIASES, "lib.L", "lib.K", "lib.n"])
            return self.pick([(base, base), (f"({base})", base), (f"(*{base})", base)])
        if form == 16:
            return f"struct{{ A int; {self.pick(NAMES)} bool }}{{A: 1}}", "struct"
        return self.pick([("nil", "none"), ("(1)", "int"), ("made", "none"), ("several()", "none"), ("lib", "none"), ("lib.own", "lib.n"), ("none", "none"), ("len", "none")])

    def literal(self, names, base, depth):
        if depth == 0:
            return base + "{}"
        keys = []
        for name, kind in self.fields.get(self.meant(base), ()):
            if self.chance(40):
                keys.append(f"{name}: {self.value_of(names, kind, depth - 1)}")
        if self.chance(15):
            keys.append(f"{self.pick(NAMES)}: {self.expression(names, depth - 1)}")
        if self.chance(6):
            keys.append(self.expression(names, depth - 1))
        return base + "{" + ", ".join(keys) + "}"

    def value_of(self, names, kind, depth):
        fits = [text for text, its in names if self.meant(its) == self.meant(kind)]
        if fits and self.chance(60):
            return self.pick(fits)
        meant = self.meant(kind)
        if meant == "int":
            return str(self.numbers.below(9))
        if meant == "bool":
            return "true"
        if meant.startswith("*") or meant in [*FACES, "error", "lib.Face"] or meant in self.pointers:
            return "nil"
        if meant in self.fields:
            return kind + "{}"
        return self.expression(names, depth)

    def selected(self, names, depth):
        """An operand with one to three selectors behind it."""
        text, kind = self.operand(names, depth)
        for _ in range(1 + self.numbers.below(3)):
            members = self.members(kind)
            if members and self.chance(80):
                name, kind = self.pick(members)
            else:
                name, kind = self.pick([*NAMES, "in", "L2", "M", "Error", "_"]) + self.pick(["", "", "()"]), "none"
            text += "." + name
        return text, kind

    def expression(self, names, depth=2):
        return self.selected(names, depth)[0] if self.chance(80) else self.operand(names, depth)[0]

    def statement(self, names, depth):
        form = self.numbers.below(12)
        text, kind = self.selected(names, 2)
        if form < 3:
            self.fresh += 1
            name = f"x{self.fresh}" if self.chance(70) else self.pick([*NAMES, "lib", "made"])
            names.insert(0, (name, kind))
            return f"{name} := {text}"
        if form < 5:
            return f"_ = {text}"
        if form == 5:
            kind = self.written_type()
            self.fresh += 1
            names.insert(0, (f"v{self.fresh}", kind))
            return f"var v{self.fresh} {kind}"
        if form == 6:
            return f"{text} = {self.expression(names)}"
        if form == 7:
            return text if text.endswith(")") else f"{text}++"
        if form == 8 and depth:
            return f"if ({text}) == ({self.expression([])}) {{\n{self.block(list(names), depth - 1)}}}"
        if form == 9 and depth:
            return f"{{\n{self.block(list(names), depth - 1)}}}"
        return f"println({text}, {self.expression(names)})"

    def block(self, names, depth):
        return "".join(self.statement(names, depth) + "\n" for _ in range(1 + self.numbers.below(4)))

    def body(self, names, kind, depth):
        names = list(names)
        text = self.block(names, depth)
        return text + f"return {self.value_of(names, kind, 1)}\n"

    def file(self, path):
        text = f'package a\n\nimport "{path}"\n\n' + self.declared()
        for name in self.some(["a", "b", "c"], 3):
            kind = self.written_type()
            text += f"var {name} {kind}\n\n"
            self.values.append((name, kind))
        text += f"func made() {TYPES[0]} {{ return {TYPES[0]}{{}} }}\n\nfunc several() (lib.L, int) {{ return lib.One, 1 }}\n\n"
        self.values.append(("made()", TYPES[0]))
        text += self.method_decls()
        for number in range(1 + self.numbers.below(3)):
            kind = self.written_type()
            text += f"func f{number}(p {self.pick([*TYPES, *FACES, *ALIASES])}, q *{self.pick([*TYPES, *ALIASES])}) {kind} {{\n{self.body([('p', TYPES[0]), ('q', '*' + TYPES[1])], kind, 2)}}}\n\n"
        if self.chance(30):
            text += f"var outer = {self.selected([], 2)[0]}\n"
        return text
