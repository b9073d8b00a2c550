"""Workspaces of type declarations with methods, a third of them of aliases: correct ones, and ones in which errors are put. The same numbers give the same
bytes."""

FIELDS = ("f", "g", "h", "F", "G")
METHODS = ("m", "n", "k", "M", "N")
PLAIN = ("int", "string", "bool", "*int", "struct{ u, v int }", "interface{ w() }", "any", "error")
FORMS = ("struct",) * 6 + ("interface", "pointer", "alike", "alike", "plain") + ("alias",) * 6
PREDECLARED = {"int": "plain", "string": "plain", "bool": "plain", "any": "interface", "error": "interface"}


class Type:
    """A declared type: its package, its name, its form, the lines of its struct or interface type or what it is defined by, and its methods."""

    def __init__(self, home, name, form):
        self.home, self.name, self.form = home, name, form
        self.lines = []  # of a struct type or an interface type
        self.target = None  # of the others: a Type, or the text of a type
        self.names = set()  # of fields and methods that it has by its own lines
        self.methods = []  # the text between receiver and body
        self.held = []  # the types that it has by value

    def base(self):
        """The type whose struct type it has, names passed."""
        seen = []
        one = self
        while isinstance(one.target, Type) and one.form in ("alike", "alias") and one not in seen:
            seen.append(one)
            one = one.target
        return one

    def meant(self):
        """The type that a name of it means, the targets of aliases followed: itself where that leads round, the alias of a predeclared type where it ends there."""
        seen, one = [], self
        while one.form == "alias" and isinstance(one.target, Type) and one not in seen:
            seen.append(one)
            one = one.target
        return one

    def what(self):
        """The form of the type that a name of it means."""
        one = self.meant()
        return PREDECLARED.get(one.target, "none") if one.form == "alias" else one.form


class Workspace:
    def __init__(self, numbers, packages):
        self.numbers, self.packages = numbers, packages
        self.types, self.extra, self.imports = [], {p: [] for p in packages}, {}

    def below(self, bound):
        return self.numbers.below(bound)

    def pick(self, things):
        return self.numbers.pick(things)

    def spelled(self, home, other):
        return other.name if other.home == home else f"{other.home[-1]}.{other.name}"

    def can_see(self, home, other):
        return other.home == home or (other.home < home and other.name[0].isupper())

    def seen(self, home, forms):
        return [t for t in self.types if t.what() in forms and self.can_see(home, t)]

    def is_free(self, kind, name):
        return name not in kind.names and name not in kind.base().names

    # correct declarations

    def written(self, kind, earlier):
        """The type of a field: a plain one, or a declared one. By value a struct type holds earlier types alone."""
        if earlier and self.below(2):
            other = self.pick(earlier)
            kind.held.append(other)
            return self.spelled(kind.home, other)
        later = self.seen(kind.home, ("struct", "interface", "pointer", "alike"))
        if later and self.below(2):
            return "*" + self.spelled(kind.home, self.pick(later))
        return self.pick(PLAIN)

    def embed(self, kind, earlier):
        star = self.below(2) == 0
        choice = [t for t in (self.seen(kind.home, ("struct",)) if star else earlier) if t.what() in ("struct", "interface") or not star]
        choice = [t for t in choice if t.what() not in ("pointer",) and t.base().form != "pointer" and self.is_free(kind, t.name)]
        if not choice:
            return
        other = self.pick(choice)
        kind.names.add(other.name)
        if not star:
            kind.held.append(other)
        kind.lines.append(("*" if star else "") + self.spelled(kind.home, other))

    def struct(self, kind, earlier):
        for _ in range(self.below(3)):
            self.embed(kind, earlier)
        for _ in range(self.below(4)):
            names = []
            for _ in range(1 + (self.below(3) == 0)):
                name = "_" if self.below(8) == 0 else self.pick(FIELDS)
                if name == "_" or name not in kind.names:
                    kind.names.add(name)
                    names.append(name)
            if names:
                tag = self.pick(("", "", "", ' "tag"', " `raw`"))
                kind.lines.append(f"{', '.join(names)} {self.written(kind, earlier)}{tag}")

    def signature(self, home):
        other = self.seen(home, ("struct", "interface", "pointer", "alike", "plain"))
        word = self.spelled(home, self.pick(other)) if other and self.below(2) else self.pick(PLAIN)
        return self.pick(("()", "(a int)", f"(a, b {word})", f"(int, *{word})", f"() {word}", f"(x {word}) (y, z string)"))

    def define(self, kind, earlier):
        if kind.form == "struct":
            self.struct(kind, earlier)
        elif kind.form == "interface":
            for name in sorted({self.pick(METHODS) for _ in range(self.below(4))}):
                kind.names.add(name)
                kind.lines.append(name + self.signature(kind.home))
        elif kind.form == "pointer":
            choice = self.seen(kind.home, ("struct", "interface", "alike"))
            kind.target = "*" + (self.spelled(kind.home, self.pick(choice)) if choice else "int")
        elif kind.form == "alike":
            choice = [t for t in earlier if t.what() in ("struct", "alike") and t.base().form == "struct"]
            kind.target = self.pick(choice) if choice else "struct{}"
            if choice:
                kind.held.append(kind.target)
        elif kind.form == "alias":
            kind.target = self.pick(earlier) if earlier and self.below(6) else self.pick(sorted(PREDECLARED))
        else:
            kind.target = self.pick(("int", "string", "bool", "(int)", "struct{}"))

    def own_methods(self, kind):
        if kind.form in ("interface", "pointer", "alias"):
            return
        for _ in range(self.below(4)):
            name = self.pick(METHODS)
            if self.is_free(kind, name):
                kind.names.add(name)
                self.add_method(kind, name)

    def add_method(self, kind, name, base=None):
        base = base or self.pick([kind.name, *(t.name for t in self.types if t.home == kind.home and t.form == "alias" and t.meant() is kind)])
        receiver = self.pick(("r {}", "r *{}", "{}", "*{}", "_ {}")).format(base)
        self.extra[kind.home].append(f"func ({receiver}) {name}{self.signature(kind.home)} {{ panic(0) }}")

    def make(self):
        count = 2 + self.below(6)
        for place in range(count):
            home = self.packages[min(place * len(self.packages) // count, len(self.packages) - 1)]
            form = self.pick(FORMS)
            self.types.append(Type(home, ("T" if self.below(2) else "t") + str(place), form))
        for place, kind in enumerate(self.types):
            if kind.form == "alias":
                self.define(kind, [t for t in self.types[:place] if self.can_see(kind.home, t)])
        for place, kind in enumerate(self.types):
            if kind.form != "alias":
                self.define(kind, [t for t in self.types[:place] if self.can_see(kind.home, t)])
        for kind in self.types:
            self.own_methods(kind)

    # errors

    def spoil(self):
        """Puts an error into the workspace, and gives its form, or none where there is no room for it."""
        name = self.pick(ERRORS)
        return name if getattr(self, name)() else None

    def some(self, *forms):
        choice = [t for t in self.types if t.form in forms]
        return self.pick(choice) if choice else None

    def insert(self, lines, line):
        lines.insert(self.below(len(lines) + 1), line)

    def repeated_field(self):
        kind = self.some("struct")
        if kind:
            name = self.pick(sorted(kind.names - {"_"}) or ["f"])
            if name not in kind.names:
                kind.lines.append(f"{name} int")
            self.insert(kind.lines, self.pick((f"{name} string", f"_, {name} bool", f"{name}, {name} int")))
        return kind

    def repeated_inside(self):
        kind = self.some("struct")
        if kind:
            inner = self.pick(("struct{ x, x int }", "*struct{ x int; y, x int }", "interface{ k(); k() }", "interface{ _() }", "struct{ x struct{ y, y int } }", "interface{ k(a, b struct{ x, x int }) }"))
            self.insert(kind.lines, f"{self.pick(('e', 'e, d', '_, e'))} {inner}")
        return kind

    def repeated_embedded(self):
        kind = self.some("struct")
        choice = kind and [t for t in self.types if t.what() == "struct" and self.can_see(kind.home, t)]
        if not choice:
            return None
        other = self.pick(choice)
        self.insert(kind.lines, "*" + self.spelled(kind.home, other))
        self.insert(kind.lines, self.pick(("*" + self.spelled(kind.home, other), f"{other.name} int")))
        return kind

    def repeated_signature(self):
        kind = self.some("interface")
        if kind:
            name = self.pick(("m", "q", "_"))
            self.insert(kind.lines, f"{name}()")
            if name != "_":
                self.insert(kind.lines, f"{name}() int")
        return kind

    def repeated_method(self):
        kind = self.some("struct", "alike", "plain")
        if kind:
            name = self.pick(METHODS + ("_",))
            self.add_method(kind, name)
            self.add_method(kind, name)
        return kind

    def method_as_field(self):
        kind = self.some("struct", "struct", "alike")
        names = kind and sorted(kind.base().names - {"_"})
        if not names:
            return None
        self.add_method(kind, self.pick(names))
        return kind

    def methods_as_field(self):
        kind = self.method_as_field()
        return kind and self.method_as_field()

    def embedded_pointer(self):
        kind, choice = self.some("struct"), None
        if kind:
            choice = [t for t in self.types if t.what() == "pointer" and self.can_see(kind.home, t)]
        if not choice:
            return None
        self.insert(kind.lines, self.pick(("", "*")) + self.spelled(kind.home, self.pick(choice)))
        return kind

    def embedded_interface(self):
        kind = self.some("struct")
        if kind:
            choice = [t for t in self.types if t.what() == "interface" and self.can_see(kind.home, t)]
            word = self.spelled(kind.home, self.pick(choice)) if choice and self.below(4) else self.pick(("error", "any"))
            self.insert(kind.lines, "*" + word)
        return kind

    def cycle(self):
        kind = self.some("struct", "struct", "alike", "plain", "alias")
        choice = kind and [t for t in self.types if self.can_see(kind.home, t) and t.form in ("struct", "alike", "plain", "alias")]
        if not choice:
            return None
        other = self.pick(choice)
        word = self.spelled(kind.home, other)
        if kind.form == "struct":
            self.insert(kind.lines, self.pick((f"c {word}", word, f"c, d struct{{ e {word} }}", f"c *struct{{ e {word} }}")))
        else:
            kind.form, kind.target = kind.form if kind.form == "alias" else "alike", other
        return kind

    def alias_cycle(self):
        """One alias leads to another, or to itself."""
        kind = self.some("alias")
        if kind:
            kind.target = self.pick([t for t in self.types if self.can_see(kind.home, t) and t.form == "alias"])
        return kind

    def own_cycle(self):
        kind = self.some("struct")
        if kind:
            self.insert(kind.lines, self.pick((f"c {kind.name}", kind.name, f"c, d {kind.name}", f"c struct{{ e {kind.name} }}")))
        return kind

    def receiver(self):
        kind = self.pick(self.types)
        choice = [t for t in self.types if self.can_see(kind.home, t) and (t.what() in ("pointer", "interface") or t.meant().home != kind.home)]
        word = self.spelled(kind.home, self.pick(choice)) if choice and self.below(4) else self.pick(("int", "error", "any", "string"))
        self.add_method(kind, self.pick(METHODS), word)
        if self.below(2):
            self.add_method(kind, self.pick(METHODS), word)
        return kind

    def undefined(self):
        kind = self.pick(self.types)
        if kind.form in ("struct", "interface") and self.below(2):
            line = {"struct": self.pick(("e nope", "nope", "*nope", "e struct{ x, x nope }")), "interface": "q(nope) nope"}[kind.form]
            self.insert(kind.lines, line)
        elif self.below(2):
            self.add_method(kind, self.pick(METHODS), "nope")
        else:
            is_alias = kind.form == "alias"
            kind.form, kind.target = "alias" if is_alias else "alike", "nope" if is_alias else self.pick(("nope", "*nope"))
        return kind

    # texts

    def declared(self, kind):
        if kind.form in ("struct", "interface"):
            lines = "; ".join(kind.lines) if self.below(3) == 0 else "".join(f"\n\t{line}" for line in kind.lines) + "\n"
            return f"type {kind.name} {kind.form} {{ {lines} }}" if "\n" not in lines else f"type {kind.name} {kind.form} {{{lines}}}"
        target = self.spelled(kind.home, kind.target) if isinstance(kind.target, Type) else kind.target
        return f"type {kind.name} {'= ' if kind.form == 'alias' else ''}{target}"

    def shuffled(self, things):
        things = list(things)
        for place in range(len(things) - 1, 0, -1):
            other = self.below(place + 1)
            things[place], things[other] = things[other], things[place]
        return things

    def archive(self):
        text = [f"{p}\n" for p in self.packages] + ["\n"]
        for package in self.packages:
            parts = self.shuffled([self.declared(t) for t in self.types if t.home == package] + self.extra[package])
            cut = self.below(len(parts) + 1) if self.below(2) else len(parts)
            for name, some in (("a", parts[:cut]), ("b", parts[cut:])):
                if some or name == "a":
                    body = "\n\n".join(some)
                    used = [p for p in self.packages if p < package and f"{p[-1]}." in body]
                    imports = "".join(f'import "{p}"\n' for p in used)
                    text.append(f"-- {package}/{name}.go --\npackage {package[-1]}\n\n{imports}\n{body}\n")
        return "".join(text)


ERRORS = (
    "repeated_field", "repeated_inside", "repeated_embedded", "repeated_signature", "repeated_method", "method_as_field", "methods_as_field",
    "embedded_pointer", "embedded_interface", "cycle", "alias_cycle", "own_cycle", "receiver", "undefined",
)
