"""Go files of the whole grammar as a person would write them: documented declarations of all kinds, indented, with names of
usual length, short functions, checks of errors and comments. The same seed gives the same bytes."""

WORDS = (
    "address batch block branch bucket buffer cache cell change channel client clock column command config connection "
    "context counter cursor decoder digest document edge element encoder entry event field file filter folder format frame "
    "graph group handler header history image index input item job journal key label layer layout level limit line link "
    "list listener lock manifest mapper marker mask matrix member message metric model module name node object offset "
    "option order output owner packet page parser part path pattern payload peer pipeline point policy pool port prefix "
    "process profile project queue reader record region registry release report request resource response result role root "
    "route rule sample scanner schedule scheme scope section segment server service session shard signal size snapshot "
    "source span stack stage state store stream style suffix symbol table tag target task template term text thread token "
    "topic trace tree unit update user value vector version view visitor window word worker writer"
).split()
VERBS = (
    "add apply append begin build call check clear close collect compare copy count create delete encode enter expand find "
    "finish flush get handle insert join leave load lookup make mark match merge move open parse peek pick poll pop print "
    "push put read register release remove render replace reset resolve restore run save scan seek send set skip sort split "
    "start stop store sync take touch track trim update validate visit walk write"
).split()
KINDS = "active base current default empty final first full inner last local main max min old outer pending raw ready remote".split()
SHORT = "i j k n s b c p x y err err ok buf ctx cur dst end idx key len max msg next num ptr res src sum tmp val".split()
BASIC = "int int int string string bool error uint32 int64 byte any uint64 uint8 float64 rune".split()
LIBRARIES = "bufio bytes context errors fmt io os sort strconv strings sync time".split()
COMPARED = "== == == != != < <= > >=".split()
SUMMED = "+ + + + - - * / % | & << >> ^ &^".split()
UPDATED = "+= += += -= *= |= &= <<= %=".split()
INTEGERS = "0 0 0 1 1 1 2 3 4 8 10 16 24 32 64 100 128 255 256 1000 1024 4096 0x7f 0xff 0x1f 0b11 0o644 1_000_000".split()

LICENSE = (
    "// Copyright 2024 The Example Authors. All rights reserved.\n"
    "// Use of this source code is governed by a BSD-style\n"
    "// license that can be found in the LICENSE file.\n\n"
)


class Program:
    """The declarations of one file."""

    def __init__(self, numbers, package, imports):
        self.numbers, self.package, self.imports = numbers, package, imports
        self.types = [self.exported() for _ in range(3)]
        self.fields = [self.local() for _ in range(10)]
        self.errors = [f"err{self.word().title()}" for _ in range(3)]

    def one_in(self, count):
        return self.numbers.below(count) == 0

    def pick(self, items):
        return self.numbers.pick(items)

    def word(self):
        return self.pick(WORDS)

    def local(self):
        """A name of one word or of two."""
        form = self.numbers.below(8)
        if form < 5:
            return self.word()
        return (self.pick(KINDS) if form == 5 else self.word()) + self.word().title()

    def exported(self):
        return "".join(self.word().title() for _ in range(self.pick([1, 1, 1, 1, 1, 2, 2, 2, 3])))

    def called(self, is_exported):
        """A name of a function."""
        verb, rest = self.pick(VERBS), [self.word().title() for _ in range(self.pick([0, 0, 1, 1, 1, 2]))]
        return (verb.title() if is_exported else verb) + "".join(rest)

    def library(self):
        return self.pick(self.imports).rsplit("/", 1)[-1]

    def type_name(self):
        form = self.numbers.below(10)
        if form < 6:
            return self.pick(BASIC)
        if form < 9:
            return self.pick(["*", "*", ""]) + self.pick(self.types)
        return f"{self.pick(['*', ''])}{self.library()}.{self.exported()}"

    def atom(self, names):
        form = self.numbers.below(16)
        if form < 5:
            return self.pick(names)
        if form < 8:
            return f"{names[0]}.{self.pick(self.fields)}"
        if form < 10:
            return self.pick(INTEGERS)
        if form == 10:
            return self.text()
        if form == 11:
            return f"{self.pick(names)}.{self.pick(self.fields)}.{self.pick(self.fields)}"
        if form == 12:
            return f"{self.library()}.{self.exported()}"
        return self.call(names)

    def text(self):
        said = " ".join(self.word() for _ in range(1 + self.numbers.below(4)))
        return self.pick([f'"{said}"', f'"{said}"', f'"{self.package}: {said} %d\\n"', f"`{said}`"])

    def call(self, names):
        given = ", ".join(self.small(names) for _ in range(self.numbers.pick([0, 1, 1, 1, 2, 2, 3])))
        form = self.numbers.below(8)
        if form < 3:
            return f"{names[0]}.{self.called(self.one_in(2))}({given})"
        if form < 5:
            return f"{self.library()}.{self.called(True)}({given})"
        if form == 5:
            return f"{names[0]}.{self.pick(self.fields)}.{self.called(True)}({given})"
        return f"{self.pick(['len', 'string', 'int', self.called(False), self.called(False)])}({given or names[0]})"

    def small(self, names):
        """An argument."""
        form = self.numbers.below(10)
        if form == 0:
            return f"&{self.pick(self.types)}{{}}"
        if form == 1:
            return f"{self.pick(names)} {self.pick(SUMMED)} {self.pick(INTEGERS)}"
        return self.atom(names)

    def value(self, names):
        form = self.numbers.below(10)
        if form < 6:
            return self.atom(names)
        if form < 8:
            return f"{self.atom(names)} {self.pick(SUMMED)} {self.atom(names)}"
        if form == 8:
            return f"{self.pick('-!^*&')}{self.pick(names)}"
        return f"({self.atom(names)} {self.pick(SUMMED)} {self.atom(names)}) {self.pick(SUMMED)} {self.pick(INTEGERS)}"

    def condition(self, names):
        form = self.numbers.below(8)
        if form == 0:
            return f"{self.pick(names)} == nil"
        if form == 1:
            return f"{self.pick(['', '!'])}{names[0]}.{self.called(False)}({self.pick(names)})"
        one = f"{self.atom(names)} {self.pick(COMPARED)} {self.atom(names)}"
        if form < 6:
            return one
        return f"{one} {self.pick(['&&', '||'])} {self.atom(names)} {self.pick(COMPARED)} {self.pick(INTEGERS)}"

    def literal(self, names, tab):
        fields = [f"{self.pick(self.fields)}: {self.value(names)}" for _ in range(1 + self.numbers.below(4))]
        if len(fields) < 3:
            return f"{self.pick(self.types)}{{{', '.join(fields)}}}"
        return f"{self.pick(self.types)}{{\n" + "".join(f"{tab}\t{it},\n" for it in fields) + tab + "}"

    def sentence(self):
        """A line of a comment."""
        a, b = self.word(), self.word()
        return self.pick([
            f"The {a} is kept as long as its {b} is in use.",
            f"Nothing is known of the {a} here, so start at the {b}.",
            f"TODO: the {a} may be shared with another {b}.",
            f"Each {a} has one {b} at most.",
            f"A {a} that was seen before is passed over.",
            f"See {self.exported()} for what a {a} looks like.",
        ])

    def checked(self, names, results, tab):
        """A call, and the check of its error."""
        name = self.local()
        ending = self.refused(results)
        if self.one_in(2):
            return f"if err := {self.call(names)}; err != nil {{\n{tab}\t{ending}\n{tab}}}"
        lines = f"{name}, err := {self.call(names)}\n{tab}if err != nil {{\n{tab}\t{ending}\n{tab}}}"
        names.append(name)
        return lines

    def refused(self, results):
        """A return of an error."""
        if not results:
            return "return"
        zero = {"int": "0", "string": '""', "bool": "false", "error": self.pick(["err", *self.errors])}
        return "return " + ", ".join(zero.get(it, "nil" if it[0] == "*" else "0") for it in results)

    def simple(self, names, tab):
        form = self.numbers.below(16)
        if form < 5:
            name = self.pick(SHORT) if self.one_in(2) else self.local()
            given = self.value(names) if self.one_in(2) else self.call(names)
            names.append(name)
            return f"{name} := {given}"
        if form < 8:
            return f"{names[0]}.{self.pick(self.fields)} = {self.value(names)}"
        if form == 8:
            return f"{self.pick(names)} = {self.value(names)}"
        if form == 9:
            return f"{names[0]}.{self.pick(self.fields)} {self.pick(UPDATED)} {self.atom(names)}"
        if form == 10:
            return f"{self.pick(names)}{self.pick(['++', '++', '--'])}"
        if form == 11:
            name = self.local()
            given = self.literal(names, tab)
            names.append(name)
            return f"{name} := {self.pick(['&', ''])}{given}"
        if form == 12:
            a, b = self.pick(names), self.pick(names)
            return f"{a}, {b} = {self.value(names)}, {self.atom(names)}"
        if form == 13:
            name = self.local()
            names.append(name)
            return f"var {name} {self.type_name()}"
        return self.call(names)

    def statement(self, names, results, tab, depth):
        form = self.numbers.below(16)
        if form < 3:
            return self.checked(names, results, tab)
        if depth < 3 and form < 6:
            inner = self.block(names, results, tab, depth)
            text = f"if {self.condition(names)} {inner}"
            if self.one_in(6):
                text += f" else if {self.condition(names)} {self.block(names, results, tab, depth)}"
            return text + (f" else {self.block(names, results, tab, depth)}" if self.one_in(4) else "")
        if depth < 2 and form == 6:
            i = self.pick(["i", "i", "j", "n", "index"])
            head = self.pick([
                f"for {i} := 0; {i} < {self.atom(names)}; {i}++ ",
                f"for {i} := 0; {i} < {self.atom(names)}; {i}++ ",
                f"for {self.condition(names)} ",
                "for ",
            ])
            return head + self.block([*names, i], results, tab, depth, True)
        return self.simple(names, tab)

    def block(self, names, results, tab, depth, is_loop=False):
        """A block inside a function. Its names end with it."""
        inner, lines = list(names), []
        for _ in range(1 + self.numbers.below(3)):
            if self.one_in(9):
                lines.append(f"// {self.sentence()}")
            lines.append(self.statement(inner, results, tab + "\t", depth + 1))
        if is_loop and self.one_in(2):
            lines.append(f"if {self.condition(inner)} {{\n{tab}\t\t{self.pick(['break', 'continue'])}\n{tab}\t}}")
        elif not is_loop and self.one_in(4):
            lines.append(self.refused(results))
        return "{\n" + "".join(f"{tab}\t{line}\n" for line in lines) + tab + "}"

    def body(self, names, results):
        lines = []
        for _ in range(2 + self.numbers.below(6)):
            if self.one_in(7):
                lines += [""] * bool(lines) + [f"// {self.sentence()}"]
            lines.append(self.statement(names, results, "\t", 0))
        if results:
            given = [self.value(names) for _ in results]
            if results[-1] == "error":
                given[-1] = "nil"
            lines.append("return " + ", ".join(given))
        return "{\n" + "".join(f"\t{line}\n" if line else "\n" for line in lines) + "}"

    def documentation(self, name):
        a, b, c = self.word(), self.word(), self.word()
        first = self.pick([
            f"// {name} is the {a} of a {b}, as the {c} has it.",
            f"// {name} takes the {a} of the {b} that is given, and tells whether\n// there is a {c} for it.",
            f"// {name} reports the {a} behind the {b}.",
            f"// {name} goes over each {a} in order, and leaves the {b} as it was.\n// It stops at the first {c}.",
        ])
        return first + "\n" + (f"//\n// {self.sentence()}\n" if self.one_in(5) else "")

    def parameters(self):
        names, groups = [], []
        for _ in range(self.numbers.pick([0, 1, 1, 1, 2, 2, 3])):
            group = [self.pick(SHORT) if self.one_in(2) else self.local() for _ in range(self.numbers.pick([1, 1, 1, 2]))]
            names += group
            groups.append(f"{', '.join(group)} {self.type_name()}")
        return names, ", ".join(groups)

    def results(self):
        """The types of the results, and how they are written."""
        form = self.numbers.below(9)
        if form < 2:
            return [], ""
        if form < 4:
            return ["error"], " error"
        one = self.type_name()
        if form < 6:
            return [one], f" {one}"
        if form < 8:
            return [one, "error"], f" ({one}, error)"
        return [one, "error"], f" ({self.local()} {one}, err error)"

    def function(self):
        names, written = self.parameters()
        results, given = self.results()
        receiver = ""
        if not self.one_in(4):
            of = self.pick(self.types)
            names.insert(0, of[0].lower())
            receiver = f"({names[0]} {self.pick(['*', '*', '*', ''])}{of}) "
        name = self.called(not self.one_in(3))
        names = names or [self.local()]
        return f"{self.documentation(name)}func {receiver}{name}({written}){given} {self.body(names, results)}\n\n"

    def structure(self, name):
        lines = []
        for field in self.fields[: 3 + self.numbers.below(7)]:
            behind = f" // {self.word()} of the {self.word()}" if self.one_in(4) else ""
            tag = f' `json:"{field}"`' if self.one_in(8) else ""
            lines.append(f"\t{field} {self.type_name()}{tag}{behind}\n")
        embedded = f"\t{self.pick(['*', ''])}{self.library()}.{self.exported()}\n\n" if self.one_in(6) else ""
        return f"{self.documentation(name)}type {name} struct {{\n{embedded}{''.join(lines)}}}\n\n"

    def interface(self, name):
        lines = []
        for _ in range(1 + self.numbers.below(4)):
            _, written = self.parameters()
            lines.append(f"\t// {self.sentence()}\n\t{self.called(True)}({written}){self.results()[1]}\n")
        return f"{self.documentation(name)}type {name} interface {{\n{''.join(lines)}}}\n\n"

    def constants(self):
        if self.one_in(3):
            name = self.local()
            return f"// {self.sentence()}\nconst {name} = {self.pick(INTEGERS)} << {self.pick(INTEGERS)}\n\n"
        kind = self.word()
        lines = [f"\t{kind}{self.word().title()} = {n}\n" for n in range(2 + self.numbers.below(5))]
        return f"// The {kind} is one of these.\nconst (\n{''.join(lines)})\n\n"

    def variables(self):
        lines = [f'\t{name} = errors.New("{self.package}: {self.word()} {self.word()}")\n' for name in self.errors]
        if self.one_in(2):
            return f"// Errors that are told to callers.\nvar (\n{''.join(lines)})\n\n"
        return f"// {self.sentence()}\nvar {self.local()} = {self.literal(self.fields, '')}\n\n"

    def head(self):
        lines = "".join(f'\t"{path}"\n' for path in self.imports)
        about = f"// Package {self.package} keeps the {self.word()} of a {self.word()}.\n"
        return f"{LICENSE}{about}package {self.package}\n\nimport (\n{lines})\n\n"

    def declarations(self):
        """Declarations without end: first those that a file begins with."""
        yield self.constants()
        yield self.variables()
        for name in self.types:
            yield self.interface(name) if self.one_in(4) else self.structure(name)
        while True:
            form = self.numbers.below(24)
            if form == 0:
                yield self.constants()
            elif form == 1:
                name = self.exported()
                yield f"{self.documentation(name)}type {name} {self.type_name()}\n\n"
            else:
                yield self.function()


MISSES = 4  # so many declarations may be too long for what is left


def program(numbers, package, imports, bound):
    """The text of a file of at most so many bytes, which imports packages of these paths and some of the library's."""
    count = 1 + numbers.below(4)
    at = numbers.below(len(LIBRARIES) - count)
    it = Program(numbers, package, [*LIBRARIES[at : at + count], *imports])
    texts, misses = [it.head()], 0
    left = bound - len(texts[0])
    for text in it.declarations():
        if len(text) <= left:
            texts.append(text)
            left -= len(text)
        else:
            misses += 1
            if misses == MISSES:
                return "".join(texts)
