#!/usr/bin/env python3
"""Writes Go files. The same arguments give the same bytes.

Of the grammar that `govisd resolve` answers for:
usage: generate.py mixed BYTES      functions with nested blocks, shadowing, and expressions of 20 operands
       generate.py long STATEMENTS  one function of so many statements
       generate.py nested BYTES     functions, each of 190 blocks, one inside the other
       generate.py random SEED      a small file of few names, much shadowed, most often with faults
       generate.py bench FOLDER     writes the benchmark files into the folder
       generate.py small FOLDER     writes 300 random files into it

Of the whole grammar:
       generate.py whole BYTES      declarations, types, statements and expressions of all forms, and comments
       generate.py lists BYTES      long lists: names, parameters, fields, arguments, elements, specifications
       generate.py deep BYTES       declarations nearly as high as a tree may be
       generate.py parse FOLDER     writes the benchmark files of these three into the folder

Those with BYTES, STATEMENTS or SEED write to standard output. BYTES is the most that the file may have, and it comes
near to that. All but the random files are valid Go, those of the whole grammar as far as go/parser judges.
"""
import os
import sys

DEPTH = 190  # of nested blocks; with function, body, statement and expression the tree stays below 200


class Numbers:
    """A sequence of numbers that looks random (a linear congruence), the same on every machine."""

    def __init__(self, seed):
        self.state = (seed * 2862933555777941757 + 3037000493) % 2**64

    def below(self, bound):
        self.state = (self.state * 6364136223846793005 + 1442695040888963407) % 2**64
        return (self.state >> 33) * bound >> 31

    def pick(self, items):
        return items[self.below(len(items))]


def expression(numbers, variables, operands):
    """Operands joined by arithmetic. No two neighbours are literals, so no constant grows or is 0."""
    parts = [numbers.pick(variables)]
    is_open, is_literal = False, False
    for left in range(operands - 1, 0, -1):
        parts.append(numbers.pick("+-*/%+-*"))
        is_literal = not is_literal and numbers.below(3) == 0
        operand = str(1 + numbers.below(999)) if is_literal else numbers.pick(variables)
        if is_open:
            operand += ")"
            is_open = False
        elif not is_literal and left > 1 and numbers.below(5) == 0:
            operand = "(" + operand
            is_open = True
        parts.append(operand)
    return " ".join(parts)


def whole(head, parts, bound):
    """The head and as many of the parts as the bound has room for."""
    texts, size = [head], len(head.encode())
    for part in parts:
        size += len(part.encode())
        if size > bound:
            return "".join(texts)
        texts.append(part)


CONSTANTS = 20


def head():
    lines = ["package a", ""]
    lines += [f"const limit{n} = {n + 1} + {n + 2}*3" for n in range(CONSTANTS)]
    lines += ["", "var total int = limit0 * (limit1 + 2)", "", ""]
    return "\n".join(lines)


def mixed_functions():
    numbers, number = Numbers(1), 0
    shared = ["total"] + [f"limit{n}" for n in range(CONSTANTS)]
    while True:
        lines = [f"func work{number}() int {{", "\tvalue := 1", "\tcount, step := value, 2"]
        names = ["value", "count", "step", "total"]
        for depth in range(1, 2 + numbers.below(6)):
            tab = "\t" * depth
            fresh = f"part{depth}"
            lines.append(f"{tab}var {fresh} int = {expression(numbers, names, 20)}")
            names = names + [fresh]
            lines.append(f"{tab}total = {numbers.pick(names)} + {numbers.pick(shared)}")
            lines.append(f"{tab}{{")
            lines.append(f"{tab}\tconst offset = {1 + numbers.below(99)}")
            lines.append(f"{tab}\tvalue := {expression(numbers, names, 20)} + offset")
            lines.append(f"{tab}\tcount, step := step + value, count * 3")
            lines.append(f"{tab}\tstep, value = value, {expression(numbers, names, 4)}")
            lines.append(f"{tab}\t_ = count - step")
        lines += ["\t" * (depth + 1 - n) + "}" for n in range(1, depth + 1)]
        lines.append(f"\treturn {expression(numbers, ['value', 'count', 'step', 'part1'], 20)}")
        yield "\n".join(lines + ["}", "", ""])
        number += 1


def spelled(number):
    """A name of four characters for a number below 46,656."""
    digits = "0123456789abcdefghijklmnopqrstuvwxyz"
    return "v" + digits[number // 1296] + digits[number // 36 % 36] + digits[number % 36]


def long_function(statements):
    numbers = Numbers(2)
    lines = ["\t" + spelled(0) + " := 1"]
    names = 1

    def name():
        return spelled(numbers.below(names))

    for _ in range(statements - 2):
        form = numbers.below(8)
        if form < 3:
            lines.append(f"\t{spelled(names)} := {name()} + {name()}*{name()} - ({name()} + 7)")
            names += 1
        elif form < 5:
            lines.append(f"\tvar {spelled(names)} int = {name()} - {name()}*{name()}")
            names += 1
        elif form == 5:
            lines.append(f"\t{spelled(names)}, _ := {name()} + 2, {name()}")
            names += 1
        elif form == 6:
            lines.append(f"\t{name()}, {name()} = {name()} + 2, {name()}*{name()}")
        else:
            lines.append(f"\t{name()} = {name()} / ({name()} - {name()}) % 100")
    lines.append(f"\treturn {name()}")
    return "package a\n\nfunc f() int {\n" + "\n".join(lines) + "\n}\n"


def nested_functions():
    numbers, number = Numbers(3), 0
    while True:
        lines = [f"func deep{number}() int {{", "first := total", "last := first + 1"]
        for depth in range(DEPTH):
            name = f"level{depth}"
            lines += ["{", f"{name} := last + first*{1 + numbers.below(99)}"]
            lines.append(f"last := {name} - level{numbers.below(depth + 1)}")
        lines += ["first = last"] + ["}"] * DEPTH
        yield "\n".join(lines + ["return last", "}", "", ""])
        number += 1


class Wild:
    """A small file of few names, in which most rules of names are kept or broken by chance."""

    NAMES = ["a", "b", "c", "d", "x", "y", "f", "g", "\u00e9t\u00e9", "int", "true", "nil", "_"]
    OTHERS = ["int", "bool", "string", "any", "error", "len", "uint8", "append", "false", "none"]

    def __init__(self, seed):
        self.numbers = Numbers(seed)

    def name(self):
        return self.numbers.pick(self.NAMES[: 3 + self.numbers.below(len(self.NAMES) - 2)])

    def operand(self):
        form = self.numbers.below(12)
        if form < 2:
            return str(self.numbers.below(100))
        if form == 2:
            return "(" + self.expression() + ")"
        return self.numbers.pick(self.OTHERS) if form == 3 else self.name()

    def expression(self):
        text = self.operand()
        while self.numbers.below(3) == 0:
            text += self.numbers.pick([" + ", " * ", "-", "/", " | ", "^", "<<", " >> ", " & ", " &^ ", "%"])
            text += self.operand()
        return text

    def joined(self, make):
        return ", ".join(make() for _ in range(self.numbers.pick([1, 1, 1, 2, 2, 3])))

    def value(self):
        if self.numbers.below(2) == 0:
            return f"const {self.name()} = {self.expression()}"
        written = self.numbers.pick(["", "", " int", " " + self.name()])
        return f"var {self.name()}{written} = {self.expression()}"

    def statement(self, depth):
        form = self.numbers.below(12)
        if form < 4:
            return f"{self.joined(self.name)} := {self.joined(self.expression)}"
        if form < 6:
            return f"{self.joined(self.name)} = {self.joined(self.expression)}"
        if form < 8:
            return self.value()
        if form == 8:
            return self.numbers.pick(["return", "return " + self.joined(self.expression)])
        return self.block(depth + 1) if depth < 6 else f"{self.name()} := 1"

    def block(self, depth):
        text = "{" + self.numbers.pick(["\n", " "])
        for _ in range(self.numbers.below(7)):
            text += self.statement(depth) + self.numbers.pick(["\n", "; "])
        return text + "}"

    def function(self):
        name = self.numbers.pick([self.name(), "f", "g", "init", "main"])
        return f"func {name}() {self.numbers.pick(['', 'int ', self.name() + ' '])}{self.block(1)}"

    def file(self):
        text = f"package {self.numbers.pick(['a', 'main'])}\n\n"
        for _ in range(1 + self.numbers.below(8)):
            text += (self.value() if self.numbers.below(3) == 0 else self.function()) + "\n\n"
        return text


class Whole:
    """Declarations of the whole grammar, as they come in programs: with comments, many calls and many selectors. A third of the types are aliases."""

    NAMES = (
        "count entry err first i index input key last length name "
        "offset parent position result size source table value x"
    ).split()
    TYPES = ["bool", "error", "int", "string", "any", "Entry", "Position", "SymbolTable"]
    PACKAGES = ["errors", "list", "strings", "unicode"]
    BINARY = "+ + - * / % == == != < <= > >= && || << >> & | ^ &^".split()
    UPDATES = "+= += -= *= /= %= <<= >>= &= |= ^= &^=".split()
    TEXTS = [
        '""',
        '"a"',
        '"a word, and another"',
        '"tab\\t and newline\\n"',
        '"\\u00e9\\x41\\101"',
        "`raw \\ text`",
        '"größe"',
    ]
    INTEGERS = ["0", "1", "2", "7", "42", "1_000", "0x1f", "0b101", "0o17", "9223372036854775807"]
    COMMENTS = [
        "// What comes next is of no interest, and this line says it.\n",
        "/* The same holds here. */\n",
        "// größe: 世界\n",
    ]
    DOCUMENTATION = (
        "// The declaration below stands for one of a program: its names, its types and its body are\n"
        "// picked by chance, and each form of the grammar comes up after a while. It is never run.\n"
    )

    def __init__(self, seed):
        self.numbers = Numbers(seed)
        self.number = 0

    def one_in(self, count):
        return self.numbers.below(count) == 0

    def name(self):
        return self.numbers.pick(self.NAMES)

    def some(self, make, most=3):
        return ", ".join(make() for _ in range(1 + self.numbers.below(most)))

    def names(self):
        return self.some(self.name)

    def type_name(self):
        if self.one_in(5):
            return f"{self.numbers.pick(self.PACKAGES)}.{self.numbers.pick(self.TYPES[5:])}"
        return self.numbers.pick(self.TYPES)

    def type_expr(self, depth=0):
        form = self.numbers.below(12)
        if depth > 2 or form < 7:
            return self.type_name()
        if form < 10:
            return "*" + self.type_expr(depth + 1)
        if form == 10:
            return f"({self.type_expr(depth + 1)})"
        return self.numbers.pick([self.struct_type, self.interface_type])(depth + 1)

    def field(self, depth):
        form = self.numbers.below(6)
        tag = self.numbers.pick([' `json:"x"`', ' "tag"']) if self.one_in(5) else ""
        if form == 0:
            return self.numbers.pick(["", "*"]) + self.type_name() + tag
        return f"{self.names()} {self.type_expr(depth)}{tag}"

    def struct_type(self, depth):
        return "struct { " + "; ".join(self.field(depth) for _ in range(self.numbers.below(3))) + " }"

    def interface_type(self, depth):
        methods = [self.name() + self.signature(depth) for _ in range(self.numbers.below(3))]
        return f"interface {{ {'; '.join(methods)} }}"

    def parameters(self, depth):
        form = self.numbers.below(4)
        if form == 0:
            return "()"
        if form == 1:
            return f"({self.some(lambda: self.type_expr(depth))})"
        return f"({self.some(lambda: f'{self.names()} {self.type_expr(depth)}')})"

    def signature(self, depth=1):
        result = self.numbers.pick(["", " " + self.type_name(), " *" + self.type_name(), " " + self.parameters(depth)])
        return self.parameters(depth) + result

    def literal(self, depth):
        elements = [self.expression(depth + 1) for _ in range(self.numbers.below(4))]
        if self.one_in(2):
            elements = [f"{self.name()}: {it}" for it in elements]
        kind = self.struct_type(2) if self.one_in(6) else self.type_name()
        return f"{kind}{{{', '.join(elements)}}}"

    def operand(self, depth, in_header):
        form = self.numbers.below(16)
        if form < 2:
            return self.numbers.pick(self.INTEGERS)
        if form == 2:
            return self.numbers.pick(self.TEXTS)
        if form < 8 or depth > 3:
            return self.name()
        if form == 8:
            return f"({self.expression(depth + 1)})"
        if form == 9:
            literal = self.literal(depth + 1)
            return f"({literal})" if in_header else literal
        return self.call(depth)

    def call(self, depth):
        text = self.name()
        for _ in range(1 + self.numbers.below(2)):
            if self.one_in(2):
                text += "." + self.name()
            if self.one_in(2):
                arguments = [self.expression(depth + 1) for _ in range(self.numbers.below(3))]
                text += f"({', '.join(arguments)})"
        return text

    def expression(self, depth=0, in_header=False):
        parts = []
        while True:
            unary = self.numbers.pick(["-", "!", "*", "&", "+", "^"]) if self.one_in(8) else ""
            parts.append(unary + self.operand(depth, in_header))
            if not self.one_in(3):
                return " ".join(parts)
            parts.append(self.numbers.pick(self.BINARY))

    def expressions(self):
        return self.some(self.expression, 2)

    def simple(self, in_header=False):
        form = self.numbers.below(10)
        right = self.expression(0, in_header)
        if form < 4:
            return f"{self.names()} := {right}"
        if form < 6:
            return f"{self.call(3)}, {self.name()} = {right}, {self.name()}"
        if form == 6:
            return f"{self.name()}.{self.name()} {self.numbers.pick(self.UPDATES)} {right}"
        if form == 7:
            return self.name() + self.numbers.pick(["++", "--"])
        return f"{self.call(1)}({right})"

    def head(self, word, form):
        condition = self.expression(0, True)
        if word == "if":
            return f"if {condition} " if form < 3 else f"if {self.simple(True)}; {condition} "
        clauses = f"for {self.name()} := 0; {condition}; {self.name()}++ "
        return ["for ", f"for {condition} ", clauses, f"for ; {condition}; "][form]

    def if_statement(self, tab, depth):
        text = self.head("if", self.numbers.below(5)) + self.block(tab, depth)
        while self.one_in(3):
            text += " else " + self.head("if", self.numbers.below(5)) + self.block(tab, depth)
        return text + (" else " + self.block(tab, depth) if self.one_in(3) else "")

    def statement(self, tab, depth):
        form = self.numbers.below(24)
        if depth < 4 and form < 4:
            return self.if_statement(tab, depth + 1)
        if depth < 4 and form < 6:
            return self.head("for", self.numbers.below(4)) + self.block(tab, depth + 1)
        if depth < 4 and form == 6:
            return self.block(tab, depth + 1)
        if form == 7:
            return self.value(tab)
        if form < 10:
            return "return " + self.expressions()
        return self.numbers.pick(["break", "continue", "return"]) if form == 10 else self.simple()

    def block(self, tab, depth):
        lines = []
        for _ in range(1 + self.numbers.below(5)):
            if self.one_in(12):
                lines.append(tab + "\t" + self.numbers.pick(self.COMMENTS))
            lines.append(f"{tab}\t{self.statement(tab + chr(9), depth)}\n")
        return "{\n" + "".join(lines) + tab + "}"

    def value_spec(self, kind):
        written = " " + self.type_expr() if self.one_in(3) else ""
        if kind == "var" and self.one_in(3):
            return f"{self.names()} {self.type_expr()}"
        return f"{self.names()}{written} = {self.expressions()}"

    def value(self, tab):
        kind = self.numbers.pick(["const", "var"])
        if not self.one_in(3):
            return f"{kind} {self.value_spec(kind)}"
        lines = "".join(f"{tab}\t{self.value_spec(kind)}\n" for _ in range(1 + self.numbers.below(4)))
        return f"{kind} (\n{lines}{tab})"

    def type_decl(self):
        fields = "".join(f"\t{self.field(0)}\n" for _ in range(self.numbers.below(6)))
        methods = "".join(f"\t{self.name()}{self.signature()}\n" for _ in range(self.numbers.below(5)))
        return self.numbers.pick([
            f"type Type{self.number} {self.type_expr()}",
            f"type Type{self.number} = {self.type_name()}",
            f"type Type{self.number} struct {{\n{fields}}}",
            f"type Type{self.number} interface {{\n{methods}}}",
            f"type (\n\tType{self.number} {self.type_expr()}\n\tOther{self.number} = {self.type_name()}\n)",
        ])

    def function(self):
        name = self.name()
        receivers = ["", "", f"({name} *Entry) ", f"({name} list.Entry) ", "(Position) ", "(*SymbolTable,) "]
        return f"func {self.numbers.pick(receivers)}work{self.number}{self.signature()} {self.block('', 0)}"

    def declarations(self):
        while True:
            form = self.numbers.below(8)
            text = self.value("") if form == 0 else self.type_decl() if form == 1 else self.function()
            comment = "" if self.one_in(4) else self.DOCUMENTATION
            yield f"{comment}{text}\n\n"
            self.number += 1


WHOLE_HEAD = 'package a\n\nimport "fmt"\nimport (\n\t. "io"\n\tlist "container/list"\n\t_ `text`\n)\n\n'


def lists():
    """Declarations of one long list each."""

    def many(make, between=", "):
        return between.join(make(n) for n in range(2000))

    while True:
        for text in [
            f"var {many(spelled)} int\n",
            f"var values = f({many(spelled)})\n",
            f"var values = T{{{many(lambda n: f'{spelled(n)}: {n}')}}}\n",
            f"const (\n{many(lambda n: f'{spelled(n)} = {n}', chr(10))}\n)\n",
            f"type T struct {{ {many(spelled)} int }}\n",
            f"type T struct {{ {many(spelled, '; ')} }}\n",
            f"type T interface {{ {many(lambda n: spelled(n) + '()', '; ')} }}\n",
            f"func f({many(spelled)}) {{ }}\n",
            f"func f({many(spelled)} int) ({many(lambda n: spelled(n) + ' int')}) {{ }}\n",
            f"func f() {{ {many(spelled)} := {many(spelled)} }}\n",
            f"func f() {{ {many(spelled)} = {many(spelled)} }}\n",
            f"func f() {{ return {many(spelled)} }}\n",
            f"func f() {{ {many(lambda n: spelled(n) + '++', '; ')} }}\n",
        ]:
            yield text


def deep():
    """Declarations of one long nest each."""
    while True:
        for text in [
            f"var x = {'(' * 190}1{')' * 190}\n",
            f"var x = {'!' * 190}y\n",
            f"var x = y{' + y' * 190}\n",
            f"var x = {'f(x, ' * 190}y{')' * 190}\n",
            f"var x = y{'.f()' * 95}\n",
            f"var x = {'T{a: ' * 190}y{'}' * 190}\n",
            f"var x {'struct{ a ' * 190}T{' }' * 190}\n",
            f"var x {'interface{ m(' * 190}T{') }' * 190}\n",
            f"func f(a {'*' * 190}T) {'(' * 190}T{')' * 190} {{ }}\n",
            f"func f() {{ {'{ ' * 190}{'} ' * 190}}}\n",
            f"func f() {{ {'if x { ' * 95}{'} ' * 95}}}\n",
            f"func f() {{ if x {{ }}{' else if x { }' * 190} }}\n",
            f"func f() {{ {'for ; ; { ' * 95}{'} ' * 95}}}\n",
        ]:
            yield text


def text_of(shape, number):
    if shape == "whole":
        return whole(WHOLE_HEAD, Whole(4).declarations(), number)
    if shape == "lists":
        return whole("package a\n\n", lists(), number)
    if shape == "deep":
        return whole("package a\n\n", deep(), number)
    if shape == "mixed":
        return whole(head(), mixed_functions(), number)
    if shape == "long":
        return long_function(number)
    if shape == "nested":
        return whole("package a\n\nvar total int = 1\n\n", nested_functions(), number)
    if shape == "random":
        return Wild(number).file()
    raise ValueError(shape)


BENCH = {
    "mixed_half.go": ("mixed", 524_288),
    "mixed.go": ("mixed", 1_048_576),
    "long_half.go": ("long", 15_000),
    "long.go": ("long", 30_000),
    "nested_half.go": ("nested", 524_288),
    "nested.go": ("nested", 1_048_576),
}
PARSE = {
    "whole_half.go": ("whole", 524_288),
    "whole.go": ("whole", 1_048_576),
    "lists_half.go": ("lists", 524_288),
    "lists.go": ("lists", 1_048_576),
    "deep_half.go": ("deep", 524_288),
    "deep.go": ("deep", 1_048_576),
}
SMALL = {f"{seed}.go": ("random", seed) for seed in range(1, 301)}


def write(folder, files):
    os.makedirs(folder, exist_ok=True)
    for name, (shape, number) in files.items():
        with open(os.path.join(folder, name), "wb") as it:
            it.write(text_of(shape, number).encode())


def main(what, of):
    if what == "bench":
        write(of, BENCH)
    elif what == "small":
        write(of, SMALL)
    elif what == "parse":
        write(of, PARSE)
    else:
        sys.stdout.buffer.write(text_of(what, int(of)).encode())


if __name__ == "__main__":
    try:
        main(*sys.argv[1:])
    except (TypeError, ValueError):
        sys.exit(__doc__)
