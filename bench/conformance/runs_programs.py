"""Programs over `int` and `bool` for runs.py: of several packages with `init` functions, loops, recursion, methods, overflow, division, panics, short
circuits, shadowing and aliases. Each is one that Go builds. A number gives the same program each time."""
import random
import re

NAMES = ["a", "b", "c", "d", "x", "y", "z"]
NUMBERS = [0, 1, 2, 3, 5, 7, 10, 64, 255, 1_000_003, 4_611_686_018_427_387_904, 9_223_372_036_854_775_807]
DIVISORS = [1, 2, 3, 7, 10, -1, -2, -5, 1_000_003, 9_223_372_036_854_775_807]
INT, BOOL = "int", "bool"
# What each package declares for these.
ALIASES = {INT: ["Whole", "number"], BOOL: ["flag"]}


class Type:
    """A declared type over `int` or `bool`."""

    def __init__(self, package, name, under):
        self.package, self.name, self.under = package, name, under


class Function:
    def __init__(self, package, name, receiver, parameters, result, is_recursive):
        self.package, self.name, self.receiver = package, name, receiver
        self.parameters, self.result, self.is_recursive = parameters, result, is_recursive


def under(type_):
    return type_.under if isinstance(type_, Type) else type_


class Scope:
    """The variables of nested blocks: by name, the type and whether it may be assigned."""

    def __init__(self):
        self.blocks = [{}]

    def visible(self):
        found = {}
        for block in self.blocks:
            found.update(block)
        return found


class Body:
    """Writes the body of one function."""

    def __init__(self, program, package, function):
        self.program, self.package, self.function = program, package, function
        self.random, self.scope, self.loops, self.lines = program.random, Scope(), 0, []
        self.own_calls = 2 if function and function.is_recursive else 0

    # Expressions: each is a text, and whether it is constant.

    def spelled(self, type_):
        """The name of a type, or that of an alias of it."""
        is_alias = self.program.aliases.random() < 0.4
        if not isinstance(type_, Type):
            return self.program.aliases.choice(ALIASES[type_]) if is_alias else type_
        name = f"A{type_.name}" if is_alias else type_.name
        return name if type_.package == self.package else f"p{type_.package}.{name}"

    def constant(self, type_):
        if under(type_) == BOOL:
            text = self.random.choice(["true", "false"])
        else:
            number = self.random.choice(NUMBERS)
            text = str(-number if self.random.random() < 0.3 else number)
        return (f"{self.spelled(type_)}({text})" if isinstance(type_, Type) else text), True

    def variable(self, type_):
        found = [name for name, (of, _) in self.scope.visible().items() if of is type_]
        return (self.random.choice(found), False) if found else None

    def call(self, function, depth):
        arguments = [self.expression(it, depth - 1)[0] for it in function.parameters]
        if function is self.function:
            arguments[0] = "n - 1"
            self.own_calls -= 1
        elif function.is_recursive:
            arguments[0] = str(self.random.randrange(6))
        text = f"{function.name}({', '.join(arguments)})"
        if function.receiver:
            return f"({self.expression(function.receiver, depth - 1)[0]}).{text}"
        return text if function.package == self.package else f"p{function.package}.{text}"

    def callable(self, fits):
        found = [it for it in self.program.functions if fits(it) and self.program.reaches(self.package, it.package)]
        if self.own_calls > 0 and not self.loops and fits(self.function):
            found += [self.function] * 3
        return found

    def expression(self, type_, depth):
        pick = self.random.random()
        if depth <= 0 or pick < 0.25:
            return (self.random.random() < 0.8 and self.variable(type_)) or self.constant(type_)
        if pick < 0.4:
            found = self.callable(lambda it: it.result is type_)
            if found:
                return self.call(self.random.choice(found), depth), False
        if pick < 0.5:
            others = [it for it in [INT, BOOL, *self.program.types] if under(it) == under(type_) and it is not type_ and self.sees(it)]
            text, is_constant = self.expression(self.random.choice(others), depth - 1) if others else self.constant(type_)
            return f"{self.spelled(type_)}({text})", is_constant
        return self.number(type_, depth) if under(type_) == INT else self.truth(type_, depth)

    def sees(self, type_):
        return not isinstance(type_, Type) or self.program.reaches(self.package, type_.package)

    def pair(self, type_, depth):
        """Two operands, not both constant; None where there is no other."""
        left, right = self.expression(type_, depth - 1), self.expression(type_, depth - 1)
        if left[1] and right[1]:
            left = self.variable(type_)
        return (left[0], right[0]) if left else None

    def number(self, type_, depth):
        pick = self.random.random()
        if pick < 0.15:
            text, is_constant = self.expression(type_, depth - 1)
            return (text, True) if is_constant else (f"{self.random.choice('-+')}({text})", False)
        if pick < 0.4:
            text, is_constant = self.expression(type_, depth - 1)
            if not is_constant:
                divisor = str(self.random.choice(DIVISORS)) if self.random.random() < 0.9 else f"({text})"
                return f"({text}) {self.random.choice('/%')} {divisor}", False
        operands = self.pair(type_, depth)
        return (f"({operands[0]}) {self.random.choice('+-*')} ({operands[1]})", False) if operands else self.constant(type_)

    def truth(self, type_, depth):
        pick = self.random.random()
        if pick < 0.2:
            text, is_constant = self.expression(type_, depth - 1)
            return (text, True) if is_constant else (f"!({text})", False)
        if pick < 0.5:
            operands = self.pair(type_, depth)
            return (f"({operands[0]}) {self.random.choice(['&&', '||'])} ({operands[1]})", False) if operands else self.constant(type_)
        of = self.random.choice([it for it in [INT, INT, BOOL, *self.program.types] if self.sees(it)])
        operands = self.pair(of, depth)
        if not operands:
            return self.constant(type_)
        operator = self.random.choice(["==", "!="] if under(of) == BOOL else ["==", "!=", "<", "<=", ">", ">="])
        text = f"({operands[0]}) {operator} ({operands[1]})"
        return (f"{self.spelled(type_)}({text})" if isinstance(type_, Type) else text), False

    # Statements.

    def add(self, text):
        self.lines.append("\t" * len(self.scope.blocks) + text)

    def type_(self):
        return self.random.choice([it for it in [INT, INT, BOOL, *self.program.types] if self.sees(it)])

    def declare(self, depth):
        name, type_ = self.random.choice(NAMES), self.type_()
        if name in self.scope.blocks[-1]:
            self.print(depth)
            return
        if self.random.random() < 0.08:
            self.add(f"const {name} = {self.constant(INT)[0]}")
            self.add(f"println({name})")
            self.scope.blocks[-1][name] = (None, False)
            return
        text = self.expression(type_, depth)[0]
        form = self.random.random()
        if form < 0.6:
            self.add(f"{name} := {self.spelled(type_)}({text})")
        elif form < 0.85:
            self.add(f"var {name} {self.spelled(type_)} = {text}")
        else:
            self.add(f"var {name} {self.spelled(type_)}")
        self.scope.blocks[-1][name] = (type_, True)
        self.add(f"_ = {name}")

    def assign(self, depth):
        found = [(name, of) for name, (of, is_free) in self.scope.visible().items() if is_free]
        if not found:
            self.print(depth)
            return
        name, type_ = self.random.choice(found)
        pick = self.random.random()
        if under(type_) == INT and pick < 0.25:
            self.add(f"{name}{self.random.choice(['++', '--'])}")
        elif under(type_) == INT and pick < 0.5:
            self.add(f"{name} {self.random.choice('+-*')}= {self.expression(type_, depth)[0]}")
        elif under(type_) == INT and pick < 0.6:
            self.add(f"{name} {self.random.choice('/%')}= {self.random.choice(DIVISORS)}")
        else:
            self.add(f"{name} = {self.expression(type_, depth)[0]}")

    def print(self, depth):
        values = []
        for _ in range(self.random.randrange(4)):
            type_ = self.type_()
            values.append(f"{self.spelled(type_)}({self.expression(type_, depth)[0]})")
        self.add(f"println({', '.join(values)})")

    def block(self, head, depth, first=(), own=None, is_loop=False):
        self.add(head + "{")
        self.scope.blocks.append(dict(own or {}))
        self.loops += is_loop
        for line in first:
            self.add(line)
        self.statements(depth - 1)
        self.loops -= is_loop
        self.scope.blocks.pop()

    def test(self, depth):
        text, is_constant = self.expression(BOOL, depth)
        return text if not is_constant else self.random.choice(["true", "false"])

    def branch(self, depth):
        own = {}
        head = "if "
        if self.random.random() < 0.3:
            name = self.random.choice(NAMES)
            head += f"{name} := {self.expression(INT, 1)[0]}; {name} {self.random.choice(['<', '>='])} {self.random.choice(NUMBERS)} "
            # All branches see it.
            own = {name: (INT, True)}
        else:
            head += self.test(depth) + " "
        self.block(head, depth, own=own)
        while self.random.random() < 0.3:
            self.scope.blocks.append(own)
            text = self.test(depth)
            self.scope.blocks.pop()
            self.block(f"}} else if {text} ", depth, own=own)
        if self.random.random() < 0.5:
            self.block("} else ", depth, own=own)
        self.add("}")

    def loop(self, depth):
        turns, name = self.random.randrange(1, 6), self.random.choice(["i", "j", "k"])
        form = self.random.random()
        own = {name: (INT, False)}
        if form < 0.3:
            self.block(f"for {name} := 0; {name} < {turns}; {name}++ ", depth, own=own, is_loop=True)
        elif form < 0.5:
            self.block(f"for {name} := {turns}; {name} > 0; {name} -= {self.random.randrange(1, 3)} ", depth, own=own, is_loop=True)
        else:
            self.add("{")
            self.scope.blocks.append(own)
            self.add(f"{name} := 0")
            if form < 0.75:
                self.block(f"for {name} < {turns} ", depth, first=[f"{name}++"], is_loop=True)
            else:
                self.block("for ", depth, first=[f"if {name} >= {turns} {{", "\tbreak", "}", f"{name} += 1"], is_loop=True)
            self.add("}")
            self.scope.blocks.pop()
        self.add("}")

    def leave(self, depth):
        """Ends what runs, now and then, behind a test."""
        pick = self.random.random()
        if self.loops and pick < 0.7:
            what = self.random.choice(["break", "continue"])
        elif pick < 0.05:
            what = f"panic({self.expression(self.type_(), 1)[0]})"
        else:
            what = self.ending(depth)
        self.add(f"if {self.test(depth)} {{")
        self.add(f"\t{what}")
        self.add("}")

    def ending(self, depth):
        result = self.function.result if self.function else None
        return f"return {self.expression(result, depth)[0]}" if result else "return"

    def statement(self, depth):
        forms = [self.declare] * 4 + [self.assign] * 4 + [self.print] * 3 + [self.leave] + [self.do_call] * 2
        if depth > 1:
            forms += [self.branch] * 3 + [self.loop] * 2 + [lambda it: (self.block("", it), self.add("}"))]
        self.random.choice(forms)(depth)

    def do_call(self, depth):
        found = self.callable(lambda it: True)
        if found:
            self.add(self.call(self.random.choice(found), depth))

    def statements(self, depth):
        for _ in range(self.random.randrange(1, 5)):
            self.statement(depth)

    def written(self, head):
        function = self.function
        first = {}
        if function:
            for number, type_ in enumerate(function.parameters):
                first["n" if function.is_recursive and number == 0 else f"q{number}"] = (type_, not (function.is_recursive and number == 0))
            if function.receiver:
                first["t"] = (function.receiver, True)
        self.scope.blocks[0].update(first)
        if function and function.is_recursive:
            self.add("if n <= 0 {")
            self.add("\t" + self.ending(1))
            self.add("}")
        self.statements(3)
        self.statements(3)
        if function and function.result:
            self.add(self.ending(2))
        return "\n".join([head + " {", *self.lines, "}", ""])


class Program:
    def __init__(self, number, with_inits=True):
        self.random = random.Random(number * 7919 + 11)
        self.aliases = random.Random(number * 31 + 7)
        self.types, self.functions, self.with_inits = [], [], with_inits
        self.count = self.random.randrange(1, 5)
        # The last package is `main`; each imports some of those before it.
        self.imports = {it: {other for other in range(it) if self.random.random() < 0.7} for it in range(self.count)}
        self.files = {}

    def reaches(self, package, other):
        return package == other or other in self.imports[package]

    def head_of(self, function, body):
        names = ["n" if function.is_recursive and number == 0 else f"q{number}" for number in range(len(function.parameters))]
        parameters = ", ".join(f"{name} {body.spelled(of)}" for name, of in zip(names, function.parameters))
        receiver = f"(t {body.spelled(function.receiver)}) " if function.receiver else ""
        result = f" {body.spelled(function.result)}" if function.result else ""
        return f"func {receiver}{function.name}({parameters}){result}"

    def new_function(self, package, number):
        seen = [INT, INT, BOOL, *[it for it in self.types if self.reaches(package, it.package)]]
        own = [it for it in self.types if it.package == package]
        receiver = self.random.choice(own) if own and self.random.random() < 0.35 else None
        is_recursive = self.random.random() < 0.3
        parameters = [self.random.choice(seen) for _ in range(self.random.randrange(3))]
        result = self.random.choice([None, *seen, *seen])
        return Function(package, f"F{number}", receiver, [INT, *parameters] if is_recursive else parameters, result, is_recursive)

    def package(self, package):
        is_last = package == self.count - 1
        pieces = ["type number = Whole\n", "type (\n\tflag = bool\n\tWhole = int\n)\n"]
        for number in range(self.random.randrange(3)):
            of = Type(package, f"T{number}", self.random.choice([INT, INT, BOOL]))
            self.types.append(of)
            pieces += [f"type {of.name} {of.under}\n", f"type A{of.name} = {of.name}\n"]
        for number in range(self.random.randrange(1, 5)):
            function = self.new_function(package, number)
            body = Body(self, package, function)
            head = self.head_of(function, body)
            pieces.append(body.written(head))
            self.functions.append(function)
        for _ in range(self.random.randrange(3) if self.with_inits or is_last else 0):
            body = Body(self, package, None)
            pieces.append(body.written("func init()"))
        if is_last:
            body = Body(self, package, None)
            pieces.append(body.written("func main()"))
        self.write(package, pieces, is_last)

    def write(self, package, pieces, is_last):
        names = ["a.go", "b.go", "z.go"][: self.random.randrange(1, 4)]
        placed = {name: [] for name in names}
        for piece in pieces:
            placed[self.random.choice(names)].append(piece)
        left = set(self.imports[package])
        for name in names:
            used = {int(it) for piece in placed[name] for it in re.findall(r"\bp(\d+)\.", piece)}
            lines = [f'import "run/p{it}"' for it in sorted(used)]
            if name == names[-1]:
                lines += [f'import _ "run/p{it}"' for it in sorted(left - used)]
            left -= used
            text = "\n".join([f"package {'main' if is_last else f'p{package}'}", "", *lines, "", *placed[name]])
            self.files[name if is_last else f"p{package}/{name}"] = text

    def written(self):
        for package in range(self.count):
            self.package(package)
        return self.files


def program(number, with_inits=True):
    """The files of a program, by their paths below its folder."""
    return Program(number, with_inits).written()
