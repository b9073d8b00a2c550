#!/usr/bin/env python3
"""Writes worked archives of operands: each pair of operands under each binary operator, each operand under each prefix and in each update, each given to each type,
and each converted to each type.

usage: operands.py FOLDER        all
       operands.py few FOLDER    one operator of each kind, and one operand of each kind

Before each place where docs/RULES.md has a rule broken stands a comment `/*RULE*/`. What is broken is worked out here from the tables below, which say of each operand
what it is, as sections 20 to 25 of docs/RULES.md say it: not by the program, nor by go/types.
"""
import os
import sys

DECLARATIONS = """type K int

type S string

type B bool

type T struct{ a int }

func (x T) m() int { return x.a }

type U struct {
	a int `tag`
}

type P *T

type I interface{ m() int }

type W struct{ x any }

const one, text, yes = 1, "a", true

const big K = 3

var (
	i int
	k K
	s string
	w S
	b bool
	c B
	t T
	u U
	p *T
	q P
	r *U
	x any
	y I
)

func two() (int, int) { return 1, 2 }

func none() {}
"""
# The type under a type, for types with a name of their own; T and U are structs that differ in a tag alone.
UNDER = {"int": "int", "K": "int", "string": "string", "S": "string", "bool": "bool", "B": "bool", "T": "struct", "U": "tagged", "P": "*T", "*T": "*T", "*U": "*U", "any": "any", "I": "I"}
NAMED = {"int", "K", "string", "S", "bool", "B", "T", "U", "P"}
INTERFACES = {"any", "I"}
POINTERS = {"P": "T", "*T": "T", "*U": "U"}
HAS_METHOD = {"T", "*T", "I"}  # the types that implement I
BASICS = {"int", "string", "bool"}


class Operand:
    """What an operand is: its text, its type or the kind of an untyped one, and whether it is a constant, addressable, or a number that is 0."""

    def __init__(self, text, kind, constant=False, addressable=False, zero=False):
        self.text, self.kind, self.constant, self.addressable, self.zero = text, kind, constant, addressable, zero

    def untyped(self):
        return self.kind in ("1", "a", "true", "nil")

    def value(self):
        return self.kind not in ("values", "nothing", "refused")

    def default(self):
        return {"1": "int", "a": "string", "true": "bool"}.get(self.kind, self.kind)


OPERANDS = [
    Operand("1", "1", constant=True),
    Operand("one", "1", constant=True),
    Operand("0", "1", constant=True, zero=True),
    Operand('"b"', "a", constant=True),
    Operand("text", "a", constant=True),
    Operand("true", "true", constant=True),
    Operand("yes", "true", constant=True),
    Operand("(i < 2)", "true"),
    Operand("nil", "nil"),
    Operand("i", "int", addressable=True),
    Operand("k", "K", addressable=True),
    Operand("big", "K", constant=True),
    Operand("K(0)", "K", constant=True, zero=True),
    Operand("s", "string", addressable=True),
    Operand("w", "S", addressable=True),
    Operand("b", "bool", addressable=True),
    Operand("c", "B", addressable=True),
    Operand("t", "T", addressable=True),
    Operand("u", "U", addressable=True),
    Operand("p", "*T", addressable=True),
    Operand("q", "P", addressable=True),
    Operand("r", "*U", addressable=True),
    Operand("x", "any", addressable=True),
    Operand("y", "I", addressable=True),
    Operand("p.a", "int", addressable=True),
    Operand("t.m()", "int"),
    Operand("(T{1})", "T"),
    Operand("two()", "values"),
    Operand("none()", "nothing"),
]
# Those that are left out where few are asked for, since there is another of the kind.
DOUBLE = {"one", "text", "yes", "p.a", "t.m()", "(T{1})"}
REFUSED = Operand("/*N1*/absent", "refused")
ARITHMETIC, ORDER, EQUAL, LOGIC, BITS = "+ - * / %".split(), "< <= > >=".split(), "== !=".split(), "&& ||".split(), "& | ^ << >> &^".split()
TYPES = ["int", "K", "string", "S", "bool", "B", "T", "U", "*T", "P", "*U", "any", "I"]


def implements(kind, interface):
    return interface == "any" or kind in HAS_METHOD


def assignable(operand, to):
    """Section 17, "Assignability"."""
    kind = operand.kind
    if kind == "nil":
        return to in POINTERS or to in INTERFACES
    if operand.untyped():
        return UNDER[operand.default()] == UNDER[to] or to in INTERFACES and implements(operand.default(), to)
    if kind == to or to in INTERFACES and implements(kind, to):
        return True
    return UNDER[kind] == UNDER[to] and not (kind in NAMED and to in NAMED)


def common(left, right):
    """The type that two operands share, or the kind of two untyped ones."""
    if left.untyped() and right.untyped():
        return left.kind if left.kind == right.kind and left.kind != "nil" else None
    if left.untyped():
        return right.kind if assignable(left, right.kind) else None
    if right.untyped():
        return left.kind if assignable(right, left.kind) else None
    return left.kind if left.kind == right.kind else None


def takes(operator, kind):
    """Whether an operator takes operands of a type."""
    under = UNDER[Operand("", kind).default()]
    if operator == "+" or operator in ORDER:
        return under in ("int", "string")
    return under == ("bool" if operator in LOGIC else "int")


def equal(left, right):
    if left.untyped() and right.untyped():
        return left.kind == right.kind and left.kind != "nil"
    return not right.untyped() and assignable(left, right.kind) or not left.untyped() and assignable(right, left.kind)


def binary(operator, left, right):
    """The rule that an operator breaks between two operands that are values."""
    if operator in EQUAL:
        return None if equal(left, right) else "Y3"
    kind = common(left, right)
    if kind is None or not takes(operator, kind):
        return "Y3"
    return "Y7" if operator in "/%" and right.zero and right.constant else None


def marked(operand):
    """An operand of an operator, with its own rule: Y3 where it is no single value."""
    return operand.text if operand.value() or operand is REFUSED else f"/*Y3*/{operand.text}"


def operators():
    lines = []
    for operator in ARITHMETIC + EQUAL + ORDER + LOGIC:
        for left in [*OPERANDS, REFUSED]:
            for right in [*OPERANDS, REFUSED]:
                rule = binary(operator, left, right) if left.value() and right.value() else None
                lines.append(f"\t_ = {f'/*{rule}*/' if rule else ''}{marked(left)} {operator} {marked(right)}")
    for operator in BITS:
        for left, right in [(left, right) for left in OPERANDS[::4] for right in OPERANDS[::3]]:
            mark = "" if left.value() else "/*Y3*/"
            lines.append(f"\t_ = /*X1*/{mark}{left.text} {operator} {marked(right)}")
    return lines


def prefixes():
    lines = []
    for operand in OPERANDS:
        for operator in "+-!*&":
            under = UNDER.get(operand.default())
            right = {"+": under == "int", "-": under == "int", "!": under == "bool", "*": operand.kind in POINTERS, "&": operand.addressable or operand.text.startswith("(T{")}[operator]
            rule = "/*Y3*/" if operand.value() and not right else ""
            lines.append(f"\t_ = {rule}{operator}{marked(operand)}")
        lines.append(f"\t_ = /*X1*/^{marked(operand)}")
    return lines


def updates():
    """`x++`, and `x op= y`."""
    lines = []
    for left in OPERANDS:
        if not left.value():
            continue
        for operator in ("++", "--"):
            right = left.addressable and UNDER.get(left.kind) == "int"
            lines.append(f"\t{'' if right else '/*Y3*/'}{left.text}{operator}")
        for operator in ARITHMETIC:
            for right in OPERANDS:
                if not right.value():
                    lines.append(f"\t{left.text} {operator}= {marked(right)}")
                    continue
                rule = binary(operator, left, right) if left.addressable else "Y3"
                lines.append(f"\t{f'/*{rule}*/' if rule else ''}{left.text} {operator}= {right.text}")
        lines.append(f"\t/*X1*/{left.text} |= 1")
    return lines


def given():
    """Each operand given to each type: by assignment, as an argument, by a specification, as an element, and returned."""
    inside, outside = [], []
    for number, kind in enumerate(TYPES):
        target = {"*T": "p", "P": "q", "*U": "r", "any": "x", "I": "y", "int": "i", "K": "k", "string": "s", "S": "w", "bool": "b", "B": "c", "T": "t", "U": "u"}[kind]
        outside.append(f"func take{number}(v {kind}) {{}}\n\ntype hold{number} struct{{ v {kind} }}\n")
        for at, operand in enumerate(OPERANDS):
            wrong = not operand.value() or not assignable(operand, kind)
            inside.append(f"\t{'/*Y4*/' if wrong else ''}{target} = {operand.text}")
            inside.append(f"\ttake{number}{'/*C2*/' if operand.kind == 'values' else '/*C3*/' if wrong else ''}({operand.text})")
            inside.append(f"\tvar {'/*Y4*/' if wrong else ''}v{number}_{at} {kind} = {operand.text}")
            element = f"/*Y3*/{operand.text}" if not operand.value() else f"{'/*Y4*/' if wrong else ''}{operand.text}"
            inside.append(f"\t_ = hold{number}{{{element}}}")
            key = "/*Y4*/" if wrong and operand.value() else ""
            inside.append(f"\t_ = hold{number}{{{key}v: {marked(operand)}}}")
            outside.append(f"func give{number}_{at}() {kind} {{\n\t{'/*Y4*/' if wrong else ''}return {operand.text}\n}}\n")
            returned = operand.value() and assignable(operand, kind)
            outside.append(f"func name{number}_{at}() (v {kind}) {{\n\t{'' if returned else '/*Y4*/'}return {operand.text}\n}}\n")
    return inside, outside


def converts(operand, to):
    """The rule that a conversion breaks."""
    if operand.kind == "values":
        return "C2"
    if operand.kind == "nothing":
        return "C4"
    kind = operand.default()
    if operand.kind == "nil":
        return None if assignable(operand, to) else "C4"
    if UNDER[to] == "string" and UNDER[kind] == "int":
        return "X1"
    if operand.untyped():
        return None if assignable(operand, to) else "C4"
    alike = {UNDER[kind], UNDER[to]}
    if assignable(operand, to) or len(alike) == 1 or alike == {"struct", "tagged"}:
        return None
    if kind in ("*T", "*U") and to in ("*T", "*U"):
        return None
    return "C4"


def conversions():
    lines = []
    for to in TYPES:
        for operand in OPERANDS:
            rule = converts(operand, to)
            callee = f"({to})" if to.startswith("*") else to
            lines.append(f"\t_ = {callee}{f'/*{rule}*/' if rule else ''}({operand.text})")
    return lines


def constants():
    """Each operand as the value of a constant, with each written type and with none."""
    lines = []
    for at, operand in enumerate(OPERANDS):
        wrong = "" if operand.constant else "/*Y7*/"
        lines.append(f"\tconst c{at} = {wrong}{operand.text}")
        for number, kind in enumerate(TYPES):
            if UNDER[kind] not in BASICS:
                lines.append(f"\tconst c{at}_{number} {kind} = /*Y7*/{operand.text}")
            elif wrong:
                lines.append(f"\tconst c{at}_{number} {kind} = {wrong}{operand.text}")
            else:
                lines.append(f"\tconst {'' if assignable(operand, kind) else '/*Y4*/'}c{at}_{number} {kind} = {operand.text}")
    return lines


def archive(inside, outside=()):
    body = "\n".join(inside)
    rest = "".join(f"\n{it}" for it in outside)
    return f"form worked\n-- ex.com/p/a.go --\npackage p\n\n{DECLARATIONS}\nfunc f() {{\n{body}\n}}\n{rest}"


def few():
    """Leaves out what there is another of."""
    OPERANDS[:] = [operand for operand in OPERANDS if operand.text not in DOUBLE]
    ARITHMETIC[:], ORDER[:], EQUAL[:], LOGIC[:], BITS[:] = ["+", "/"], ["<"], ["=="], ["&&"], ["&", "<<"]


def main(folder):
    os.makedirs(folder, exist_ok=True)
    texts = {"operators": archive(operators()), "prefixes": archive(prefixes() + updates()), "given": archive(*given()), "conversions": archive(conversions()), "constants": archive(constants())}
    for name, text in texts.items():
        with open(os.path.join(folder, f"{name}.txt"), "w", encoding="utf-8") as out:
            out.write(text)


if __name__ == "__main__":
    if len(sys.argv) == 3 and sys.argv[1] == "few":
        few()
    elif len(sys.argv) != 2:
        sys.exit(__doc__)
    main(sys.argv[-1])
