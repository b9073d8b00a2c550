#!/usr/bin/env python3
"""Measures `govisd resolve` on shapes of text that might take long, beside Go's own front end, and checks the bounds.

    bench/hostile/shapes.py --govisd FILE [--gofront FILE] [--only NAME,..] [--write FOLDER] [--beyond]

Each shape is a file of one package, of half the size and of the whole (1,048,576 bytes, the most that a text may have). A run of the whole may take 3
seconds and 1 GB at most, and 2.6 times the time of the half. With --write the files are written and nothing is measured. Status 1 where a bound does not hold.

With --beyond the shapes are measured of which it is known that they are beyond the bounds: their time grows with the square of the text. Status 0.
"""
import argparse
import os
import subprocess
import sys
import tempfile
import threading
import time

MOST_BYTES = 1_048_576
MOST_SECONDS, MOST_MEGABYTES, MOST_GROWTH = 3.0, 1_000, 2.6
# Shorter runs say nothing of growth.
LEAST_SECONDS = 0.05
PATIENCE = 60

SHAPES = {}
BEYOND = {}


def shape(make):
    SHAPES[make.__name__] = make
    return make


def beyond(make):
    BEYOND[make.__name__] = make
    return make


def lines(form, count, first=0):
    return "".join(form.replace("%", str(i)) for i in range(first, count))


def fields(count, form="f% int"):
    return "; ".join(form.replace("%", str(i)) for i in range(count))


def struct(name, count):
    return f"type {name} struct {{\n" + lines("\tf% int\n", count) + "}\n"


def methods(name, count):
    return f"type {name} struct{{}}\n" + lines(f"func ({name}) m%() {{}}\n", count)


def interface(name, count):
    return f"type {name} interface {{\n" + lines("\tm%()\n", count) + "}\n"


def body(form, count):
    return "func f() {\n" + lines(form, count) + "}\n"


# constants


@shape
def strings_doubled(n):
    """Each constant is the one before it twice: of 28 lines the last would have 2^28 bytes."""
    return 'const s0 = "abcdefgh"\n' + "".join(f"const s{i + 1} = s{i} + s{i}\n" for i in range(n))


@shape
def strings_appended(n):
    return 'const s0 = ""\n' + "".join(f'const s{i + 1} = s{i} + "a"\n' for i in range(n))


@shape
def strings_prepended(n):
    return 'const s0 = ""\n' + "".join(f'const s{i + 1} = "a" + s{i}\n' for i in range(n))


@shape
def strings_compared(n):
    """Strings nearly as long as a constant may be, 983,041 bytes, alike up to their ends, compared some 50,000 times."""
    build = 'const s0 = "abcdefghijklmno"\n' + "".join(f"const s{i + 1} = s{i} + s{i}\n" for i in range(16))
    return build + 'const a = s16 + "a"\nconst b = s16 + "b"\n' + lines("const c% = a < b\n", n)


@shape
def constants_chained(n):
    return "const c0 = 1\n" + "".join(f"const c{i + 1} = c{i} + 1\n" for i in range(n))


@shape
def constants_chained_backwards(n):
    return "".join(f"const c{i} = c{i + 1} + 1\n" for i in range(n)) + f"const c{n} = 1\n"


@shape
def constants_ring(n):
    return "".join(f"const c{i} = c{(i + 1) % max(n, 1)}\n" for i in range(n))


@shape
def constants_shared(n):
    """Each constant needs the two before it."""
    return "const c0 = 1\nconst c1 = 1\n" + "".join(f"const c{i + 2} = c{i} - c{i + 1}\n" for i in range(n))


@shape
def operands_wide(n):
    return "const c = 1" + " + 1" * n + "\n"


# members


@shape
def methods_implemented(n):
    """Many methods, and one assignment to an interface of some of them."""
    return "type T struct{}\n" + lines("func (t T) m%() {}\n", n) + "type I interface { m0(); m1(); m2() }\nfunc f(t T) { var i I = t; _ = i }\n"


@shape
def methods_all_implemented(n):
    wanted = lines("\tm%()\n", n)
    return "type T struct{}\n" + lines("func (t T) m%() {}\n", n) + "type I interface {\n" + wanted + "}\nfunc f(t T) { var i I = t; _ = i }\n"


@shape
def methods_called(n):
    return "type T struct{}\n" + lines("func (t T) m%() {}\n", n) + "func f(t T) {\n" + lines("\tt.m%()\n", n) + "}\n"


@shape
def fields_selected(n):
    return "type T struct {\n" + lines("\tf% int\n", n) + "}\nfunc f(t T) {\n" + lines("\t_ = t.f%\n", n) + "}\n"


@shape
def literals_keyed(n):
    return "type T struct {\n" + lines("\tf% int\n", n) + "}\nfunc f() {\n" + lines("\t_ = T{f%: 1}\n", n) + "}\n"


@shape
def literals_whole(n):
    k = 20
    fields = "".join(f"\tf{i} int\n" for i in range(k))
    return "type T struct {\n" + fields + "}\nfunc f() {\n" + lines("\t_ = T{" + ", ".join(["1"] * k) + "}\n", n) + "}\n"


@shape
def literal_wide(n):
    return "type T struct {\n" + lines("\tf% int\n", n) + "}\nvar t = T{" + ", ".join(f"f{i}: 1" for i in range(n)) + "}\n"


@shape
def interfaces_assigned(n):
    """A big interface, to which a value is assigned many times."""
    return (
        "type T struct{}\n"
        + lines("func (t T) m%() {}\n", n)
        + "type I interface {\n"
        + lines("\tm%()\n", n)
        + "}\nfunc f(t T) {\n\tvar i I\n"
        + "\ti = t\n" * n
        + "\t_ = i\n}\n"
    )


@shape
def interfaces_many(n):
    return "type T struct{}\nfunc (t T) m() {}\n" + lines("type I% interface { m() }\n", n) + "func f(t T) {\n" + lines("\tvar i% I% = t\n", n) + "}\n"


@shape
def interfaces_compared(n):
    return (
        "type T struct{}\ntype I interface {\n"
        + lines("\tm%()\n", n)
        + "}\ntype J interface {\n"
        + lines("\tm%()\n", n)
        + "}\nfunc f(i I) {\n\tvar j J = i\n\t_ = j\n}\n"
    )


@shape
def embedded_chain(n):
    return "".join(f"type T{i} struct {{ *T{i + 1} }}\n" for i in range(n)) + f"type T{n} struct {{ f int }}\nfunc f(t T0) int {{ return t.f }}\n"


@shape
def embedded_wide(n):
    return lines("type T% struct { f% int }\n", n) + "type S struct {\n" + lines("\tT%\n", n) + "}\nfunc f(s S) {\n" + lines("\t_ = s.f%\n", n) + "}\n"


@shape
def embedded_towers(n):
    """Each type embeds two that embed one: as many paths as 2 to the height."""
    return (
        "".join(f"type T{i} struct {{ L{i}; R{i} }}\ntype L{i} struct {{ T{i + 1} }}\ntype R{i} struct {{ T{i + 1} }}\n" for i in range(n))
        + f"type T{n} struct {{ f int }}\nfunc f(t T0) int {{ return t.f }}\n"
    )


@shape
def embedded_tree(n):
    """A tree of types that each embed two, and a selection of the field of each leaf."""
    inner = "".join(f"type T{i} struct {{ T{2 * i + 1}; T{2 * i + 2} }}\n" for i in range(n))
    leaves = "".join(f"type T{i} struct {{ f{i} int }}\n" for i in range(n, 2 * n + 1))
    return inner + leaves + "func f(t T0) {\n" + "".join(f"\t_ = t.f{i}\n" for i in range(n, 2 * n + 1)) + "}\n"


@shape
def embedded_through(n):
    """Many types that each embed one type, which embeds many, with three selections from each."""
    types = lines("type X% struct { f% int }\n", 2 * n) + "type U struct {\n" + lines("\tX%\n", 2 * n) + "}\n" + lines("type T% struct { U }\n", n)
    return types + "".join(f"func g{i}(t T{i}) {{ _, _, _ = t.f{2 * i}, t.f{2 * i + 1}, t.f{i} }}\n" for i in range(n))


@shape
def derived_selected(n):
    """Many types that are defined by one big struct type, and a selection from each."""
    return struct("S", n) + lines("type T% S\nfunc f%(t T%) int { return t.f% }\n", n)


@shape
def derived_methods(n):
    return struct("S", n) + lines("type T% S\nfunc (T%) m%() {}\n", n)


@shape
def derived_literals(n):
    return struct("S", n) + lines("type T% S\nvar v% = T%{f%: 1}\n", n)


# types


@shape
def types_chained(n):
    return "".join(f"type T{i} T{i + 1}\n" for i in range(n)) + f"type T{n} int\n"


@shape
def types_chained_backwards(n):
    return "type T0 int\n" + "".join(f"type T{i + 1} T{i}\n" for i in range(n))


@shape
def types_ring(n):
    return "".join(f"type T{i} struct {{ a T{(i + 1) % max(n, 1)} }}\n" for i in range(n))


@shape
def types_compared(n):
    """Two big struct types written out, compared again and again."""
    fields = "; ".join(f"f{i} int" for i in range(max(n // 40, 1)))
    return f"type S struct {{ {fields} }}\ntype T struct {{ {fields} }}\nfunc f(s S, t T) {{\n" + "\ts = S(t)\n" * n + "}\n"


@shape
def types_chained_selected(n):
    return "".join(f"type T{i} T{i + 1}\n" for i in range(n)) + f"type T{n} struct {{ f int }}\n" + lines("func f%(t T%) int { return t.f }\n", n)


@shape
def derived_compared(n):
    return struct("S", n) + lines("type T% S\nfunc f%(t T%) bool { return t == t }\n", n)


@shape
def pointers_converted(n):
    return struct("S", n) + struct("T", n) + "func f(s *S, t *T) {\n" + "\ts = (*S)(t)\n" * n + "}\n"


@shape
def variables_converted(n):
    return struct("S", n) + struct("T", n) + "var t T\n" + lines("var v% = S(t)\n", n)


@shape
def signatures_wide(n):
    return "func g(" + ", ".join(f"a{i} int" for i in range(n)) + ") {}\nfunc f() { g(" + ", ".join(["1"] * n) + ") }\n"


@shape
def results_passed(n):
    return "func g() (int, int) { return 1, 2 }\nfunc h(a, b int) {}\nfunc f() {\n" + "\th(g())\n" * n + "}\n"


# names and statements


@shape
def names_same(n):
    """One name everywhere: each declaration of it but the first is a second one."""
    return "const a = 1\n" * n


@shape
def names_shadowed(n):
    return body("\t{ a := 1; { a := a; _ = a } }\n", n)


@shape
def names_missing(n):
    return body("\t_ = nope%\n", n)


@shape
def imports_missing(n):
    """Each line is a fault: the place of each is told by line and column."""
    return 'import "ex.com/none"\n' + lines("var v% = none.A%\n", n)


@shape
def declared_short(n):
    return "func f() {\n\t" + ", ".join(f"a{i}" for i in range(n)) + " := " + ", ".join(["1"] * n) + "\n}\n"


@shape
def assigned_wide(n):
    names = ", ".join(f"a{i}" for i in range(n))
    return "func f(" + names + " int) {\n\t" + names + " = " + names + "\n}\n"


@shape
def variables_without_type(n):
    return "var v0 = 1\n" + "".join(f"var v{i + 1} = v{i}\n" for i in range(n))


@shape
def calls_nested(n):
    """As deep as a tree may be, many times."""
    return "func g(a int) int { return a }\n" + body("\t_ = " + "g(" * 90 + "1" + ")" * 90 + "\n", n)


@shape
def else_chains(n):
    one = "\tif a == 0 {\n\t}" + " else if a == 1 {\n\t}" * 60 + "\n"
    return "func f(a int) {\n" + one * n + "}\n"


@shape
def comments_many(n):
    return lines("// c%\nconst d% = 1 /* e */\n", n)


@shape
def semicolons(n):
    return "func f() {\n" + "\t;\n" * n + "}\n"


@shape
def unknown_receiver(n):
    return lines("func (t nope) m%() {}\n", n)


@shape
def methods_repeated(n):
    return "type T struct{}\n" + "func (t T) m() {}\n" * n


@shape
def escapes(n):
    return 'const s = "' + "\\u00e9" * n + '"\n'


# what is beyond the bounds: types that are written out, or told apart by no name of theirs, and lists of results


@beyond
def embedded_chain_each(n):
    """A chain of types that each embed the next, and a selection from each of them."""
    types = "".join(f"type T{i} struct {{ *T{i + 1} }}\n" for i in range(n)) + f"type T{n} struct {{ f int }}\n"
    return types + lines("func f%(t T%) int { return t.f }\n", n)


@beyond
def derived_converted(n):
    """Conversions between two big struct types, each time of other names."""
    return struct("S", n) + struct("R", n) + lines("type T% S\ntype U% R\nfunc f%(t T%) U% { return U%(t) }\n", n)


@beyond
def derived_hidden(n):
    """Many types that are defined by one big struct type, each with a method that stands before a field of its identifier."""
    return lines("type T% S\nfunc (T%) f%() {}\n", n) + struct("S", n)


@beyond
def literals_assigned(n):
    """Two variables of one big struct type that is written out, assigned again and again."""
    return f"var x struct {{ {fields(n)} }}\nvar y struct {{ {fields(n)} }}\nfunc f() {{\n" + "\tx = y\n" * n + "}\n"


@beyond
def interfaces_written(n):
    wanted = fields(n, "m%()")
    return methods("T", n) + f"func f(t T) {{\n\tvar i interface {{ {wanted} }}\n" + "\ti = t\n" * n + "\t_ = i\n}\n"


@beyond
def interfaces_through(n):
    """Many types that each embed one type with many methods, assigned to an interface type of all of these."""
    return methods("B", n) + interface("I", n) + lines("type T% struct { B }\nfunc f%(t T%) I { return t }\n", n)


@beyond
def interfaces_wide(n):
    """A type that embeds many, each with a method, assigned once to an interface type of all of these."""
    types = lines("type X% struct{}\nfunc (X%) m%() {}\n", n) + "type U struct {\n" + lines("\tX%\n", n) + "}\n"
    return types + interface("I", n) + "func f(u U) I { return u }\n"


@beyond
def results_wide(n):
    """A call with many results, passed on again and again."""
    results = ", ".join(["int"] * n)
    params = ", ".join(f"a{i}" for i in range(n))
    return f"func g() ({results}) {{ return g() }}\nfunc h({params} int) {{}}\nfunc f() {{\n" + "\th(g())\n" * n + "}\n"


def made(make, size):
    """The text of the shape of at most so many bytes."""
    least, most = 1, 1
    head = "package a\n"
    while len(head) + len(make(most)) <= size and most < 1_000_000:
        least, most = most, most * 2
    while least + 1 < most:
        middle = (least + most) // 2
        if len(head) + len(make(middle)) <= size:
            least = middle
        else:
            most = middle
    return head + make(least)


def run(words, path):
    """Seconds, megabytes and status; seconds are none where it does not end in time."""
    with open(path, "rb") as text:
        began = time.perf_counter()
        child = subprocess.Popen(words, stdin=text, stdout=subprocess.DEVNULL, stderr=subprocess.DEVNULL)
        killer = threading.Timer(PATIENCE, child.kill)
        killer.start()
        _, ended, usage = os.wait4(child.pid, 0)
        seconds = time.perf_counter() - began
        in_time = killer.is_alive()
        killer.cancel()
    child.returncode = 0
    status = os.waitstatus_to_exitcode(ended)
    return (seconds if in_time else None), usage.ru_maxrss * 1024 / 1_000_000, status


def best(words, path, runs=3):
    found = []
    for _ in range(runs):
        found.append(run(words, path))
        if found[-1][0] is None or found[-1][0] > 1.5:
            break
    return min(found, key=lambda it: (it[0] is None, it[0]))


def shown(value, form):
    return "-" if value is None else format(value, form)


def measure(name, make, args, folder):
    half, whole = f"{folder}/{name}.half.go", f"{folder}/{name}.go"
    for path, size in ((half, MOST_BYTES // 2), (whole, MOST_BYTES)):
        with open(path, "w", encoding="utf-8") as file:
            file.write(made(make, size))
    words = [args.govisd, "resolve"]
    (s1, _, _), (s2, mb, status) = best(words, half), best(words, whole)
    go = best([args.gofront], whole)[0] if args.gofront else None
    growth = s2 / s1 if s1 and s2 and s1 >= LEAST_SECONDS else None
    failed = []
    if s2 is None or s2 > MOST_SECONDS:
        failed.append("time")
    if mb > MOST_MEGABYTES:
        failed.append("memory")
    if growth and growth > MOST_GROWTH:
        failed.append("growth")
    if status not in (0, 1):
        failed.append(f"status {status}")
    row = [name, shown(s1, ".3f"), shown(s2, ".3f"), shown(growth, ".2f"), shown(mb, ".0f"), shown(go, ".3f"), ", ".join(failed)]
    print("| " + " | ".join(row) + " |", flush=True)
    return not failed


def main():
    said = argparse.ArgumentParser(description=__doc__, formatter_class=argparse.RawDescriptionHelpFormatter)
    said.add_argument("--govisd", default="crates/govisd/out/govisd")
    said.add_argument("--gofront")
    said.add_argument("--only")
    said.add_argument("--write")
    said.add_argument("--beyond", action="store_true")
    args = said.parse_args()
    shapes = BEYOND if args.beyond else SHAPES
    names = args.only.split(",") if args.only else list(shapes)
    if args.write:
        os.makedirs(args.write, exist_ok=True)
        for name in names:
            with open(f"{args.write}/{name}.go", "w", encoding="utf-8") as file:
                file.write(made(shapes[name], MOST_BYTES))
        return 0
    print("| shape | half s | whole s | growth | MB | Go s | |\n|---|---|---|---|---|---|---|")
    with tempfile.TemporaryDirectory(prefix="shapes-") as folder:
        passed = [measure(it, shapes[it], args, folder) for it in names]
    print(f"{sum(passed)} of {len(passed)} shapes within the bounds")
    return 0 if all(passed) or args.beyond else 1


if __name__ == "__main__":
    sys.exit(main())
