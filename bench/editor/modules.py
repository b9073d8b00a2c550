"""Modules to be edited in tests."""
import os


def package(number, count):
    """A package with a type, a constructor and methods; each but the first imports the one before it."""
    own = f"p{number}"
    lines = [f"package {own}", ""]
    if number:
        lines += [f'import "ex.com/m/p{number - 1}"', ""]
    lines += [
        f"// Box{number} is a box.",
        f"type Box{number} struct {{",
        "\tWidth, Height int",
        "}",
        "",
        f"// Make makes a box of package {own}.",
        f"func Make(w, h int) *Box{number} {{",
        f"\treturn &Box{number}{{Width: w, Height: h}}",
        "}",
        "",
        f"// Area is its area.",
        f"func (b *Box{number}) Area() int {{",
        "\treturn b.Width * b.Height",
        "}",
        "",
        "type Shape interface {",
        "\tArea() int",
        "}",
        "",
        f"func F{number}(x int) int {{",
        "\ts := 0; s = s + x",
    ]
    if number:
        lines += [f"\ts = s + p{number - 1}.F{number - 1}(x)"]
    lines += ["\treturn s", "}", ""]
    return "\n".join(lines)


def main_text(count):
    last = min(9, count - 1)
    return f'''package main

import (
	"ex.com/m/p0"
	"ex.com/m/p{last}"
)

func size(s p{last}.Shape) int {{
	return s.Area()
}}

func main() {{
	q := p0.Make(1, 2)
	println("é😀", q.Width)
	r := p{last}.Make(3, 4)
	println(r.Area(), r.Width)
	println(size(r))
}}
'''


def write_module(root, count):
    """A module of so many packages and `main`."""
    os.makedirs(root, exist_ok=True)
    with open(f"{root}/go.mod", "w", encoding="utf-8") as file:
        file.write("module ex.com/m\n\ngo 1.22\n")
    for number in range(count):
        os.makedirs(f"{root}/p{number}", exist_ok=True)
        with open(f"{root}/p{number}/p{number}.go", "w", encoding="utf-8") as file:
            file.write(package(number, count))
    with open(f"{root}/main.go", "w", encoding="utf-8") as file:
        file.write(main_text(count))
