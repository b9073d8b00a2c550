#!/usr/bin/env python3
"""Compares the faults of types by `test_cases ask` with the errors of go/types, over generated workspaces of type declarations with methods."""
import argparse
import os
import re
import subprocess
import sys

HERE = os.path.dirname(os.path.abspath(__file__))
sys.path.insert(0, f"{HERE}/../shared")
from generate import Numbers
from type_faults_programs import Workspace

BATCH = 100  # archives in one run of each program
RULES = ("Y1", "Y2", "B5", "B6")

# What go/types says, and the rule that it is. An error that is none of these is of names: of these the number is compared.
MESSAGES = (
    (re.compile(r"illegal cycle in declaration of|invalid recursive type"), "Y1"),
    (re.compile(r"embedded field type cannot be a pointer"), "Y2"),
    (re.compile(r"cannot define new methods on non-local type|invalid receiver type"), "B6"),
    (re.compile(r"field and method with the same name"), "pair"),
    (re.compile(r"\S+ redeclared$|duplicate method|method \S+ already declared for type|methods must have a unique non-blank name"), "B5"),
)
# Those behind which it says where the other declaration is.
OTHER = re.compile(r"redeclared|duplicate method|already declared|field and method")
NAMES = re.compile(r"undeclared name|not exported by package|\S+ is not a type|imported and not used")
# What that of Go 1.19 says of an alias before whose target it comes to a type that leads to it (https://go.dev/issue/50729).
EARLY = re.compile(r"invalid use of type alias \S+ in recursive type")


def run(command):
    done = subprocess.run(command, capture_output=True, text=True)
    return done.returncode, done.stdout.splitlines(), done.stderr


def archive_files(text):
    """The files of an archive, by their paths."""
    parts = re.split(r"^-- (\S+) --\n", text, flags=re.M)
    return dict(zip(parts[1::2], parts[2::2]))


class Texts:
    """The places of an archive, as bytes: its texts are ASCII."""

    def __init__(self, text):
        self.files = archive_files(text)

    def last_name(self, file, offset):
        """The last identifier of the type's name that begins at a place."""
        name = re.match(r"\**(?:\w+\.)?(?=\w)", self.files[file][offset:])
        return offset + name.end()

    def base_name(self, file, offset):
        """The base's name of the receiver that has a place in it."""
        text = self.files[file]
        start = text.rindex("(", 0, offset + 1) + 1
        receiver = re.match(r"(?:\w+ +)?\**", text[start : text.index(")", start)])
        words = receiver.group()
        # a lone name is the base itself
        return start + len(words)


def place_of(word):
    file, offset = word.rsplit(":", 1)
    return file, int(offset)


def is_embedded(texts, file, offset):
    """Whether a field begins with a type's name at a place: go/types gives the first byte of an embedded field."""
    rest = texts.files[file][offset:]
    return re.match(r"\**(?:\w+\.)?\w+\s*(?:[;}\n]|[\"`])", rest) is not None


def field_place(texts, file, offset):
    return (file, texts.last_name(file, offset)) if is_embedded(texts, file, offset) else (file, offset)


class Told:
    """What go/types says of an archive: faults, and how many errors are of names."""

    def __init__(self, texts):
        self.texts, self.faults, self.of_names, self.unknown, self.early = texts, set(), 0, [], 0
        self.silent = set()  # package and name of what is said to be declared elsewhere, with no word of the error itself

    def add(self, lines):
        group = []
        for line in lines + ["end:0 0 end"]:
            place, more, message = line.split(" ", 2)
            if more == "0":
                if group:
                    self.add_error(group)
                group = []
            elif message.startswith("other declaration of") and (len(group) != 1 or not OTHER.search(group[0][1])):
                self.silent.add((os.path.dirname(place), message.split()[-1]))
                continue
            group.append((place_of(place), message))

    def add_error(self, group):
        (file, offset), message = group[0]
        rule = next((rule for form, rule in MESSAGES if form.search(message)), None)
        if rule is None:
            if NAMES.search(message):
                self.of_names += 1
            elif EARLY.search(message):
                self.early += 1
            else:
                self.unknown.append(message)
        elif rule == "Y1":
            cycle = {place for place, text in group[1:] if text.endswith("refers to")}
            self.faults |= {(place, rule) for place in cycle}
        elif rule == "Y2":
            self.faults.add(((file, self.texts.last_name(file, offset)), rule))
        elif rule == "B6":
            self.faults.add(((file, self.texts.base_name(file, offset)), rule))
        elif rule == "B5":
            self.faults.add((field_place(self.texts, file, offset), rule))
        else:
            method, field = (file, offset), field_place(self.texts, *group[1][0])
            # the later of the two by file and offset; a field of another package is the earlier one
            later = method if os.path.dirname(field[0]) != os.path.dirname(file) else max(method, field)
            self.faults.add((later, "B5"))


def own_answers(lines, count):
    """The faults, of all rules, that govisd answers to each archive of so many, of which each asks for its packages in turn."""
    answers, place = [], 0
    for packages in count:
        faults = set()
        for package in packages:
            if place >= len(lines) or lines[place] != package + ":":
                sys.exit(f"type_faults.py: no answer to {package}: {lines[place : place + 1]}")
            place += 1
            while place < len(lines) and not lines[place].endswith(":"):
                at, rule = lines[place].split(" ")
                if (place_of(at), rule) in faults:
                    faults.add((place_of(at), rule + " twice"))
                faults.add((place_of(at), rule))
                place += 1
        answers.append(faults)
    return answers


TOKEN = re.compile(r'"[^"]*"|`[^`]*`|\w+|\n|[^\s\w]')


class Uses:
    """Reads one type from a text, and notes which names of types stand in it outside pointers and interface types. A second opinion, apart from the
    program that is tested and from go/types."""

    def __init__(self, path, text):
        self.path, self.found = path, set()
        self.tokens, self.at = [";" if word == "\n" else word for word in TOKEN.findall(text)] + [";"], 0
        self.type(True)

    def next(self):
        self.at += 1
        return self.tokens[self.at - 1]

    def type(self, counts):
        word = self.next()
        if word == "*":
            self.type(False)
        elif word == "(":
            self.type(counts)
            self.next()
        elif word == "struct":
            self.next()
            self.fields(counts)
        elif word == "interface":
            self.next()
            depth = 1
            while depth:
                depth += {"{": 1, "}": -1}.get(self.next(), 0)
        else:
            name = (self.path, word)
            if self.tokens[self.at] == ".":
                name = (f"ex.com/{word}", self.tokens[self.at + 1])
                self.at += 2
            if counts:
                self.found.add(name)

    def fields(self, counts):
        while self.tokens[self.at] != "}":
            if self.tokens[self.at] == ";":
                self.at += 1
                continue
            behind = self.tokens[self.at + 1]
            if self.tokens[self.at] != "*" and behind not in (".", ";", "}") and behind[0] not in "\"`":
                while self.tokens[self.at + 1] == ",":
                    self.at += 2
                self.at += 1
            self.type(counts)
            if self.tokens[self.at][0] in "\"`":
                self.at += 1
        self.at += 1


def direct_uses(text):
    """Of each declared type of an archive, by path and name: its place, and the types that it uses directly."""
    uses = {}
    for file, source in archive_files(text).items():
        path = os.path.dirname(file)
        for found in re.finditer(r"^type (\w+) (?:= )?", source, flags=re.M):
            uses[(path, found.group(1))] = (file, found.start(1)), Uses(path, source[found.end() :]).found
    return uses


def looped(text):
    """The places of the types of an archive that reach themselves, by that second opinion."""
    uses = direct_uses(text)
    places = set()
    for kind, (place, _) in uses.items():
        seen, left = set(), [kind]
        while left:
            for other in uses[left.pop()][1]:
                if other in uses and other not in seen:
                    seen.add(other)
                    left.append(other)
        if kind in seen:
            places.add(place)
    return places


def declarations(text):
    """The text by which each type of an archive is defined, of an alias its target, by path and name."""
    found = {}
    for file, source in archive_files(text).items():
        for one in re.finditer(r"^type (\w+) (?:= )?(.*)", source, flags=re.M):
            found[(os.path.dirname(file), one.group(1))] = one.group(2).strip()
    return found


def is_alias(text, kind):
    """Whether a name of a type is declared as an alias."""
    name = re.compile(rf"^type {kind[1]} = ", flags=re.M)
    return any(os.path.dirname(file) == kind[0] and name.search(source) for file, source in archive_files(text).items())


def meant(text, kind):
    """The type that a name means, the targets of aliases followed."""
    known, seen = declarations(text), set()
    while is_alias(text, kind) and kind not in seen:
        seen.add(kind)
        name = re.match(r"(?:(\w)\.)?(\w+)", known[kind])
        kind = (f"ex.com/{name.group(1)}" if name.group(1) else kind[0], name.group(2))
    return kind


def is_none(text, kind, loops):
    """Whether a name of a type is none: it reaches itself, is refused, or is defined by what is none or by a pointer to it."""
    known, places, seen = declarations(text), {kind: place for kind, (place, _) in direct_uses(text).items()}, set()
    while kind not in seen:
        seen.add(kind)
        if kind not in known:
            return kind[1] not in ("int", "string", "bool", "any", "error", "struct", "interface")
        if places[kind] in loops:
            return True
        name = re.match(r"[*(]*(?:(\w)\.)?(\w+)", known[kind])
        kind = (f"ex.com/{name.group(1)}" if name.group(1) else kind[0], name.group(2))
    return False


def name_at(text, place):
    return re.match(r"\w+", archive_files(text)[place[0]][place[1] :]).group()


def named_at(text, place):
    """The type that is named at a place, by path and name."""
    file, offset = place
    source = archive_files(text)[file]
    name = re.match(r"(?:(\w)\.)?(\w+)", source[offset:])
    qualifier = name.group(1) or (source[offset - 2] if source[offset - 1] == "." else None)
    return (f"ex.com/{qualifier}" if qualifier else os.path.dirname(file), name.group(2))


def compare(text, own, told, counts, show):
    """Notes what differs, by the forms in which it may, and what differs else."""
    loops = looped(text)
    for fault in sorted(own & told.faults):
        counts["same"][fault[1]] += 1
    for place, rule in sorted(own - told.faults):
        form = None
        if rule == "Y1" and place in loops:
            form = "Y1 at a type that reaches itself, on a cycle of which go/types names another"
        if rule == "B5" and (os.path.dirname(place[0]), name_at(text, place)) in told.silent:
            form = "B5 of a repeated method, where the type's text names what is not declared: go/types says where the other is, and no more"
        elif rule == "B5" and in_looped(text, loops, place):
            form = "B5 of a field and a method of a type that reaches itself: go/types looks at no fields of it"
        if rule == "B6" and is_alias(text, named_at(text, place)) and is_none(text, named_at(text, place), loops):
            form = "B6 at an alias that means no type: go/types says no more than why it is none"
        note(counts, form, f"govisd alone: {place[0]}:{place[1]} {rule}", show)
    for place, rule in sorted(told.faults - own):
        form = None
        if rule in ("Y2", "B6") and is_none(text, named_at(text, place), loops):
            form = f"{rule} at a pointer type that is none, since what it points to is none: go/types alone"
        note(counts, form, f"go/types alone: {place[0]}:{place[1]} {rule}", show)
    missing = loops ^ {place for place, rule in own if rule == "Y1"}
    for place in sorted(missing):
        note(counts, None, f"reaches itself by one opinion: {place[0]}:{place[1]}", show)
    for _ in range(told.early):
        note(counts, "an alias that go/types of Go 1.19 refuses since it comes to it too early (https://go.dev/issue/50729)", "", show)
    for message in told.unknown:
        note(counts, None, f"no rule for: {message}", show)
    counts["of names"] += told.of_names


def in_looped(text, loops, place):
    """Whether a place is a field of a type that reaches itself, or a method of one."""
    file, offset = place
    source = archive_files(text)[file]
    start = max(source.rfind("\ntype ", 0, offset), source.rfind("\nfunc ", 0, offset))
    found = re.match(r"\ntype (\w+)|\nfunc \((?:\w+ +)?\**(\w+)\)", source[start:])
    if not found:
        return False
    if found.group(1):
        return (file, start + 6) in loops
    uses = direct_uses(text)
    kind = uses.get(meant(text, (os.path.dirname(file), found.group(2))))
    return kind is not None and kind[0] in loops


def note(counts, form, line, show):
    if form:
        counts["forms"][form] = counts["forms"].get(form, 0) + 1
        return
    counts["differ"] += 1
    if counts["differ"] <= 20:
        print(f"{show}: {line}")


def generate(options):
    numbers, files = Numbers(20261124), []
    for place in range(options.workspaces):
        packages = ["ex.com/" + "pqr"[i] for i in range(1 + numbers.below(3))]
        made = Workspace(numbers, packages)
        made.make()
        # a fifth is correct, three fifths have one error put in, the others two to four
        wanted = (0, 1, 1, 1, 2 + numbers.below(3))[place % 5]
        put = []
        for _ in range(40):
            if len(put) < wanted:
                put += [form for form in [made.spoil()] if form]
        name = os.path.join(options.folder, f"{place:04}.txt")
        text = made.archive()
        with open(name, "w") as file:
            file.write(text)
        files.append((name, packages, text, put))
    return files


def main():
    parser = argparse.ArgumentParser()
    parser.add_argument("--program", required=True)
    parser.add_argument("--peer", required=True)
    parser.add_argument("--folder", required=True)
    parser.add_argument("--workspaces", type=int, default=2500)
    options = parser.parse_args()
    os.makedirs(options.folder, exist_ok=True)
    files = generate(options)
    counts = {"same": dict.fromkeys(RULES, 0), "forms": {}, "differ": 0, "of names": 0, "clean": 0, "put": {}}
    for start in range(0, len(files), BATCH):
        some = files[start : start + BATCH]
        names = [name for name, _, _, _ in some]
        status, lines, errors = run([options.program, "ask", *names])
        if status:
            sys.exit(f"type_faults.py: {options.program} ended with {status}: {errors[:500]}")
        own = own_answers(lines, [packages for _, packages, _, _ in some])
        status, lines, errors = run([options.peer, *names])
        if status:
            sys.exit(f"type_faults.py: {options.peer} ended with {status}: {errors[:500]}")
        errors_of, place = {}, None
        for line in lines:
            if line.startswith("== "):
                place = errors_of.setdefault(line[3:], [])
            else:
                place.append(line)
        for (name, _, text, put), faults in zip(some, own):
            told = Told(Texts(text))
            told.add(errors_of[name])
            of_types = {(place, rule) for place, rule in faults if rule.split()[0] in RULES}
            compare(text, of_types, told, counts, os.path.basename(name))
            if len(faults - of_types) != told.of_names:
                note(counts, None, f"faults of names: {sorted(faults - of_types)[:3]}, go/types says {told.of_names}", os.path.basename(name))
            counts["clean"] += not of_types and not told.faults
            for form in put:
                counts["put"][form] = counts["put"].get(form, 0) + 1
            if not put and (faults or told.faults or told.of_names):
                note(counts, None, f"a correct workspace has faults: {sorted(faults)[:3]} {errors_of[name][:3]}", os.path.basename(name))
    same = counts["same"]
    print(f"{len(files):,} workspaces, {counts['clean']:,} without a fault: {sum(same.values()):,} faults are the same, " + ", ".join(f"{rule} {same[rule]:,}" for rule in RULES))
    print("errors put in: " + ", ".join(f"{form} {count:,}" for form, count in sorted(counts["put"].items())))
    print(f"go/types' errors of names, of which each archive has as many faults of other rules: {counts['of names']:,}")
    for form, count in sorted(counts["forms"].items()):
        print(f"on purpose: {form}: {count:,}")
    print(f"{counts['differ']:,} differ otherwise")
    sys.exit(1 if counts["differ"] else 0)


main()
