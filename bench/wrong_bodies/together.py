"""Tries many wrong bodies of a crate in one check of the prover. Each stands in a copy of its function, beside it and under a name of
its own, with the same clauses and the same written answers. The other functions have a hole in place of their proofs, so that the
copies are judged by the clauses of what they call, and nothing else is proved. Their bodies are left out, as far as they stand on lines
of their own, so that the prover need not look at what they call in turn. Where a function can't be copied it is edited itself."""
import os
import re
import shutil

REFUSED, PASSED, LIMITED, NAMELESS, UNREADABLE = "refused", "let-through", "at-limit", "name-alone", "unreadable"
FUNCTION = re.compile(r"^( *)(?:pub(?:\([^)]*\))? )?(?:const |unsafe )*fn (\w+)", re.M)
BLOCK = re.compile(r"^(?:pub )?(impl|trait)\b(?:<[^>]*>)? ?(?:(?:\w+::)*(\w+)(?:<[^{]*>)? for )?(?:\w+::)*(\w+)", re.M)
CYCLE = re.compile(r"#\[cycle\((\w+)\)")
ATTRIBUTES = re.compile(r"(?:^ *#\[[^\n]*\n)*\Z", re.M)
WORD = re.compile(r"(\.|\b[A-Z]\w*::)?\b([a-z_]\w*)\b")
NOTE = re.compile(r"(?:note: )?(?:\./)?((?:src|specs|proofs)/\S+?):(\d+):\d+: (.*)")
TOLD = re.compile(r"fn (\w+)::(\S+): (.*)")
NOT_TOLD = re.compile(r"it calls (.*?), which (?:is|are) not proved")
PROVED = re.compile(r"proved$|no holes$|depends on a hole in")
NOT_PROVED = re.compile(r"^error|is not proved|not allowed")
AT_LIMIT = re.compile(r"gave up at one of its limits|ran out of|outgrew the memory limit|stopped at the step limit")
GOALS = re.compile(r"^(use \S+\.Goals)\.\{([^}]*)\}\n", re.M)
NO_SUCH_NAME = re.compile(r"has no field|is not in scope|has no `|was not admitted|is no name|can be named from here|\(nearest: ")
UNFINISHED = re.compile(r"(?:record|module) `[^`]*`$")
ANSWERS = ("Answers.antt", "Invariants.antt")
HOLE = """use Rattle.{crate}.proofs.{module}.{{statement}}

pub {name}_spec : {{M : Type 1}} → statement M
{name}_spec = ?
"""


def read(file):
    with open(file, encoding="utf-8") as it:
        return it.read()


def write(file, text):
    with open(file, "w", encoding="utf-8") as it:
        it.write(text)


class Block:
    """An impl block or a trait."""

    def __init__(self, text, found):
        end = text.find("\n}", found.end())
        self.begin, self.end = found.start(), len(text) if end < 0 else end
        self.header = text[self.begin : text.find("\n", self.begin)]
        self.owner = found[3] + (found[2] or "")
        self.is_trait = found[1] == "trait" or bool(found[2])


def end_of(text, begin, margin):
    """Where a function ends whose first line begins there, behind that margin."""
    line = text.find("\n", begin)
    if text[begin:line].endswith(("}", ";")):
        return line
    if not text[begin:line].endswith("{"):
        body = re.compile(rf"^{margin}(?:\).* )?\{{\}}?$|;$", re.M).search(text, line)
        if not body or not body[0].endswith("{"):
            return body.end() if body else len(text)
        line = body.end()
    closed = re.compile(rf"^{margin}\}}", re.M).search(text, line)
    return closed.end() if closed else len(text)


class Function:
    """A function of a crate's sources, laid out as rt fmt does it."""

    def __init__(self, file, text, found, block):
        self.file, self.name, self.begin, self.block = file, found[2], found.start(), block
        self.end = end_of(text, self.begin, found[1])
        self.text, self.rest = text[self.begin : self.end], text[found.end() : self.end]
        self.attributes = ATTRIBUTES.search(text[: self.begin])[0]
        first = text.count("\n", 0, self.begin) - self.attributes.count("\n")
        self.rows = range(first + 1, text.count("\n", 0, self.end) + 2)
        parts = file[len("src/") : -len(".rt")].split("/")
        self.module = [part for part in parts if part not in ("lib", "main", "mod")]
        self.inside = [*([block.owner] if block else []), self.name]
        self.path = "::".join([*self.module, *self.inside])
        cycle = CYCLE.search(self.attributes)
        self.cycle = cycle[1] if cycle else self.name if self.calls_itself() else ""
        self.unit = (file, self.cycle) if self.cycle else self.path
        self.words = set(WORD.findall(self.rest))
        is_inner = len(found[1]) != (4 if block else 0)
        self.is_free = not is_inner and not (block and block.is_trait)

    def calls_itself(self):
        before = rf"(?:self\.|Self::|\b{self.block.owner}::)" if self.block else r"(?<![.\w:])"
        return bool(re.search(rf"{before}{self.name}(?:::<[^;{{]*>)?\(", self.rest))

    def may_call(self, other):
        """Whether it may call the other, by the words of its text."""
        if not other.block:
            return ("", other.name) in self.words
        return any((before, other.name) in self.words for before in (".", f"{other.block.owner}::", "Self::"))

    def proof(self):
        """The path of its proof, which the functions of a cycle of calls have together."""
        return [*self.module, f"+{self.cycle}"] if self.cycle else [*self.module, *self.inside]

    def without_body(self):
        """Its text with a body that calls nothing, or the same text where its body does not stand on lines of its own."""
        margin = self.text[: len(self.text) - len(self.text.lstrip())]
        head = re.compile(r".*\{$" if self.text.split("\n")[0].endswith("{") else rf"^{margin}(?:\).* )?\{{$", re.M)
        found = head.search(self.text)
        has_body = found and self.text.endswith(f"\n{margin}}}") and "const fn" not in self.text[: found.end()]
        return f"{self.text[: found.end()]}\n{margin}    unreachable!()\n{margin}}}" if has_body else self.text

    def closures(self):
        """How the paths of its closures begin."""
        return "::".join([*self.module, "fn", *self.inside, ""])


def functions_in(folder, file):
    text = read(os.path.join(folder, file))
    blocks, found = [Block(text, it) for it in BLOCK.finditer(text)], []
    for it in FUNCTION.finditer(text):
        around = [block for block in blocks if it[1] and block.begin < it.start() < block.end]
        found.append(Function(file, text, it, around[0] if around else None))
    return found


def functions_of(folder):
    found = []
    for at, _, names in os.walk(os.path.join(folder, "src")):
        for name in sorted(names):
            if name.endswith(".rt"):
                found += functions_in(folder, os.path.relpath(os.path.join(at, name), folder))
    return found


def reached(functions):
    """For each unit of proof (a function, or a cycle of calls) the units that it may call, at once or by way of others."""
    members = {}
    for one in functions:
        members.setdefault(one.unit, []).append(one)
    calls = {unit: {o.unit for o in functions for m in ours if m.may_call(o)} for unit, ours in members.items()}
    found = {}
    for unit in members:
        seen, open_units = set(), [unit]
        while open_units:
            for other in calls[open_units.pop()] - seen:
                seen.add(other)
                open_units.append(other)
        found[unit] = seen
    return found


def pairs_of(file):
    """The pairs of an edit: the file, the text that stands there and the text in its place."""
    found, path, old = [], "", ""
    for line in read(file).split("\n"):
        if line.startswith("file: "):
            path = line[len("file: ") :].strip()
        elif line.startswith("old: "):
            old = line[len("old: ") :]
        elif line.startswith("new:"):
            found.append((path, old, line[len("new:") :].removeprefix(" ")))
    return found


class Edit:
    """An edit of a crate. It has no functions where it changes more than functions, or where it does not apply."""

    def __init__(self, name, file, folder, functions):
        self.name, self.pairs, self.functions = name, pairs_of(file), []
        for path, old, _ in self.pairs:
            text = read(os.path.join(folder, path))
            own = [f for f in functions if f.file == path and f.begin <= text.find(old) < f.end]
            if text.count(old) != 1 or not own:
                self.functions = []
                return
            self.functions += [f for f in own if f not in self.functions]

    def units(self):
        return {function.unit for function in self.functions}

    def can_stand_in_copy(self, folder):
        if len(self.functions) != 1 or not self.functions[0].is_free:
            return False
        function = self.functions[0]
        has_walk = os.path.exists(os.path.join(folder, "proofs", *function.proof(), "Proof.antt"))
        return not has_walk and all(function.text.count(old) == 1 for _, old, _ in self.pairs)

    def apply(self, folder):
        for path, old, new in self.pairs:
            file = os.path.join(folder, path)
            write(file, read(file).replace(old, new, 1))


class Copy:
    """A copy of a function under a name of its own, with the wrong body of an edit, or with the right one."""

    def __init__(self, function, name, pairs):
        self.function, self.name = function, name
        text = function.text
        for _, old, new in pairs:
            text = text.replace(old, new, 1)
        attributes = re.sub(r" *#\[cycle[^\n]*\n", "", function.attributes)
        self.text = attributes + re.sub(rf"\bfn {function.name}\b", f"fn {name}", text, count=1)
        self.path = "::".join([*function.module, *function.inside[:-1], name])

    def stand(self, folder, functions):
        """Writes the copy to the end of its function's block or file, and its written answers beside those of its function."""
        file = os.path.join(folder, self.function.file)
        said = read(file)
        end = len(said)
        if self.function.block:
            end = next(f.block.end for f in functions_in(folder, self.function.file) if f.path == self.function.path)
        write(file, f"{said[:end].rstrip()}\n\n{self.text}{said[end:] or chr(10)}")
        new, place = self.path.split("::"), len(self.function.module)
        self.answer(folder, self.function.proof(), new, functions)
        self.answer(folder, self.function.closures().split("::")[:-1], [*new[:place], "fn", *new[place:]], functions)

    def answer(self, folder, old, new, functions):
        own, copy = (os.path.join(folder, "proofs", *path) for path in (old, new))
        if not os.path.isdir(own):
            return
        shutil.copytree(own, copy)
        for at, _, names in os.walk(copy):
            for file in (os.path.join(at, name) for name in names):
                said = read(file)
                said = alone(said, self.function, functions) if self.function.cycle else said
                write(file, re.sub(rf"proofs\.{re.escape('.'.join(old))}(?=\.)", f"proofs.{'.'.join(new)}", said))


def owner_of(goal, members):
    """The function whose goal it is, of those of a cycle of calls."""
    return max((name for name in members if goal.startswith(f"{name}-")), key=len, default="")


def goals_alone(line, function, members):
    """An import of goals, with those of the function alone, each under the name that it has without its function's."""
    own = [goal for goal in line[2].split(", ") if owner_of(goal, members) == function.name]
    short = [f"{goal[len(function.name) + 1 :]} as {goal}" for goal in own]
    return f"{line[1]}.{{{', '.join(short)}}}\n" if own else ""


def alone(said, function, functions):
    """The answers of one function of a cycle of calls, as they stand where it calls the cycle from outside: goals lose their
    function's name and their measure."""
    members = [f.name for f in functions if f.unit == function.unit]
    kept = []
    said = GOALS.sub(lambda it: goals_alone(it, function, members), said) if len(members) > 1 else said
    for block in said.rstrip("\n").split("\n\n"):
        named = re.search(r"^(?:abbrev )?pub ((invariant-|measure-)?(\S+)) :", block, re.M)
        if named and (named[2] != "measure-" or "-loop-" in named[1]) and len(members) > 1:
            if owner_of(named[3], members) != function.name:
                continue
            block = block.replace(named[1], (named[2] or "") + named[3][len(function.name) + 1 :])
        elif named and named[2] == "measure-":
            continue
        kept.append(re.sub(r"^(\S+(?: g)?) t c =", r"\1 c =", block, flags=re.M))
    return "\n\n".join(kept) + "\n"


def copies_of(edits):
    """Copies with the wrong bodies of edits, by the names of the edits, and for each function one with its own body, by its path."""
    wrong, right = {}, {}
    for number, edit in enumerate(edits, 1):
        function = edit.functions[0]
        wrong[edit.name] = Copy(function, f"wrong{number}_{function.name}", edit.pairs)
        right.setdefault(function.path, Copy(function, f"right{number}_{function.name}", []))
    return wrong, right


def batches(edits, functions):
    """Parts the edits so that in each batch no edited function may call another, nor is edited twice."""
    calls, found = reached(functions), []
    for edit in edits:
        below = edit.units().union(*(calls[unit] for unit in edit.units()))
        for batch, units, all_below in found:
            if not (below & units or edit.units() & all_below):
                batch.append(edit)
                units |= edit.units()
                all_below |= below
                break
        else:
            found.append(([edit], edit.units(), below))
    return [batch for batch, _, _ in found]


def calls_refused(crate, function, end, held):
    """Whether a line says that a function calls another that is not proved, but for itself and those that a hole holds."""
    told = NOT_TOLD.search(end)
    names = re.findall(rf"`{crate}::([^`]*)`", told[1]) if told else []
    return any(name != function.path and not name.startswith(function.closures()) and name not in held for name in names)


def ends_told(said, function):
    """What the prover's lines tell of a function and its closures."""
    told = [it for it in (TOLD.match(line) for line in said) if it]
    return [it[3] for it in told if it[2] == function.path or it[2].startswith(function.closures())]


def notes_on(said, function):
    """The lines at the rows of a function or in its proof."""
    proofs = tuple("proofs/" + path.replace("::", "/") for path in (function.path + "::", function.closures()))
    proofs += ("/".join(["proofs", *function.proof(), ""]),)
    found = []
    for line, behind in zip(said, [*said[1:], ""]):
        note = NOTE.match(line)
        if note and (note[1] == function.file and int(note[2]) in function.rows or note[1].startswith(proofs)):
            more = f" {behind.strip()}" if UNFINISHED.search(line) else ""
            found.append((note[3] + more, line + more))
    return found


def judged(crate, function, said, held):
    """What came of an edited function, and the line that shows it, or None where nothing is known of it."""
    ends = ends_told(said, function)
    if ends and all(PROVED.match(end) for end in ends):
        return PASSED, f"fn {crate}::{function.path}: {ends[0]}"
    if any(calls_refused(crate, function, end, held) for end in ends):
        return None
    notes = [(text, line) for text, line in notes_on(said, function) if NOT_PROVED.search(text)]
    clear = [line for text, line in notes if not AT_LIMIT.search(text) and not NO_SUCH_NAME.search(text)]
    if clear:
        return REFUSED, next((line for line in clear if line.startswith("note: ")), clear[0])
    for end, words in ((LIMITED, AT_LIMIT), (NAMELESS, NO_SUCH_NAME)):
        for text, line in notes:
            if words.search(text):
                return end, line
    return None


def worst(ends):
    """What came of an edit of several functions: one that is refused refuses it."""
    for end in (REFUSED, UNREADABLE, LIMITED, NAMELESS, PASSED):
        for one in ends:
            if one[0] == end:
                return one
    return None


def judge(crate, folder, batch, said, holes):
    """What came of each edit of a batch, as the prover's lines tell it. A batch has the paths of what each edit changes, and the
    sources stand as they were checked, with holes for the proofs of the functions at some paths."""
    now = {function.path: function for function in functions_of(folder)}
    told = [it for it in (TOLD.match(line) for line in said) if it]
    held = holes.union(it[2] for it in told if PROVED.match(it[3]))  # one that only calls a hole reads as not proved too
    found = {}
    for name, paths in batch.items():
        ours = [now[path] for path in paths]
        if told:
            ends = [judged(crate, function, said, held) for function in ours]
        else:
            bad = [line for f in ours for text, line in notes_on(said, f) if text.startswith("error")]
            ends = [(UNREADABLE, bad[0])] if bad else [None]
        came = worst([end for end in ends if end])
        if came and (None not in ends or came[0] != PASSED):
            found[name] = came
    return found


def sources_of(folder):
    found = {}
    for part in ("src", "specs", "proofs"):
        for at, _, names in os.walk(os.path.join(folder, part)):
            found.update({os.path.join(at, name): read(os.path.join(at, name)) for name in names})
    return found


def put_back(folder, before):
    after = sources_of(folder)
    for file in after:
        if file not in before:
            os.remove(file)
    for file, text in before.items():
        if after.get(file) != text:
            os.makedirs(os.path.dirname(file), exist_ok=True)
            write(file, text)
    for at, _, _ in os.walk(os.path.join(folder, "proofs"), topdown=False):
        if not os.listdir(at):
            os.rmdir(at)


def leave_out_bodies(folder, paths):
    """Leaves the bodies of the functions at these paths out, with their proofs and those of their closures."""
    for function in sorted(functions_of(folder), key=lambda it: -it.begin):
        text = function.without_body()
        if function.path not in paths or text == function.text:
            continue
        file = os.path.join(folder, function.file)
        said = read(file)
        before = said[: function.begin].removesuffix(function.attributes)
        attributes = re.sub(r" *#\[cycle[^\n]*\n", "", function.attributes)
        write(file, before + attributes + text + said[function.end :])
        for path in (function.proof(), function.closures().split("::")[:-1]):
            shutil.rmtree(os.path.join(folder, "proofs", *path), ignore_errors=True)


def write_holes(crate, folder, functions, edited):
    """Puts a hole in place of the proof of each function that is not edited, but of those in traits: what calls it is judged by its
    clauses, and it is not proved. Returns their paths."""
    units = {function.unit for function in edited}
    paths = {function.path for function in functions if function.is_free and function.unit not in units}
    leave_out_bodies(folder, paths)
    for function in functions_of(folder):
        if function.path in paths:
            path = function.proof()
            at = os.path.join(folder, "proofs", *path)
            os.makedirs(at, exist_ok=True)
            for answers in ANSWERS:
                if os.path.exists(os.path.join(at, answers)):
                    os.remove(os.path.join(at, answers))
            module = ".".join(path if function.cycle else [*path, "Statement"])
            write(os.path.join(at, "Proof.antt"), HOLE.format(crate=crate, module=module, name=path[-1]))
    return paths


def flags_of(paths):
    return ["--allow-holes", *(word for path in sorted(paths) for word in ("--only", path))]


def try_copies(crate, folder, edits, functions, check):
    """Tries edits in copies of their functions. What came of one counts where the copy with the right body is proved."""
    before = sources_of(folder)
    wrong, right = copies_of(edits)
    copies = [*wrong.values(), *right.values()]
    try:
        for copy in copies:
            copy.stand(folder, functions)
        holes = write_holes(crate, folder, functions, [])
        said = check(flags_of(copy.path for copy in copies)).splitlines()
        came = judge(crate, folder, {name: [copy.path] for name, copy in wrong.items()}, said, holes)
        sound = judge(crate, folder, {path: [copy.path] for path, copy in right.items()}, said, holes)
    finally:
        put_back(folder, before)
    proved = {path for path, end in sound.items() if end[0] == PASSED}
    return {name: end for name, end in came.items() if end[0] == UNREADABLE or wrong[name].function.path in proved}


def try_batch(crate, folder, edits, functions, check):
    """Tries edits of functions, each in its place."""
    before = sources_of(folder)
    try:
        for edit in edits:
            edit.apply(folder)
        holes = write_holes(crate, folder, functions, [function for edit in edits for function in edit.functions])
        paths = {edit.name: [function.path for function in edit.functions] for edit in edits}
        said = check(flags_of({path for own in paths.values() for path in own})).splitlines()
        return judge(crate, folder, paths, said, holes)
    finally:
        put_back(folder, before)


def try_all(edits, in_one_check, tell):
    """Tries edits in one check, again without those that do not compile. Returns those that were not judged."""
    while edits:
        came = in_one_check(edits)
        for edit in edits:
            if edit.name in came:
                tell(edit.name, *came[edit.name])
        left = [edit for edit in edits if edit.name not in came]
        if not came or any(end != UNREADABLE for end, _ in came.values()):
            return left
        edits = left
    return []


def try_edits(crate, folder, files, check, tell):
    """Tries edits of the crate in a folder, by their names and files, and tells of each. check takes flags of rattle check and returns
    what the prover said. Returns the names of those that were not judged: they change more than functions, or do not apply."""
    functions = functions_of(folder)
    edits = [Edit(name, file, folder, functions) for name, file in files.items()]
    of_functions = [edit for edit in edits if edit.functions]
    copied = [edit for edit in of_functions if edit.can_stand_in_copy(folder)]
    left = try_all(copied, lambda them: try_copies(crate, folder, them, functions, check), tell)
    left += [edit for edit in of_functions if edit not in copied]
    unjudged = {edit.name for edit in edits if edit not in of_functions}
    for batch in batches(left, functions):
        unjudged |= {edit.name for edit in try_all(batch, lambda them: try_batch(crate, folder, them, functions, check), tell)}
    return [name for name in files if name in unjudged]
