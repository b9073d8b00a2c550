#!/usr/bin/env python3
"""Compares what `govisd script` answers to `complete`, `define`, `doc` with a type and `list` with Go's own tools: with go/types, as `gopackages query` and
`gopackages document` tell it, and with `go list`. README.md beside this file says what is compared, and which forms differ on purpose."""
import argparse
import collections
import glob
import json
import os
import re
import subprocess
import sys

HERE = os.path.dirname(os.path.abspath(__file__))
sys.path.insert(0, f"{HERE}/../shared")
import listing
import member_files
from generate import Wild

FILES = 300  # generated files of one package each
IN_MODULE = 100  # of these in each module
IN_RUN = 25  # workspaces in one run of the program: it takes at most 32 modules
OUTSIDE = 8  # outside functions of workspaces names are put in the place of so many times fewer identifiers: the whole package is checked for each
MOST_SHOWN = 20


def write(file, text):
    with open(file, "w", encoding="utf-8", newline="") as it:
        it.write(text)


def said_by(words, text=""):
    ran = subprocess.run(words, input=text.encode(), stdout=subprocess.PIPE, stderr=subprocess.PIPE)
    if ran.returncode != 0:
        sys.stderr.write(f"queries.py: {' '.join(words)[:200]} ended with status {ran.returncode}\n")
        sys.stderr.buffer.write(ran.stderr[:2000])
        sys.exit(2)
    return ran.stdout.decode()


def members(archive):
    """The texts of an archive by their places, in which each is a path of a package and a file's name."""
    texts, place = {}, None
    for line in archive.splitlines(keepends=True):
        found = re.fullmatch(r"-- (\S+) --\n", line)
        if found:
            place = found[1]
            texts[place] = []
        elif place:
            texts[place].append(line)
    return {place: "".join(lines) for place, lines in texts.items()}


class Script:
    """Requests to one run of the program, each with what is to be done with its reply."""

    def __init__(self, program):
        self.program, self.lines, self.takers = program, [], []

    def ask(self, taker, **request):
        self.lines.append(json.dumps(request, ensure_ascii=False, separators=(",", ":")))
        self.takers.append((request, taker))

    def want(self, wanted, **request):
        """Asks what must be answered so."""

        def take(reply):
            reply.pop("s", None)
            if reply != wanted:
                sys.exit(f"queries.py: {str(request)[:300]} is told {str(reply)[:300]}, and not {wanted}")

        self.ask(take, **request)

    def refused(self, tally, what, rule, **request):
        """Asks what must be refused by a rule."""

        def take(reply):
            if reply.get("err") == rule:
                tally.add(f"{what} ({rule})")
            else:
                tally.differ(what, f"{request} {str(reply)[:200]}, and not {rule}")

        self.ask(take, **request)

    def put(self, session, module, texts):
        """Opens a module, and builds its files."""
        self.want({"ok": {"module": module}}, cmd="open", module=module, s=session)
        for place, text in texts.items():
            path, file = place.rsplit("/", 1)
            self.want({"ok": {}}, cmd="edit", path=path, file=file, text=text, s=session)
        self.ask(lambda reply: None if "ok" in reply else sys.exit(f"queries.py: a build of {module} is told {reply}"), cmd="build", s=session)

    def run(self):
        replies = said_by([self.program, "script", "--workers", "1"], "".join(line + "\n" for line in self.lines)).splitlines()
        if len(replies) != len(self.takers):
            sys.exit(f"queries.py: {len(self.takers)} requests have {len(replies)} replies")
        for (_, take), reply in zip(self.takers, replies):
            take(json.loads(reply))


class Tally:
    """What was compared, and what differs."""

    def __init__(self):
        self.counts, self.differing = collections.Counter(), 0

    def add(self, what, count=1):
        self.counts[what] += count

    def differ(self, what, where):
        self.differing += 1
        self.counts[f"DIFFERS: {what}"] += 1
        if self.differing <= MOST_SHOWN:
            print(f"differs: {what}: {where}")

    def report(self):
        for what in sorted(self.counts):
            print(f"{what:<100} {self.counts[what]:>10,}")
        print(f"{self.differing} differ")


def in_bytes(names):
    return sorted(names, key=str.encode)


def form_of_members(told, names):
    """The form in which names of members may differ, by faults of the types of a package, or nothing."""
    if names.issubset(told["repeated"]):
        return "members that are declared twice (B5)"
    if told["early"]:
        return "in a package with an alias that go/types of Go 1.19 comes to before its target"
    if told["cyclic"]:
        return "in a package in which a type reaches itself (Y1)"
    if told.get("clashes"):
        return "in a package in which an import and the package bind one name (B2)"
    return ""


class Question:
    """An identifier that is used, with what go/types says of it."""

    def __init__(self, tally, told, use):
        self.tally, self.told, self.use = tally, told, use
        self.where = f"{told['archive']} {told['package']}/{told['file']}:{use['at']} {use['name']} ({use['context']}, {use['role']})"
        self.of_types = use["context"] in ("value", "key")

    def completed(self, reply):
        wanted = in_bytes(self.use["names"])
        given = reply.get("ok", {}).get("names")
        kind = self.kind()
        if given == wanted:
            self.tally.add(f"complete, {kind}: the same names")
            self.tally.add(f"complete, {kind}: names in all", len(wanted))
        elif given is not None and self.form(given, wanted):
            self.tally.add(f"complete, {kind}: {self.form(given, wanted)}")
        else:
            if given is not None:
                reply = {"only govisd": in_bytes(set(given) - set(wanted)), "only Go": in_bytes(set(wanted) - set(given))}
            self.tally.differ(f"complete, {kind}", f"{self.where} {reply}")

    def kind(self):
        return {"value": "behind a value", "key": "for a key"}.get(self.use["context"], self.use["context"])

    def form(self, given, wanted):
        """The form in which names behind a value or for a key may differ, or nothing."""
        if not self.of_types:
            return ""
        if self.use["late"]:
            return "behind a type for which go/types of Go 1.19 has no fields"
        if not self.use["typed"] and not self.told["accepted"]:
            return "of what has no type for go/types, in a package that it refuses"
        if self.use["apart"] and not self.told["accepted"]:
            return "of a name that is not exported, a method expression or a member that is declared twice"
        return form_of_members(self.told, set(given) ^ set(wanted))

    def defined(self, reply):
        rule, decl = reply.get("err"), reply.get("ok", {}).get("decl")
        context = self.use["context"]
        if self.use["rule"] == "" and decl == self.use["decl"]:
            self.tally.add(f"define, {context}: the same declaration")
        elif self.use["rule"] and rule == self.use["rule"]:
            self.tally.add(f"define, {context}: refused by {rule}")
        elif self.of_types and self.use["rule"] and rule:
            self.tally.add(f"define, {context}: denotes nothing for both")
        elif self.of_types and not self.told["accepted"] and (rule or self.use["rule"]):
            self.tally.add(f"define, {context}: of one alone, in a package that go/types refuses")
        else:
            self.tally.differ(f"define, {context}", f"{self.where} {reply} and not {self.use['rule'] or self.use['decl']}")


def ask_file(script, session, tally, told):
    """Asks of each identifier of a file."""
    place = {"path": told["package"], "file": told["file"], "s": session}
    if not told["assembled"]:
        for word in ("complete", "define"):
            script.refused(tally, f"{word}: of a package that does not assemble", "Q1", cmd=word, offset=0, **place)
        return
    for use in told["uses"]:
        question = Question(tally, told, use)
        script.ask(question.completed, cmd="complete", offset=use["at"], **place)
        script.ask(question.defined, cmd="define", offset=use["end"] - 1, **place)
    for at, _ in told["declared"]:
        for word in ("complete", "define"):
            script.refused(tally, f"{word}: at an identifier that is not used", "Q3", cmd=word, offset=at, **place)
    for what, count in told["counts"].items():
        tally.add(f"go/types, {what}", count)
    for odd in told["odd"]:
        tally.differ("go/types is not what its scopes are", f"{told['archive']} {odd}")


class TypeQuestion:
    """A name, asked for the members of the type that it names, with what go/types has behind a variable of it."""

    def __init__(self, tally, told):
        self.tally, self.told = tally, told
        self.kind = "own" if told["from"] == told["package"] else "of another package"
        self.where = f"{told['archive']} {told['package']}.{told['name']} from {told['from']}"

    def documented(self, reply):
        told, rule = self.told, reply.get("err", "")
        given = reply.get("ok", {}).get("symbols")
        if rule == told["rule"] and (rule or given == told["members"]):
            self.tally.add(f"doc, a type, {self.kind}: " + (f"refused by {rule}" if rule else "the same members"))
            self.tally.add(f"doc, a type, {self.kind}: members in all", len(given or ()))
            self.tally.add(f"doc, a type, {self.kind}: comments in all", sum(it["doc"] != "" for it in given or ()))
        elif given == [] and not rule and not told["rule"] and told["none"]:
            self.tally.add(f"doc, a type, {self.kind}: a type that is defined by what has no type, of which go/types has the methods")
        elif told["late"]:
            self.tally.add(f"doc, a type, {self.kind}: a type for which go/types of Go 1.19 has no fields")
        elif given is not None and not rule and self.form(given):
            self.tally.add(f"doc, a type, {self.kind}: {self.form(given)}")
        else:
            self.tally.differ(f"doc, a type, {self.kind}", f"{self.where} {self.told_apart(reply)}")

    def form(self, given):
        members, repeated = self.told["members"], set(self.told["repeated"])
        differing = [it for it in given if it not in members] + [it for it in members if it not in given]
        return form_of_members(self.told, {it["name"] for it in differing if repeated.isdisjoint(it["path"])})

    def told_apart(self, reply):
        if "ok" not in reply or self.told["rule"]:
            return f"{reply} and not {self.told['rule'] or self.told['members']}"
        given, wanted = reply["ok"]["symbols"], self.told["members"]
        return {"only govisd": [it for it in given if it not in wanted], "only Go": [it for it in wanted if it not in given]}


def ask_type(script, session, tally, told):
    """Asks what stands behind a variable of a type."""
    request = {"cmd": "doc", "from": told["from"], "path": told["package"], "type": told["name"], "s": session}
    script.ask(TypeQuestion(tally, told).documented, **request)


def told_by(given, mode, files, *options):
    """What go/types says of archives, file by file, or type by type."""
    lines = said_by([given.peer, mode, *options, *files]).splitlines()
    return [json.loads(line) for line in lines]


def wild_texts(module, seeds):
    """Files of few names, much shadowed, each a package of its own."""
    return {f"{module}/p{seed:03}/in.go": Wild(seed).file() for seed in seeds}


def member_texts(module, seeds):
    """Files of types with few names of members, each a package of its own, and the one that they import."""
    texts = {f"{module}/lib/lib.go": member_files.LIBRARY}
    texts.update((f"{module}/p{seed:03}/in.go", member_files.Dotted(seed).file(f"{module}/lib")) for seed in seeds)
    return texts


def ask_files(given, tally, make, folder):
    """Files, each a package of its own, of several modules."""
    folder = os.path.join(given.folder, folder)
    os.makedirs(folder, exist_ok=True)
    script, asked = Script(given.govisd), []
    for first in range(1, given.files + 1, IN_MODULE):
        module = f"ex.com/f{first:03}"
        texts = make(module, range(first, min(first + IN_MODULE, given.files + 1)))
        archive = os.path.join(folder, f"{first:03}.txt")
        write(archive, "".join(f"-- {place} --\n{text}" for place, text in texts.items()))
        session = len(asked) + 1
        script.put(session, module, texts)
        asked.append((session, archive))
    for session, archive in asked:
        for told in told_by(given, "query", [archive], "-every", str(given.every)):
            ask_file(script, session, tally, told)
        for told in told_by(given, "document", [archive], "-beside"):
            ask_type(script, session, tally, told)
    script.run()


def chunks(items, count):
    return [items[at : at + count] for at in range(0, len(items), count)]


def module_of(texts):
    return "/".join(next(iter(texts)).split("/")[:2])


def ask_workspaces(given, tally, files):
    """Workspaces of several packages, each a module of its own, so many in one run of the program."""
    for some in chunks(files, IN_RUN):
        script, sessions = Script(given.govisd), {}
        for file in some:
            with open(file, encoding="utf-8", newline="") as it:
                texts = members(it.read())
            sessions[file] = len(sessions) + 1
            script.put(sessions[file], module_of(texts), texts)
        for told in told_by(given, "query", some, "-list", given.listing, "-every", str(given.sparse), "-outside", str(given.sparse * OUTSIDE)):
            if told["package"]:
                ask_file(script, sessions[told["archive"]], tally, told)
            else:
                tally.add("archives on which go/types panics")
        for told in told_by(given, "document", some, "-list", given.listing):
            ask_type(script, sessions[told["archive"]], tally, told)
        script.run()


def ask_lists(given, tally, files):
    """What packages may import, beside `go list`."""
    for some in chunks(files, IN_RUN):
        script, trees = Script(given.govisd), []
        for file in some:
            with open(file, encoding="utf-8", newline="") as it:
                trees.append(listing.Tree(members(it.read())))
        listing.ask_go(given.go, given.cache, os.path.join(given.folder, "modules"), trees)
        left_out = [tree for tree in trees if tree.is_malformed()]
        tally.add("list: workspaces left out, with an import of no path, where go list reads no more of the file", len(left_out))
        trees = [tree for tree in trees if tree not in left_out]
        for session, tree in enumerate(trees, 1):
            script.put(session, tree.root, tree.texts)
        for session, tree in enumerate(trees, 1):
            listing.ask(script, session, tally, tree, trees)
        script.run()


def main():
    arguments = argparse.ArgumentParser()
    for word in ("--govisd", "--peer", "--go", "--cache", "--folder", "--listing"):
        arguments.add_argument(word, required=True)
    arguments.add_argument("--files", type=int, default=FILES)
    arguments.add_argument("--every", type=int, default=1)
    arguments.add_argument("--sparse", type=int, default=100)
    arguments.add_argument("parts", nargs="+", choices=("files", "members", "workspaces", "lists"))
    given = arguments.parse_args()
    tally, files = Tally(), sorted(glob.glob(os.path.join(given.folder, "archives", "*.txt")))
    if "files" in given.parts:
        ask_files(given, tally, wild_texts, "files")
    if "members" in given.parts:
        ask_files(given, tally, member_texts, "members")
    if "workspaces" in given.parts:
        ask_workspaces(given, tally, files)
    if "lists" in given.parts:
        ask_lists(given, tally, files)
    tally.report()
    few = not any(what.startswith(("complete", "doc", "list")) for what in tally.counts)
    if few:
        print("FAILED: nothing was compared")
    return 1 if tally.differing or few else 0


if __name__ == "__main__":
    sys.exit(main())
