#!/usr/bin/env python3
"""Stored sessions of an editor, served by a program: python3 bench/editor/stored.py [SERVER WORD ..]    (./govisd lsp)

stored/editor*.txt have a message of an editor on each line, stored/told.txt what goes out for each file, a message a line, and how serving ends. The names of
files begin with a folder of its own here, into which the module stored/editor is copied. After each change stands a request, so that what is told does not
hang on the pieces in which messages come. Each session comes in one piece and byte by byte. Then its first half comes alone, and what goes out is the beginning
of what went out before; and after half of what goes out nobody reads any more, and the program ends with the status 1. The gate serves them to the program that
it has built.
"""
import fcntl
import os
import re
import shutil
import subprocess
import sys
import tempfile

sys.path.insert(0, os.path.dirname(os.path.abspath(__file__)))
from client import uri_of

CASES = os.path.join(os.path.dirname(os.path.abspath(__file__)), "stored")


def sessions():
    """The stored sessions: the name of each, what goes out, and the status."""
    with open(f"{CASES}/told.txt", encoding="utf-8") as file:
        found = re.findall(r"^== (editor\w*\.txt)\n(.*?)^\w[\w ]*, status (\d)$", file.read(), re.M | re.S)
    return [(name, lines.splitlines(), int(status)) for name, lines, status in found]


def framed(message):
    return b"Content-Length: %d\r\n\r\n" % len(message) + message


def bodies(sent):
    """The messages in bytes, without their heads."""
    found = []
    while sent:
        head, _, rest = sent.partition(b"\r\n\r\n")
        length = int(head.split(b":")[1])
        found.append(rest[:length].decode())
        sent = rest[length:]
    return found


def served(server, sent, step):
    """What a server sends for bytes that come in pieces of a length, its status, and what it says beside."""
    with tempfile.TemporaryFile() as out, tempfile.TemporaryFile() as said:
        with subprocess.Popen(server, stdin=subprocess.PIPE, stdout=out, stderr=said, bufsize=0) as process:
            for at in range(0, len(sent), step):
                process.stdin.write(sent[at : at + step])
        out.seek(0)
        said.seek(0)
        return bodies(out.read()), process.returncode, said.read().decode()


def cut(server, sent, wanted):
    """How it differs from what is wanted where half of the messages come and then nothing, in words."""
    told, ended, _ = served(server, sent[: len(sent) // 2], len(sent))
    # The end of the first half may stand in the middle of a message that has its reply before others.
    return "" if ended == 1 and told == wanted[: len(told)] and told else f"cut: status {ended}, {len(told)} messages"


def unread(server, sent, whole):
    """How it differs where nobody reads after half of what goes out, in words."""
    mine, its = os.pipe()
    fcntl.fcntl(its, fcntl.F_SETPIPE_SZ, 4096)
    with tempfile.TemporaryFile() as came:
        came.write(sent)
        came.seek(0)
        with subprocess.Popen(server, stdin=came, stdout=its, stderr=subprocess.DEVNULL) as process:
            os.close(its)
            got = b""
            while len(got) < len(whole) // 2:
                got += os.read(mine, len(whole) // 2 - len(got))
            os.close(mine)
    return "" if process.returncode == 1 and whole.startswith(got) else f"nobody reads: status {process.returncode}"


def differing(server, room, name, lines, status):
    """How a session differs from what is stored, in words."""
    here = lambda text: text.replace("file:///", uri_of(room) + "/")
    with open(f"{CASES}/{name}", encoding="utf-8") as file:
        sent = b"".join(framed(here(line).encode()) for line in file.read().splitlines())
    for step in (len(sent), 1):
        told, ended, said = served(server, sent, step)
        for number, (wanted, came) in enumerate(zip(map(here, lines), told)):
            if wanted != came:
                return f"{name}, in pieces of {step}: message {number + 1} is\n{came}\nand not\n{wanted}"
        if (len(told), ended, said) != (len(lines), status, ""):
            return f"{name}, in pieces of {step}: {len(told)} messages of {len(lines)}, status {ended} and not {status}, {said!r}"
    whole = b"".join(framed(it.encode()) for it in told)
    how = cut(server, sent, told) or (unread(server, sent, whole) if len(whole) > 16384 else "")
    return how and f"{name}, {how}"


def main():
    server, count, differ = sys.argv[1:] or ["./govisd", "lsp"], 0, 0
    with tempfile.TemporaryDirectory() as room:
        shutil.copytree(f"{CASES}/editor", f"{room}/editor")
        for name, lines, status in sessions():
            how = differing(server, room, name, lines, status)
            count, differ = count + len(lines), differ + bool(how)
            if how:
                print(how)
    print(f"{count} messages to editors, {differ} sessions differ")
    sys.exit(1 if differ or not count else 0)


main()
