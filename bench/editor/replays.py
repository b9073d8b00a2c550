#!/usr/bin/env python3
"""A session of 2,000 messages, replayed in pieces of other lengths: python3 bench/editor/replays.py [SERVER WORD ..]

The session is made once. It goes to a server in one piece, byte by byte, and in pieces of random lengths; the answers to its requests, and what was told of each
file last, have to be the same.
"""
import json
import os
import random
import subprocess
import sys
import tempfile
import threading

sys.path.insert(0, os.path.dirname(os.path.abspath(__file__)))
from client import uri_of
from modules import main_text, write_module

ASKED = ["definition", "hover", "references", "completion", "documentHighlight", "signatureHelp"]


def framed(message):
    body = json.dumps({"jsonrpc": "2.0", **message}, ensure_ascii=False).encode()
    return b"Content-Length: %d\r\n\r\n" % len(body) + body


def session(root, count):
    """The bytes of a session of so many messages."""
    chance, main, text = random.Random(1), uri_of(f"{root}/main.go"), main_text(11)
    sent = [framed({"id": 0, "method": "initialize", "params": {"rootUri": uri_of(root), "capabilities": {}}}), framed({"method": "initialized", "params": {}})]
    sent.append(framed({"method": "textDocument/didOpen", "params": {"textDocument": {"uri": main, "languageId": "go", "version": 1, "text": text}}}))
    lines = text.split("\n")
    for number in range(1, count - 4):
        line = chance.randrange(len(lines))
        character = chance.randint(0, len(lines[line]))
        place = {"textDocument": {"uri": main}, "position": {"line": line, "character": character}}
        kind = chance.randrange(10)
        if kind < 4:
            spot = {"line": line, "character": character}
            new = chance.choice(["x", "r.", ")", "", "é", "\n", "1", "{"])
            sent.append(framed({"method": "textDocument/didChange", "params": {"textDocument": {"uri": main, "version": number + 1}, "contentChanges": [{"range": {"start": spot, "end": spot}, "text": new}]}}))
        elif kind == 4:
            sent.append(framed({"method": "textDocument/didChange", "params": {"textDocument": {"uri": main, "version": number + 1}, "contentChanges": [{"text": text}]}}))
        elif kind == 5:
            sent.append(framed({"id": number, "method": "textDocument/rename", "params": {**place, "newName": chance.choice(["q", "fresh", "Area"])}}))
        elif kind == 6:
            sent.append(framed({"id": number, "method": "workspace/symbol", "params": {"query": chance.choice(["Box", "F", "q"])}}))
        else:
            sent.append(framed({"id": number, "method": "textDocument/" + chance.choice(ASKED), "params": {**place, "context": {"includeDeclaration": True}}}))
    sent += [framed({"id": count, "method": "shutdown"}), framed({"method": "exit"})]
    return b"".join(sent)


def messages(out):
    """The messages in bytes."""
    found = []
    while out:
        head, _, rest = out.partition(b"\r\n\r\n")
        length = int(head.split(b":")[1])
        found.append(json.loads(rest[:length]))
        out = rest[length:]
    return found


def run(server, sent, lengths):
    """What a server answers to bytes that come in pieces: the answers by their numbers, what was told last, and the status."""
    with subprocess.Popen(server, stdin=subprocess.PIPE, stdout=subprocess.PIPE, bufsize=0) as process:
        out = []
        reader = threading.Thread(target=lambda: out.append(process.stdout.read()), daemon=True)
        reader.start()
        at = 0
        while at < len(sent):
            length = lengths()
            os.write(process.stdin.fileno(), sent[at : at + length])
            at += length
        process.stdin.close()
        status = process.wait(timeout=600)
        reader.join(timeout=60)
    answers, told = {}, {}
    for message in messages(out[0]):
        if message.get("method") == "textDocument/publishDiagnostics":
            told[message["params"]["uri"]] = message["params"]["diagnostics"]
        elif "method" not in message:
            answers[message["id"]] = message
    return answers, told, status


def main():
    server = sys.argv[1:] or ["./govisd", "lsp"]
    with tempfile.TemporaryDirectory() as folder:
        root = f"{folder}/ws"
        write_module(root, 11)
        sent = session(root, 2000)
        chance = random.Random(2)
        whole = run(server, sent, lambda: len(sent))
        bad = 0 if whole[2] == 0 and len(whole[0]) > 900 else 1
        for name, lengths in (("byte by byte", lambda: 1), ("in random pieces", lambda: chance.choice([1, 2, 7, 100, 5000, 65536]))):
            other = run(server, sent, lengths)
            differing = [it for it in whole[0] if whole[0][it] != other[0].get(it)]
            same = not differing and whole == other
            bad += not same
            print(f"{name}: {len(other[0])} answers, {'the same' if same else f'other ones at {differing[:5]}, told the same: {whole[1] == other[1]}'}")
    sys.exit(1 if bad else 0)


main()
