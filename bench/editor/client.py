"""A client of the Language Server Protocol, for tests: it starts a server, sends messages and keeps what comes back."""
import json
import os
import queue
import subprocess
import threading
import urllib.parse


# How many seconds an answer may take.
WAIT = 120


def uri_of(path):
    return "file://" + urllib.parse.quote(os.path.abspath(path))


class Client:
    def __init__(self, command, log=None):
        self.server = subprocess.Popen(command, stdin=subprocess.PIPE, stdout=subprocess.PIPE, stderr=log)
        self.came, self.number = queue.Queue(), 0
        self.diagnostics, self.notes = {}, []
        threading.Thread(target=self._read, daemon=True).start()

    def _read(self):
        out = self.server.stdout
        while True:
            length = None
            while True:
                line = out.readline()
                if not line:
                    self.came.put(None)
                    return
                if line in (b"\r\n", b"\n"):
                    break
                if line.lower().startswith(b"content-length:"):
                    length = int(line.split(b":")[1])
            self.came.put(json.loads(out.read(length)))

    def raw(self, body):
        self.server.stdin.write(b"Content-Length: %d\r\n\r\n" % len(body) + body)
        self.server.stdin.flush()

    def send(self, message):
        self.raw(json.dumps({"jsonrpc": "2.0", **message}, ensure_ascii=False).encode())

    def note(self, method, params):
        self.send({"method": method, "params": params})

    def take(self, timeout=WAIT):
        """The next message; what is told of files is kept."""
        message = self.came.get(timeout=timeout)
        if message and message.get("method") == "textDocument/publishDiagnostics":
            params = message["params"]
            self.diagnostics[params["uri"]] = params
        elif message and "method" in message:
            self.notes.append(message)
        return message

    def request(self, method, params):
        """The answer to a request: the whole message."""
        self.number += 1
        self.send({"id": self.number, "method": method, "params": params})
        return self.answer(self.number)

    def answer(self, number):
        while True:
            message = self.take()
            if message is None:
                raise EOFError("the server ended")
            if message.get("id") == number and "method" not in message:
                return message

    def ask(self, method, params):
        answer = self.request(method, params)
        if "error" in answer:
            raise RuntimeError(answer["error"])
        return answer["result"]

    def initialize(self, root, **capabilities):
        result = self.ask("initialize", {"processId": os.getpid(), "rootUri": uri_of(root), "capabilities": capabilities})
        self.note("initialized", {})
        return result

    def open(self, path, text=None, version=1):
        if text is None:
            with open(path, encoding="utf-8") as file:
                text = file.read()
        self.note("textDocument/didOpen", {"textDocument": {"uri": uri_of(path), "languageId": "go", "version": version, "text": text}})

    def change(self, path, version, text):
        self.note("textDocument/didChange", {"textDocument": {"uri": uri_of(path), "version": version}, "contentChanges": [{"text": text}]})

    def at(self, method, path, line, character, **more):
        return self.ask("textDocument/" + method, {"textDocument": {"uri": uri_of(path)}, "position": {"line": line, "character": character}, **more})

    def told(self, path):
        """What is told of a file, once an answer has come behind it."""
        self.ask("workspace/symbol", {"query": "no such name"})
        return self.diagnostics.get(uri_of(path), {"diagnostics": []})["diagnostics"]

    def end(self):
        self.ask("shutdown", None)
        self.note("exit", None)
        return self.server.wait(timeout=WAIT)
