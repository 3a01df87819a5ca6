"""A client of the language server, for tests/lsp/check."""
import json
import os
import select
import subprocess


class Client:
    """A session with a server, which is started by this command, in this folder if one is given."""

    def __init__(self, command, folder=None):
        self.work = subprocess.Popen(command, stdin=subprocess.PIPE, stdout=subprocess.PIPE, bufsize=0, cwd=folder)
        self.number = 0
        self.notes = []
        self.rest = b""

    def send_bytes(self, data):
        """Sends bytes as they are."""
        self.work.stdin.write(data)

    def send(self, *messages):
        """Sends messages, all at once."""
        texts = [json.dumps(message).encode() for message in messages]
        self.send_bytes(b"".join(b"Content-Length: %d\r\n\r\n%b" % (len(text), text) for text in texts))

    def more(self, seconds=60):
        """Reads what comes next. Fails if nothing comes in this time, or the server ended."""
        if not select.select([self.work.stdout], [], [], seconds)[0]:
            raise TimeoutError("the server gave no answer")
        data = os.read(self.work.stdout.fileno(), 1 << 16)
        if not data:
            raise EOFError("the server ended")
        self.rest += data

    def read(self):
        """The next message of the server."""
        while b"\r\n\r\n" not in self.rest:
            self.more()
        head, self.rest = self.rest.split(b"\r\n\r\n", 1)
        length = int(head.lower().split(b"content-length:")[1].split(b"\r\n")[0])
        while len(self.rest) < length:
            self.more()
        text, self.rest = self.rest[:length], self.rest[length:]
        return json.loads(text)

    def request(self, method, params=None):
        """The answer to a request. Notifications before it are kept in `notes`."""
        self.number += 1
        self.send({"jsonrpc": "2.0", "id": self.number, "method": method, "params": params})
        while True:
            message = self.read()
            if message.get("id") == self.number:
                return message
            self.notes.append(message)

    def notify(self, method, params=None):
        """Sends a notification."""
        self.send({"jsonrpc": "2.0", "method": method, "params": params})

    def begin(self):
        """Begins a session."""
        answer = self.request("initialize", {"capabilities": {}})
        self.notify("initialized", {})
        return answer

    def open(self, uri, text):
        """Opens a document. Returns what is wrong with it."""
        self.notify("textDocument/didOpen", {"textDocument": {"uri": uri, "languageId": "bcpl", "version": 1, "text": text}})
        return self.diagnostics()

    def diagnostics(self):
        """The diagnostics that come next."""
        message = self.read()
        assert message["method"] == "textDocument/publishDiagnostics", message
        return message["params"]["diagnostics"]

    def end(self):
        """Ends the session. Returns the server's status."""
        self.request("shutdown")
        self.notify("exit")
        return self.work.wait(60)
