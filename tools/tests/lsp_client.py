"""A client of the language server for tests: it speaks the protocol over pipes."""

from __future__ import annotations

import queue
import subprocess
import sys
import threading
from pathlib import Path
from typing import Any

TOOLS = Path(__file__).resolve().parent.parent
sys.path.insert(0, str(TOOLS))

from language_server import messages  # noqa: E402

# How long a message is awaited; a machine may be slow for some time.
SECONDS = 120


class Client:
    """A server and what it sent. Messages are awaited in turn, so a test names each that it expects."""

    def __init__(self, *words: str) -> None:
        self.server = subprocess.Popen([sys.executable, TOOLS / "lsp.py", *words], stdin=subprocess.PIPE, stdout=subprocess.PIPE)
        self.received: queue.Queue[messages.Message | None] = queue.Queue()
        self.number = 0
        threading.Thread(target=self.receive_all, daemon=True).start()

    def receive_all(self) -> None:
        while (message := messages.read(self.server.stdout)) is not None:
            self.received.put(message)
        self.received.put(None)

    def write(self, data: bytes) -> None:
        self.server.stdin.write(data)
        self.server.stdin.flush()

    def notify(self, method: str, params: Any = None) -> None:
        self.write(messages.packed({"method": method, "params": params}))

    def ask(self, method: str, params: Any = None) -> Any:
        """The answer to a request, without what else was sent before it."""
        self.number += 1
        self.write(messages.packed({"id": self.number, "method": method, "params": params}))
        return self.awaited(lambda it: it.get("id") == self.number)

    def awaited(self, is_wanted: Any) -> messages.Message:
        """The next message that is wanted; those before it are dropped."""
        while (message := self.received.get(timeout=SECONDS)) is not None:
            if is_wanted(message):
                return message
        raise EOFError("the server ended")

    def begin(self, **capabilities: Any) -> Any:
        answer = self.ask("initialize", {"processId": None, "rootUri": None, "capabilities": capabilities})
        self.notify("initialized", {})
        return answer["result"]

    def open(self, name: str, text: str, version: int = 1) -> str:
        uri = f"file:///{name}"
        self.notify("textDocument/didOpen", {"textDocument": {"uri": uri, "languageId": "kat", "version": version, "text": text}})
        return uri

    def change(self, uri: str, text: str, version: int) -> None:
        document = {"uri": uri, "version": version}
        self.notify("textDocument/didChange", {"textDocument": document, "contentChanges": [{"text": text}]})

    def diagnostics(self, uri: str, version: int = 1) -> list[dict[str, Any]]:
        """What the server says of this version of a document in the end."""
        def is_decided(message: messages.Message) -> bool:
            params, wanted = message.get("params", {}), ("textDocument/publishDiagnostics", uri, version)
            is_of_document = (message.get("method"), params.get("uri"), params.get("version")) == wanted
            return is_of_document and all(it["code"] != "undecided" for it in params["diagnostics"])

        return self.awaited(is_decided)["params"]["diagnostics"]

    def found(self, name: str, text: str) -> list[dict[str, Any]]:
        """What the server says of a new document in the end."""
        self.number += 1
        version = self.number
        return self.diagnostics(self.open(name, text, version), version)

    def at(self, method: str, uri: str, line: int, character: int) -> Any:
        position = {"line": line, "character": character}
        return self.ask(f"textDocument/{method}", {"textDocument": {"uri": uri}, "position": position})["result"]

    def end(self) -> int:
        """Shuts the server down, and returns its status."""
        self.ask("shutdown")
        self.notify("exit")
        return self.closed()

    def kill(self) -> None:
        """Ends a server that a test left."""
        self.server.kill()
        self.server.wait()
        self.server.stdin.close()
        self.server.stdout.close()

    def closed(self) -> int:
        """Closes the pipes and awaits the end."""
        self.server.stdin.close()
        status = self.server.wait(SECONDS)
        self.server.stdout.close()
        return status
