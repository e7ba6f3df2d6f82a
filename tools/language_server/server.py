"""The server: what each message does, and the check of each document, of which only the newest text counts."""

from __future__ import annotations

import asyncio
import tempfile
from pathlib import Path
from typing import Any, Callable
from urllib.parse import unquote, urlparse

from . import answers, messages
from .messages import Message
from .prover import Kat, NoProgram, find
from .texts import Text

# A text is checked when nobody has typed for DELAY seconds. What is not answered PATIENCE seconds later is shown as undecided.
DELAY, PATIENCE = 0.15, 0.5
LANGUAGES = {"kat": "kat", "gkat": "gkat", "flow": "flow", "katflow": "flow"}
LONGEST_ITEM = 12
ERROR_MESSAGE, FULL_TEXT = 1, 1


class RequestError(Exception):
    """A request that has no result, with the code of the protocol."""

    def __init__(self, code: int, why: str) -> None:
        super().__init__(why)
        self.code = code


class Document:
    """An open document, and the check of its newest text."""

    def __init__(self, uri: str, text: Text, version: int | None) -> None:
        self.uri, self.text, self.version = uri, text, version
        self.check: asyncio.Task[None] | None = None


def language_of(uri: str, named: str) -> str:
    """The language of a document, by the ending of its name, or by what the editor calls it."""
    ending = Path(unquote(urlparse(uri).path)).suffix.removeprefix(".")
    return LANGUAGES.get(ending) or LANGUAGES.get(named) or "kat"


class Server:
    def __init__(self, kat: str, seconds: float, send: Callable[[Message], None]) -> None:
        self.given, self.seconds, self.send = kat, seconds, send
        self.documents: dict[str, Document] = {}
        self.is_initialized = self.is_shut_down = self.has_plain_hovers = False
        self.kat: asyncio.Task[Kat] | None = None
        self.failure = ""
        self.requests = {"initialize": self.initialize, "shutdown": self.shut_down, "textDocument/hover": self.hover,
                         "textDocument/definition": self.definition}
        self.notifications = {"textDocument/didOpen": self.open, "textDocument/didChange": self.change,
                              "textDocument/didClose": self.close}

    def receive(self, message: Message) -> bool:
        """Does what a message says. Returns whether the server goes on."""
        method, params = message.get("method"), message.get("params") or {}
        if method == "exit":
            return False
        if method is None:
            # The answer to a request; this server makes none.
            return True
        if "id" in message:
            self.send({"id": message["id"], **self.reply(method, params)})
        elif self.is_initialized and method in self.notifications:
            try:
                self.notifications[method](params)
            except (KeyError, TypeError, IndexError) as why:
                self.log(f"{method} has no {why}")
        return True

    def reply(self, method: str, params: dict[str, Any]) -> Message:
        """The result of a request, or its error."""
        try:
            if method not in self.requests:
                raise RequestError(messages.METHOD_NOT_FOUND, f"there is no request {method}")
            if self.is_shut_down:
                raise RequestError(messages.INVALID_REQUEST, "the server is shut down")
            if not self.is_initialized and method != "initialize":
                raise RequestError(messages.NOT_INITIALIZED, "the server is not initialized")
            return {"result": self.requests[method](params)}
        except RequestError as why:
            return {"error": {"code": why.code, "message": str(why)}}
        except (KeyError, TypeError, IndexError, AttributeError) as why:
            return {"error": {"code": messages.INVALID_PARAMS, "message": f"{method} has no {why}"}}

    def log(self, why: str) -> None:
        self.send({"method": "window/logMessage", "params": {"type": ERROR_MESSAGE, "message": f"kat: {why}"}})

    # Requests

    def initialize(self, params: dict[str, Any]) -> dict[str, Any]:
        hovers = params.get("capabilities", {}).get("textDocument", {}).get("hover", {})
        self.has_plain_hovers = "markdown" not in hovers.get("contentFormat", ["markdown"])
        self.is_initialized = True
        return {"capabilities": {"positionEncoding": "utf-16", "textDocumentSync": {"openClose": True, "change": FULL_TEXT},
                                 "hoverProvider": True, "definitionProvider": True},
                "serverInfo": {"name": "kat"}}

    def shut_down(self, _: dict[str, Any]) -> None:
        self.is_shut_down = True
        for document in self.documents.values():
            self.stop(document)

    def hover(self, params: dict[str, Any]) -> dict[str, Any] | None:
        """What a name is, with the item that declares it."""
        text = self.documents[params["textDocument"]["uri"]].text
        found = text.definition_at(text.character(params["position"]))
        if found is None:
            return None
        token, definition = found
        start, end = definition.item
        lines = text.text[start:end].splitlines()
        item = "\n".join(lines[:LONGEST_ITEM] + ["..."] * (len(lines) > LONGEST_ITEM))
        what = f"{definition.kind} {token.text}, declared in line {text.place(definition.token.start)['line'] + 1}"
        plain = {"kind": "plaintext", "value": f"{what}\n{item}"}
        marked = {"kind": "markdown", "value": f"{what}\n\n```{text.language}\n{item}\n```"}
        return {"contents": plain if self.has_plain_hovers else marked, "range": text.range(token.start, token.end)}

    def definition(self, params: dict[str, Any]) -> dict[str, Any] | None:
        """The place at which a name is declared."""
        uri = params["textDocument"]["uri"]
        text = self.documents[uri].text
        found = text.definition_at(text.character(params["position"]))
        return found and {"uri": uri, "range": text.range(found[1].token.start, found[1].token.end)}

    # Notifications

    def open(self, params: dict[str, Any]) -> None:
        given = params["textDocument"]
        uri, language = given["uri"], language_of(given["uri"], given.get("languageId", ""))
        self.close(params)
        self.documents[uri] = Document(uri, Text(given["text"], language), given.get("version"))
        self.start(self.documents[uri])

    def change(self, params: dict[str, Any]) -> None:
        given = params["textDocument"]
        document = self.documents[given["uri"]]
        document.text = Text(params["contentChanges"][-1]["text"], document.text.language)
        document.version = given.get("version")
        self.start(document)

    def close(self, params: dict[str, Any]) -> None:
        document = self.documents.pop(params["textDocument"]["uri"], None)
        if document:
            self.stop(document)
            self.publish(document, [])

    # Checks

    async def find(self) -> Kat:
        """The program. That there is none is shown once, and not each time that a text is checked."""
        try:
            return Kat(await find(self.given), self.seconds)
        except NoProgram as why:
            if str(why) != self.failure:
                self.failure = str(why)
                self.send({"method": "window/showMessage", "params": {"type": ERROR_MESSAGE, "message": f"kat: {why}"}})
            raise

    async def found_program(self) -> Kat:
        """The program, which is looked for again after it was not found."""
        if self.kat is None or (self.kat.done() and (self.kat.cancelled() or self.kat.exception())):
            self.kat = asyncio.create_task(self.find())
        return await asyncio.shield(self.kat)

    def stop(self, document: Document) -> None:
        """Ends the check of an older text, with its calls."""
        if document.check:
            document.check.cancel()

    def start(self, document: Document) -> None:
        self.stop(document)
        document.check = asyncio.create_task(self.checked(document))

    async def checked(self, document: Document) -> None:
        """Checks the text of a document; a fault of the server is logged and ends this check only."""
        try:
            await asyncio.sleep(DELAY)
            kat = await self.found_program()
            with tempfile.TemporaryDirectory(prefix="kat-lsp-") as folder:
                await self.decide(document, kat, Path(folder))
        except NoProgram:
            self.publish(document, [])
        except OSError as why:
            self.log(str(why))

    async def decide(self, document: Document, kat: Kat, folder: Path) -> None:
        """Decides all goals, and publishes their answers as they come."""
        text = document.text
        goals = [answers.Goal(kat, folder, text, number) for number in answers.numbers(text)]
        calls = [asyncio.create_task(it.answer()) for it in goals]
        try:
            _, pending = await asyncio.wait(calls, timeout=PATIENCE)
            self.publish(document, self.listed(text, goals, calls))
            while pending:
                _, pending = await asyncio.wait(pending, return_when=asyncio.FIRST_COMPLETED)
                self.publish(document, self.listed(text, goals, calls))
        finally:
            for call in calls:
                call.cancel()
            await asyncio.gather(*calls, return_exceptions=True)

    @staticmethod
    def listed(text: Text, goals: list[answers.Goal], calls: list[asyncio.Task[answers.Diagnostic]]) -> list[answers.Diagnostic]:
        """The answers that are there, in the order of the goals, and where none is there yet, that it is awaited."""
        found = [call.result() if call.done() else goal.at("undecided", "undecided so far") for goal, call in zip(goals, calls)]
        return answers.without_doubles([*found, *answers.too_many(text)])

    def publish(self, document: Document, found: list[answers.Diagnostic]) -> None:
        version = {} if document.version is None else {"version": document.version}
        self.send({"method": "textDocument/publishDiagnostics", "params": {"uri": document.uri, **version, "diagnostics": found}})
