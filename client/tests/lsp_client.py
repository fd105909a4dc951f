"""A client that plays an editor: it starts `pdsuite lsp`, sends what editors send, and keeps what it gets."""

import itertools
import os
import subprocess
import threading
import time
from collections.abc import Callable, Iterator, Mapping, Sequence
from pathlib import Path
from typing import Any

import pytest
from pylsp_jsonrpc.streams import JsonRpcStreamReader, JsonRpcStreamWriter

from pdsuite.lsp.documents import Document, parse_position, uri_of_path
from tests.helpers import HANGS, TOP
from tests.lsp_scripts import ROOT

Json = dict[str, Any]
CAPABILITIES: Json = {
    "workspace": {"workspaceEdit": {"documentChanges": True}},
    "textDocument": {
        "publishDiagnostics": {"relatedInformation": True, "versionSupport": True},
        "completion": {"completionItem": {"snippetSupport": True}},
    },
    "window": {"showDocument": {"support": True}},
}


class RequestRefusedError(Exception):
    """That the server answered a request by an error."""

    def __init__(self, error: Json) -> None:
        super().__init__(error["message"])
        self.code: int = error["code"]


class LspClient:
    """A started server, the texts that are open in this client, and what the server has sent it."""

    def __init__(
        self,
        programs: Path | None,
        *roots: Path,
        words: Sequence[str] = (),
        can: Json | None = None,
        pdsuite: Path = TOP / "pdsuite",
        there: Mapping[str, str] | None = None,
    ) -> None:
        environment = {**(os.environ if there is None else there), "PDSUITE_PROGRAMS": str(programs)}
        if programs is None:
            del environment["PDSUITE_PROGRAMS"]
        self._roots = roots
        self._can = CAPABILITIES if can is None else can
        self.process = subprocess.Popen(
            [pdsuite, "lsp", *words],
            env=environment,
            stdin=subprocess.PIPE,
            stdout=subprocess.PIPE,
            stderr=subprocess.PIPE,
        )
        self.documents: dict[str, Document] = {}
        self.diagnostics: dict[str, tuple[int | None, list[Json]]] = {}
        self.stale: list[str] = []
        self.shown: list[str] = []
        self.logged: list[str] = []
        self.progress: list[Json] = []
        self.requests: list[Json] = []
        self.refused: list[int] = []
        self.times: dict[str, float] = {}
        self._answers: dict[int, Json] = {}
        self._numbers = itertools.count(1)
        self._changed = threading.Condition()
        assert self.process.stdin is not None and self.process.stdout is not None
        self._writer = JsonRpcStreamWriter(self.process.stdin)
        self._reader = threading.Thread(target=JsonRpcStreamReader(self.process.stdout).listen, args=(self._receive,))
        self._reader.start()

    def __enter__(self) -> "LspClient":
        folders = [{"uri": uri_of_path(str(it)), "name": it.name} for it in self._roots]
        params = {"processId": os.getpid(), "capabilities": self._can, "rootUri": None, "workspaceFolders": folders}
        self.offered = self.request("initialize", params)["capabilities"]
        self.notify("initialized", {})
        return self

    def __exit__(self, *error: object) -> None:
        self.process.kill()
        self.process.wait()
        self._reader.join()
        for pipe in (self.process.stdin, self.process.stderr):
            if pipe is not None:
                try:
                    pipe.close()
                except BrokenPipeError:
                    pass

    # ---- messages

    def notify(self, method: str, params: object) -> None:
        """Notifies the server of something."""
        self._writer.write({"jsonrpc": "2.0", "method": method, "params": params})

    def send_request(self, method: str, params: object) -> int:
        """Sends the server a request; its number."""
        number = next(self._numbers)
        self._writer.write({"jsonrpc": "2.0", "id": number, "method": method, "params": params})
        return number

    def answer(self, number: int) -> Any:
        """The answer to a request."""
        self.wait(lambda: number in self._answers, f"an answer to request {number}")
        answer = self._answers.pop(number)
        if "error" in answer:
            raise RequestRefusedError(answer["error"])
        return answer["result"]

    def request(self, method: str, params: object) -> Any:
        """Sends the server a request, and waits for the answer."""
        return self.answer(self.send_request(method, params))

    def end(self) -> int:
        """Has the server end as editors do; its status."""
        self.request("shutdown", None)
        self.notify("exit", None)
        return self.process.wait(HANGS)

    def wait(self, happened: Callable[[], bool], what: str) -> None:
        """Waits until the server has sent something."""
        until = time.monotonic() + HANGS
        with self._changed:
            while not happened():
                assert self._changed.wait(max(0.0, until - time.monotonic())), f"{what} didn't come"
                assert self.process.poll() is None or happened(), f"it ended with status {self.process.returncode}"

    # ---- texts

    def open(self, path: Path, text: str | None = None, version: int = 1) -> str:
        """Opens a file, with the text that it holds or another one; its URI."""
        uri = uri_of_path(str(path))
        document = Document(uri, version, path.read_bytes().decode() if text is None else text)
        self.documents[uri] = document
        item = {"uri": uri, "languageId": "packetdrill", "version": version, "text": document.text}
        self.notify("textDocument/didOpen", {"textDocument": item})
        return uri

    def change(self, uri: str, *changes: Json) -> None:
        """Changes a text, in one notification."""
        document = self.documents[uri]
        self.documents[uri] = document.with_changes(document.version + 1, changes)
        identifier = {"uri": uri, "version": document.version + 1}
        self.notify("textDocument/didChange", {"textDocument": identifier, "contentChanges": list(changes)})

    def put(self, uri: str, text: str) -> None:
        """Puts another text in place of one."""
        self.change(uri, {"text": text})

    def close(self, uri: str) -> None:
        """Closes a text."""
        del self.documents[uri]
        self.notify("textDocument/didClose", {"textDocument": {"uri": uri}})

    def settled(self, uri: str) -> list[Json]:
        """The diagnostics of a text as it stands, once they are sent."""
        version = self.documents[uri].version
        self.wait(lambda: self.diagnostics.get(uri, (None, []))[0] == version, f"diagnostics of {uri} {version}")
        return self.diagnostics[uri][1]

    def wait_diagnostics(self, uri: str, happened: Callable[[list[Json]], bool], what: str) -> list[Json]:
        """The diagnostics of a file, once they are as they are waited for."""
        self.wait(lambda: happened(self.diagnostics.get(uri, (None, []))[1]), what)
        return self.diagnostics[uri][1]

    def at(self, uri: str, line: int, character: int) -> Json:
        """The words of a request about a place."""
        return {"textDocument": {"uri": uri}, "position": {"line": line, "character": character}}

    def actions(self, uri: str, line: int) -> list[Json]:
        """The actions that are offered in a line."""
        span = {"start": {"line": line, "character": 0}, "end": {"line": line, "character": 0}}
        params = {"textDocument": {"uri": uri}, "range": span, "context": {"diagnostics": []}}
        found: list[Json] = self.request("textDocument/codeAction", params)
        return found

    def acted(self, uri: str, action: Json) -> str:
        """The text that an action makes of an open one."""
        (change,) = action["edit"]["documentChanges"]
        document = self.documents[uri]
        assert change["textDocument"] == {"uri": uri, "version": document.version}
        edits = sorted(
            change["edits"], key=lambda it: document.lines.offset_of(parse_position(it["range"]["start"])), reverse=True
        )
        return document.with_changes(
            document.version, [{"range": it["range"], "text": it["newText"]} for it in edits]
        ).text

    # ---- what the server sends

    def _receive(self, message: Json) -> None:
        with self._changed:
            method = message.get("method")
            if method is None and message["id"] is None:
                self.refused.append(message["error"]["code"])
            elif method is None:
                self._answers[message["id"]] = message
            elif "id" in message:
                self.requests.append(message)
                self._writer.write({"jsonrpc": "2.0", "id": message["id"], "result": None})
            elif method == "textDocument/publishDiagnostics":
                self._take(message["params"])
            elif method == "window/showMessage":
                self.shown.append(message["params"]["message"])
            elif method == "$/progress":
                self.progress.append(message["params"])
            elif method == "window/logMessage":
                self.logged.append(message["params"]["message"])
            self._changed.notify_all()

    def _take(self, params: Json) -> None:
        uri, version = params["uri"], params.get("version")
        before = self.diagnostics.get(uri, (None, []))[0]
        if version is not None and before is not None and version < before:
            self.stale.append(uri)
        self.diagnostics[uri] = version, params["diagnostics"]
        self.times[uri] = time.monotonic()


def span(first: int, start: int, last: int, end: int) -> Json:
    """A range, by the lines and columns of its ends."""
    return {"start": {"line": first, "character": start}, "end": {"line": last, "character": end}}


@pytest.fixture
def workspace(tmp_path: Path) -> Path:
    """An empty workspace."""
    top = tmp_path / "top"
    top.mkdir()
    (top / "pdsuite.toml").write_bytes(ROOT)
    return top


@pytest.fixture
def client(recording_programs: Path, workspace: Path) -> Iterator[LspClient]:
    """A client with that workspace."""
    with LspClient(recording_programs, workspace) as started:
        yield started
