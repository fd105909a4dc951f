"""Which diagnostics a client was sent, and what it is sent next: none is older than its text."""

from collections.abc import Callable, Iterable, Mapping, Sequence
from pathlib import Path

from pdsuite.lsp.diagnostics import ERROR, Diagnostic, diagnostics_of
from pdsuite.lsp.documents import Document, path_of_uri, uri_of_path
from pdsuite.lsp.features import SenderSession
from pdsuite.lsp.json_values import Json
from pdsuite.lsp.positions import DocumentLines
from pdsuite.lsp.toml_positions import diagnostic_of_fault
from pdsuite.lsp.workspace import Result, path_if_settings_uri
from pdsuite.packetdrill.layout import layout_of
from pdsuite.packetdrill.lines import Extent
from pdsuite.scripts.config import LONGEST
from pdsuite.scripts.text import UnfitTextError, read_regular_file_up_to_limit

_METHOD = "textDocument/publishDiagnostics"
# The tag of what is shown dimmed.
_UNNECESSARY = 1


class Publisher:
    """Publishes diagnostics, and keeps the last ones of each URI; a file without diagnostics needs no entry.

    `documents` has what is open; `has_related` says whether the client shows what belongs to a diagnostic elsewhere,
    and `has_tags` whether it dims one.
    """

    def __init__(self, notify: Callable[[str, object], None], documents: Mapping[str, Document]) -> None:
        self.has_related = False
        self.has_tags = False
        self._mark = ""
        self._notify = notify
        self._documents = documents
        self._published: dict[str, list[Json]] = {}
        self._uris: dict[str, str] = {}
        self._faulty: set[str] = set()  # the settings files that have faults
        self._session: SenderSession | None = None

    def publish_results(self, session: SenderSession, changed: Iterable[str], mark: str = "") -> None:
        """Sends what came of scripts that changed, with a mark if there is one, and the faults of settings files."""
        self._mark = mark
        for path in dict.fromkeys([*changed, *self._switch_session_and_list_stale_paths(session)]):
            result = session.workspace.results.get(path)
            uri = session.workspace.open_uri_of(path) or _uri_of_path_or_uri(path)
            before = self._uris.pop(path, uri)
            if before != uri:
                self._send_if_changed(before, [], None)
            if result is None:
                self._send_if_changed(uri, [], None)
                continue
            self._uris[path] = uri
            if uri in self._documents:
                self._publish_open_script_if_same_version(session, self._documents[uri], result)
            else:
                self._publish_script_file(uri, result)
        self._publish_settings_faults(session.workspace.settings_faults(), session.workspace.uris_of_open_settings)

    def _switch_session_and_list_stale_paths(self, session: SenderSession) -> list[str]:
        """The scripts of what ran before, where that is something else, which this doesn't follow."""
        if session is self._session:
            return []
        self._session = session
        return [path for path in self._uris if path not in session.workspace.results]

    def publish_syntax_faults_without_sender(self, reason: str) -> None:
        """Sends the faults of open texts that are no scripts, as far as the client's own reader knows."""
        for uri, document in self._documents.items():
            fault = None if path_if_settings_uri(uri) else layout_of(document.text).fault
            found = (
                []
                if fault is None
                else [_syntax_diagnostic(document, fault.place, f"{fault.words}; nothing was run: {reason}")]
            )
            self._send_if_changed(
                uri, [self._diagnostic_json(uri, document.lines, it) for it in found], document.version
            )

    def clear_closed_document_unless_file_follows(self, uri: str, has_file: bool) -> None:
        """Takes back the diagnostics of a text that is closed, unless its file has that URI and comes next."""
        path = path_of_uri(uri)
        if path is None or uri_of_path(path) != uri or not has_file:
            self._send_if_changed(uri, [], None)

    def _publish_open_script_if_same_version(self, session: SenderSession, document: Document, result: Result) -> None:
        if result.version != document.version:
            return  # the next one comes at once
        found = session.features.diagnostics(document, result)
        diagnostics = [
            self._mark_diagnostic_of_stale_sender(self._diagnostic_json(document.uri, document.lines, it))
            for it in found
        ]
        self._published[document.uri] = diagnostics
        self._notify(_METHOD, {"uri": document.uri, "version": document.version, "diagnostics": diagnostics})

    def _publish_script_file(self, uri: str, result: Result) -> None:
        octets = b"" if result.text is None else result.text.octets
        text = octets.decode("utf-8", "surrogateescape")
        lines = DocumentLines(text)
        found = diagnostics_of(result.outcome, result.cause, layout_of(text), lines) if result.has_diagnostics else ()
        self._send_if_changed(
            uri, [self._mark_diagnostic_of_stale_sender(self._diagnostic_json(uri, lines, it)) for it in found], None
        )

    def _mark_diagnostic_of_stale_sender(self, diagnostic: Json) -> Json:
        """A diagnostic that says first whose it is, where its sender doesn't stand; dimmed where the client can."""
        if not self._mark:
            return diagnostic
        marked = {**diagnostic, "message": f"{self._mark.strip()} {diagnostic['message']}"}
        return {**marked, "tags": [_UNNECESSARY]} if self.has_tags else marked

    def _publish_settings_faults(self, faults: Mapping[Path, Sequence[str]], places: Mapping[Path, str]) -> None:
        by_uri = {places.get(path) or uri_of_path(str(path)): (path, lines) for path, lines in faults.items()}
        for uri in [*by_uri, *(self._faulty - by_uri.keys())]:
            path, fault_lines = by_uri.get(uri, (Path(), ()))
            document = self._documents.get(uri)
            lines = (
                document.lines
                if document is not None
                else DocumentLines(_read_settings_text(path) if fault_lines else "")
            )
            version = None if document is None else document.version
            self._send_if_changed(
                uri, [self._diagnostic_json(uri, lines, diagnostic_of_fault(it, lines)) for it in fault_lines], version
            )
        self._faulty = set(by_uri)

    def _diagnostic_json(self, uri: str, lines: DocumentLines, it: Diagnostic) -> Json:
        return it.as_json(uri, lines, self.has_related)

    def _send_if_changed(self, uri: str, found: list[Json], version: int | None) -> None:
        """Sends the diagnostics of a text, where they are others."""
        if self._published.get(uri, []) == found:
            return
        if found:
            self._published[uri] = found
        else:
            del self._published[uri]
        params: Json = {"uri": uri, "diagnostics": found}
        self._notify(_METHOD, params if version is None else {**params, "version": version})


def _uri_of_path_or_uri(path: str) -> str:
    """The URI of a script's path, which is one itself where the script has no file."""
    return uri_of_path(path) if path.startswith("/") else path


def _read_settings_text(path: Path) -> str:
    try:
        return read_regular_file_up_to_limit(path, LONGEST).decode("utf-8", "replace")
    except UnfitTextError:
        return ""


def _syntax_diagnostic(document: Document, place: int, words: str) -> Diagnostic:
    line = document.lines.line_of(min(place, len(document.text)))
    end = max(place, document.lines.line_end(line))
    return Diagnostic(Extent(min(place, len(document.text)), end), ERROR, "syntax", words)
