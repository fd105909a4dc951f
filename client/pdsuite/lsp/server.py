"""The server: it takes what a client sends, and sends it what came of its scripts; without a session, syntax faults."""

import os
from collections.abc import Callable, Mapping, Sequence
from dataclasses import dataclass, replace
from functools import partial
from pathlib import Path
from typing import Any

from pdsuite.compare.comparison import ComparedScript
from pdsuite.faults import Fault
from pdsuite.lsp.capabilities import (
    OFFERED,
    REGISTRATION,
    ClientCapabilities,
    client_capabilities_of,
    folders_of_uris_but_root_and_home,
)
from pdsuite.lsp.comments import comment_foldings_of, section_symbols_of
from pdsuite.lsp.diagram_page import DiagramPage
from pdsuite.lsp.documents import Document, document_from_item, parse_position, path_of_uri, uri_of_path
from pdsuite.lsp.features import DRAW, SenderSession, code_lenses, turned_scripts_between
from pdsuite.lsp.hover import strip_markdown
from pdsuite.lsp.json_values import (
    Json,
    MalformedMessageError,
    nested_member_or_none,
    require_list_member,
    require_member,
    require_text_member,
)
from pdsuite.lsp.publisher import Publisher
from pdsuite.lsp.sender_status import SenderStatus
from pdsuite.lsp.transport import CONTENT_MODIFIED, INTERNAL_ERROR, INVALID_PARAMS, INVALID_REQUEST, NOT_INITIALIZED
from pdsuite.lsp.transport import Promise, RequestError, Transport
from pdsuite.packetdrill.lines import Extent
from pdsuite.programs.locate import client_version_or_commit
from pdsuite.programs.lookup import SenderChangedError
from pdsuite.programs.program import ProgramEndedError
from pdsuite.signals import StoppedError
from pdsuite.watch.change_report import BEFORE
from pdsuite.watch.watcher import FileEvent, FileEventKind

_ERROR, _WARNING, _INFO = 1, 2, 3
_DELETED = 3
# The statuses of the protocol: after `shutdown`, and without.
DONE, FAILED = 0, 1


@dataclass
class Request:
    """A request that waits for its answer."""

    promise: Promise
    method: str
    params: object
    uri: str | None


class Server:
    """The texts and the requests of a client. `run` looks for the programs, and starts a session with them."""

    def __init__(self, run: Callable[["Server"], SenderSession]) -> None:
        self.client = ClientCapabilities()
        self.status: int | None = None
        self.session: SenderSession | None = None
        self.events: list[FileEvent] = []
        self.documents: dict[str, Document] = {}
        self.pages: dict[str, DiagramPage] = {}
        self._run = run
        self._is_initialized = False
        self._is_ready = False
        self._is_shut_down = False
        self._pending: list[Request] = []
        self._shown_fault = ""
        self._is_awaiting = False
        self._turned: Callable[[], Sequence[ComparedScript]] | None = None
        self._transport: Transport | None = None
        self._publisher: Publisher | None = None
        self._sender_status: SenderStatus | None = None

    # ---- how it is used

    @property
    def is_ready(self) -> bool:
        """Whether a client has begun, and not ended."""
        return self._is_ready and not self._is_shut_down

    def attach_transport(self, transport: Transport) -> None:
        """Takes the transport that its messages come by."""
        self._transport = transport
        self._publisher = Publisher(transport.notify, self.documents)
        self._sender_status = SenderStatus(transport.notify, transport.request_ignoring_answer)

    @property
    def sender_status(self) -> SenderStatus:
        """The status of the sender, as the client is shown it."""
        assert self._sender_status is not None
        return self._sender_status

    @property
    def transport(self) -> Transport:
        """The streams."""
        assert self._transport is not None
        return self._transport

    def message_handlers(self) -> Mapping[str, Callable[[Any], Any]]:
        """The handler of each message, by its method."""
        requests: dict[str, Callable[[Any], Any]] = {
            method: self._handler_deferring_request(method) for method in (*_ANSWERS, "workspace/executeCommand")
        }
        return {
            **requests,
            "initialize": self._initialize,
            "initialized": self._mark_ready_and_register_watching,
            "shutdown": self._note_shutdown_request,
            "exit": self._note_exit,
            "textDocument/didOpen": self._open_document,
            "textDocument/didChange": self._change_document,
            "textDocument/didSave": self._begin_missing_session_at_save,
            "textDocument/didClose": self._close_document,
            "workspace/didChangeWatchedFiles": self._note_changed_files,
            "workspace/didChangeWorkspaceFolders": self._change_root_folders_and_restart,
        }

    def begin_session_or_show_fault_once(self) -> None:
        """Looks for the programs, and begins with what is open; where they aren't there, says so once."""
        before, self.session = self.session, None
        self._is_awaiting = False
        try:
            self.session = self._run(self)
        except Fault as fault:
            if self._shown_fault != str(fault):
                self._shown_fault = str(fault)
                self.show_message(_ERROR, f"pdsuite: {fault}")
                self.publish_syntax_faults_without_sender()
            return
        for document in self.documents.values():
            self.session.workspace.put_document(document)
        self._turned = None if before is None else partial(turned_scripts_between, before, self.session)

    def drop_session_until_sender_is_built(self, reason: str) -> None:
        """Sends what is known without a sender, while one is built or can't be."""
        self.session, self._is_awaiting = None, True
        if self._shown_fault != reason:
            self._shown_fault = reason
            self.publish_syntax_faults_without_sender()

    @property
    def are_results_behind_texts(self) -> bool:
        """Whether a text has changed since its results were worked out."""
        return self.session is not None and self.session.workspace.are_results_outdated

    def rerun_and_publish(self, events: list[FileEvent], now: float, is_at_rest: bool) -> None:
        """Has run again what changed, and sends the client what came of it."""
        if self.session is None or self._publisher is None:
            return
        reported, self.events = [*events, *self.events], []
        changed = self.session.workspace.rerun_changes_and_list_changed_results(reported, now, is_at_rest)
        if changed and self.transport.has_messages:
            self.transport.dispatch_messages_noting_end()
        if self.sender_status.take_resend_flag():
            changed = list(dict.fromkeys([*changed, *self.session.workspace.results]))
        self._publisher.publish_results(
            self.session, changed, BEFORE if self.sender_status.are_all_results_of_former_sender else ""
        )
        if self._turned is not None:
            turned, self._turned = self._turned, None
            self.sender_status.show_turned_scripts(turned())
        if changed and self.client.refreshes_lenses:
            self.transport.request_ignoring_answer("workspace/codeLens/refresh", None)

    def answer_next_request(self) -> bool:
        """Answers the request that waits longest; whether one did."""
        while self._pending:
            request = self._pending.pop(0)
            if not request.promise.done():
                self._answer_request(request)
                return True
        return False

    def open_drawn_pages(self) -> None:
        """Has pages opened that are drawn."""
        for uri, it in list(self.pages.items()):
            if it.read_output_and_has_ended():
                del self.pages[uri]
                self._show_drawn_page(it)

    def log_line(self, line: str) -> None:
        """Logs something that people may look up."""
        self.transport.notify("window/logMessage", {"type": _WARNING, "message": line})

    def show_message(self, kind: int, line: str) -> None:
        """Shows people something at once."""
        self.transport.notify("window/showMessage", {"type": kind, "message": line})

    def publish_syntax_faults_without_sender(self) -> None:
        """Sends the faults of texts that are no scripts, as far as that is known without a program."""
        if self._publisher is not None:
            self._publisher.publish_syntax_faults_without_sender(self._shown_fault)

    # ---- the client's life

    def _initialize(self, params: object) -> Json:
        if self._is_initialized:
            raise RequestError("it is initialized already", INVALID_REQUEST)
        self._is_initialized = True
        self.client = client_capabilities_of(params)
        if self._publisher is not None:
            self._publisher.has_related = self.client.has_related
            self._publisher.has_tags = self.client.has_tags
        if self._sender_status is not None:
            self._sender_status.takes_progress = self.client.takes_progress
        return {"capabilities": OFFERED, "serverInfo": {"name": "pdsuite", "version": client_version_or_commit()}}

    def _mark_ready_and_register_watching(self, params: object) -> None:
        self._is_ready = True
        if self.client.watches:
            self.transport.request_ignoring_answer("client/registerCapability", REGISTRATION)

    def _note_shutdown_request(self, params: object) -> None:
        self._is_shut_down = True

    def _note_exit(self, params: object) -> None:
        self.status = DONE if self._is_shut_down else FAILED

    # ---- texts

    def _open_document(self, params: object) -> None:
        self._store_document_and_refuse_pending(document_from_item(require_member(params, "textDocument")))

    def _change_document(self, params: object) -> None:
        item = require_member(params, "textDocument")
        document = self._require_document(require_text_member(item, "uri"))
        version = nested_member_or_none(item, "version")
        changes = require_list_member(params, "contentChanges")
        self._store_document_and_refuse_pending(
            document.with_changes(version if isinstance(version, int) else document.version + 1, changes)
        )

    def _store_document_and_refuse_pending(self, document: Document) -> None:
        self._refuse_requests_about(document.uri)
        self.documents[document.uri] = document
        if self.session is not None:
            self.session.workspace.put_document(document)
        elif self._shown_fault:
            self.publish_syntax_faults_without_sender()

    def _begin_missing_session_at_save(self, params: object) -> None:
        if self.session is None and self._is_initialized and not self._is_awaiting:
            self.begin_session_or_show_fault_once()

    def _close_document(self, params: object) -> None:
        uri = require_text_member(require_member(params, "textDocument"), "uri")
        self._refuse_requests_about(uri)
        if self.documents.pop(uri, None) is not None and self.session is not None:
            self.session.workspace.close_document(uri)
            self.session.features.forget_document(uri)
        if self._publisher is not None:
            self._publisher.clear_closed_document_unless_file_follows(uri, has_file=self.session is not None)

    def _refuse_requests_about(self, uri: str) -> None:
        """Gives up requests about a text that is another now."""
        for request in self._pending:
            if request.uri == uri:
                request.promise.answer_error_unless_done(CONTENT_MODIFIED, "the text has changed")

    def _require_document(self, uri: str) -> Document:
        if uri not in self.documents:
            raise MalformedMessageError(f"{uri} isn't open")
        return self.documents[uri]

    def _note_changed_files(self, params: object) -> None:
        for change in require_list_member(params, "changes"):
            path = path_of_uri(require_text_member(change, "uri"))
            if path is not None:
                folder, name = os.path.split(path)
                kind = FileEventKind.GONE if nested_member_or_none(change, "type") == _DELETED else FileEventKind.CLOSED
                self.events.append(FileEvent(kind, os.path.realpath(folder), name))

    def _change_root_folders_and_restart(self, params: object) -> None:
        event = require_member(params, "event")
        gone = folders_of_uris_but_root_and_home(
            [require_text_member(it, "uri") for it in nested_member_or_none(event, "removed") or []]
        )
        new = folders_of_uris_but_root_and_home(
            [require_text_member(it, "uri") for it in nested_member_or_none(event, "added") or []]
        )
        roots = dict.fromkeys([*(it for it in self.client.roots if it not in gone), *new])
        self.client = replace(self.client, roots=tuple(roots))
        if self.session is not None:
            self.begin_session_or_show_fault_once()

    # ---- requests

    def _handler_deferring_request(self, method: str) -> Callable[[Any], Any]:
        def wait(params: object) -> Promise:
            if not self._is_initialized or self._is_shut_down:
                code = INVALID_REQUEST if self._is_initialized else NOT_INITIALIZED
                raise RequestError("it isn't initialized, or shut down", code)
            promise = Promise()
            uri = nested_member_or_none(params, "textDocument", "uri")
            self._pending.append(Request(promise, method, params, uri if isinstance(uri, str) else None))
            return promise

        return wait

    def _answer_request(self, request: Request) -> None:
        try:
            if request.method == "workspace/executeCommand":
                self._start_drawing(request.params)
                request.promise.answer_unless_done(None)
            else:
                document = self._require_document(
                    require_text_member(require_member(request.params, "textDocument"), "uri")
                )
                found = _ANSWERS[request.method](self, document, request.params)
                if self.session is not None:
                    self.session.sender.require_unchanged()
                request.promise.answer_unless_done(found)
        except SenderChangedError:
            request.promise.answer_error_unless_done(CONTENT_MODIFIED, "the sender has changed")
            raise
        except MalformedMessageError as malformed:
            request.promise.answer_error_unless_done(INVALID_PARAMS, str(malformed))
        except (ProgramEndedError, Fault) as fault:
            request.promise.answer_error_unless_done(INTERNAL_ERROR, str(fault))
        except StoppedError:
            raise
        except Exception as error:
            request.promise.answer_error_unless_done(INTERNAL_ERROR, f"{type(error).__name__}: {error}")

    def _answer_hover(self, document: Document, params: object) -> Json | None:
        if self.session is None:
            return None
        result = self.session.workspace.find_result_if_up_to_date(document.uri)
        found = self.session.features.hover(document, result, parse_position(require_member(params, "position")))
        if found is None:
            return None
        mark = self.sender_status.unproved_or_stale_sender_mark.strip(" ()")
        words = "\n\n".join(it for it in (found.words, mark, found.rules) if it)
        kind = "markdown" if self.client.takes_markdown else "plaintext"
        shown = words if self.client.takes_markdown else strip_markdown(words)
        return {"contents": {"kind": kind, "value": shown}, "range": document.lines.range_json(found.extent)}

    def _answer_code_actions(self, document: Document, params: object) -> list[Json]:
        span = require_member(params, "range")
        start, end = (document.lines.offset_of(parse_position(require_member(span, it))) for it in ("start", "end"))
        if self.session is None or (result := self.session.workspace.find_result_if_up_to_date(document.uri)) is None:
            return []
        only = nested_member_or_none(params, "context", "only")
        offers = self.session.features.actions_tested_to_lead_past_failure(document, result, Extent(start, end))
        found = nested_member_or_none(params, "context", "diagnostics")
        return [
            {
                "title": f"{it.action.title}{BEFORE if self.sender_status.are_all_results_of_former_sender else ''}",
                "kind": it.action.kind,
                "diagnostics": found if isinstance(found, list) else [],
                "isPreferred": number == 0,
                "edit": self._workspace_edit(document, it.edits),
            }
            for number, it in enumerate(offers)
            if not isinstance(only, list) or any(_is_action_kind_within(it.action.kind, kind) for kind in only)
        ]

    def _workspace_edit(self, document: Document, edits: list[Json]) -> Json:
        if not self.client.takes_versions:
            return {"changes": {document.uri: edits}}
        text = {"uri": document.uri, "version": document.version}
        return {"documentChanges": [{"textDocument": text, "edits": edits}]}

    def _answer_lenses(self, document: Document, params: object) -> list[Json]:
        if self.session is None:
            return []
        if self.session.workspace.find_results_key_of_open_uri(document.uri) is None:
            return []
        return code_lenses(
            document.uri,
            self.session.workspace.find_result_if_up_to_date(document.uri),
            self.sender_status.unproved_or_stale_sender_mark,
        )

    def _answer_symbols(self, document: Document, params: object) -> list[Json]:
        return section_symbols_of(document.lines)

    def _answer_foldings(self, document: Document, params: object) -> list[Json]:
        return comment_foldings_of(document.lines)

    def _answer_completion(self, document: Document, params: object) -> list[Json]:
        if self.session is None:
            return []
        result = self.session.workspace.find_result_if_up_to_date(document.uri)
        position = parse_position(require_member(params, "position"))
        return self.session.features.completion(document, result, position, self.client.takes_snippets)

    # ---- drawing

    def _start_drawing(self, params: object) -> None:
        command, words = require_text_member(params, "command"), nested_member_or_none(params, "arguments")
        if command != DRAW or not isinstance(words, list) or len(words) != 1 or not isinstance(words[0], str):
            raise MalformedMessageError(f"{DRAW} takes a URI")
        document = self._require_document(words[0])
        result = None if self.session is None else self.session.workspace.find_result_if_up_to_date(document.uri)
        if self.session is None or result is None or result.text is None:
            raise Fault("nothing was run that could be drawn")
        if self.sender_status.are_all_results_of_former_sender:
            raise Fault("the sender has changed: what would be drawn is of the one before")
        if document.uri in self.pages:
            self.pages.pop(document.uri).close()
        self.pages[document.uri] = DiagramPage(result, self.session.sender)

    def _show_drawn_page(self, drawn: DiagramPage) -> None:
        if drawn.fault:
            self.show_message(_WARNING, f"pdsuite: {drawn.fault}")
        if drawn.page.exists():
            if self.client.shows_documents:
                self.transport.request_ignoring_answer(
                    "window/showDocument", {"uri": uri_of_path(str(drawn.page)), "external": True}
                )
            else:
                self.show_message(_INFO, f"pdsuite: drawn in {drawn.page}")


def _is_action_kind_within(kind: str, wanted: object) -> bool:
    return isinstance(wanted, str) and (wanted == "" or kind == wanted or kind.startswith(f"{wanted}."))


def first_root_or_working_folder(client: ClientCapabilities) -> Path:
    """The folder in which texts count that have no file."""
    return client.roots[0] if client.roots else Path.cwd()


_ANSWERS: Mapping[str, Callable[[Server, Document, object], Any]] = {
    "textDocument/hover": Server._answer_hover,
    "textDocument/codeAction": Server._answer_code_actions,
    "textDocument/codeLens": Server._answer_lenses,
    "textDocument/documentSymbol": Server._answer_symbols,
    "textDocument/foldingRange": Server._answer_foldings,
    "textDocument/completion": Server._answer_completion,
}
