"""The capabilities of the server, and those that a client has declared."""

import os
from dataclasses import dataclass
from pathlib import Path

from pdsuite.lsp.documents import path_of_uri
from pdsuite.lsp.features import DRAW
from pdsuite.lsp.json_values import Json, nested_member_or_none

_INCREMENTAL = 2
_WATCHED = "workspace/didChangeWatchedFiles"
OFFERED: Json = {
    "positionEncoding": "utf-16",
    "textDocumentSync": {"openClose": True, "change": _INCREMENTAL, "save": {"includeText": False}},
    "hoverProvider": True,
    "codeActionProvider": {"codeActionKinds": ["quickfix", "refactor.rewrite"]},
    "codeLensProvider": {"resolveProvider": False},
    "documentSymbolProvider": True,
    "foldingRangeProvider": True,
    "completionProvider": {"triggerCharacters": [" ", "<", ">", ",", "("], "resolveProvider": False},
    "executeCommandProvider": {"commands": [DRAW]},
    "workspace": {"workspaceFolders": {"supported": True, "changeNotifications": True}},
}
REGISTRATION: Json = {
    "registrations": [
        {
            "id": "pdsuite-files",
            "method": _WATCHED,
            "registerOptions": {"watchers": [{"globPattern": "**/*.pkt"}, {"globPattern": "**/pdsuite.toml"}]},
        }
    ]
}


@dataclass(frozen=True)
class ClientCapabilities:
    """The capabilities of a client, and the folders that are open in it."""

    roots: tuple[Path, ...] = ()
    watches: bool = False
    has_related: bool = False
    has_tags: bool = False
    takes_snippets: bool = False
    takes_versions: bool = False
    takes_markdown: bool = True
    shows_documents: bool = False
    refreshes_lenses: bool = False
    takes_progress: bool = False


def client_capabilities_of(params: object) -> ClientCapabilities:
    """The client that initializes the server with these."""
    can = nested_member_or_none(params, "capabilities")
    return ClientCapabilities(
        roots=tuple(_root_folders(params)),
        watches=nested_member_or_none(can, "workspace", "didChangeWatchedFiles", "dynamicRegistration") is True,
        has_related=nested_member_or_none(can, "textDocument", "publishDiagnostics", "relatedInformation") is True,
        has_tags=nested_member_or_none(can, "textDocument", "publishDiagnostics", "tagSupport") is not None,
        takes_snippets=nested_member_or_none(can, "textDocument", "completion", "completionItem", "snippetSupport")
        is True,
        takes_versions=nested_member_or_none(can, "workspace", "workspaceEdit", "documentChanges") is True,
        takes_markdown="markdown"
        in (nested_member_or_none(can, "textDocument", "hover", "contentFormat") or ["markdown"]),
        shows_documents=nested_member_or_none(can, "window", "showDocument", "support") is True,
        takes_progress=nested_member_or_none(can, "window", "workDoneProgress") is True,
        refreshes_lenses=nested_member_or_none(can, "workspace", "codeLens", "refreshSupport") is True,
    )


def _root_folders(params: object) -> list[Path]:
    folders = nested_member_or_none(params, "workspaceFolders")
    uris = (
        [nested_member_or_none(it, "uri") for it in folders]
        if isinstance(folders, list)
        else [nested_member_or_none(params, "rootUri")]
    )
    return folders_of_uris_but_root_and_home([it for it in uris if isinstance(it, str)])


def folders_of_uris_but_root_and_home(uris: list[str]) -> list[Path]:
    """The folders that these name, without those in which everything lies."""
    paths = [Path(path) for it in uris if (path := path_of_uri(it)) is not None]
    too_wide = ("/", os.path.realpath(os.path.expanduser("~")))
    return [it for it in dict.fromkeys(paths) if os.path.realpath(it) not in too_wide]
