"""A text that is open in an editor, and what changes make of it."""

import os
from collections.abc import Iterable
from dataclasses import dataclass, field
from urllib.parse import quote, unquote_to_bytes, urlsplit

from pdsuite.lsp.json_values import (
    Json,
    MalformedMessageError,
    nested_member_or_none,
    require_member,
    require_nonnegative_integer_member,
    require_text_member,
)
from pdsuite.lsp.positions import DocumentLines, Position
from pdsuite.scripts.text import ScriptText, UnfitTextError, make_newline_ended_text_within_limits

_FILE = "file"
_SAFE = "/-._~!$&'()*+,;=:@"


@dataclass(frozen=True)
class Document:
    """An open text with its version; it counts in place of its file."""

    uri: str
    version: int
    text: str
    lines: DocumentLines = field(init=False, repr=False, compare=False)

    def __post_init__(self) -> None:
        object.__setattr__(self, "lines", DocumentLines(self.text))

    @property
    def octets(self) -> bytes:
        """The text as a file would hold it."""
        return self.text.encode("utf-8", "surrogatepass")

    def script_text_or_reason(self) -> ScriptText | str:
        """The text as a script, or why it can't be run."""
        try:
            return make_newline_ended_text_within_limits(self.octets)
        except UnfitTextError as unfit:
            return str(unfit)

    def with_changes(self, version: int, changes: Iterable[object]) -> "Document":
        """The text after changes, each of which counts from what those before it left."""
        lines = self.lines
        for change in changes:
            lines = DocumentLines(_apply_change(lines, change))
        return Document(self.uri, version, lines.text)


def document_from_item(item: object) -> Document:
    """The document that a client opens."""
    version = nested_member_or_none(item, "version")
    return Document(
        require_text_member(item, "uri"), version if isinstance(version, int) else 0, require_text_member(item, "text")
    )


def parse_position(value: object) -> Position:
    """A position of the protocol."""
    return Position(
        require_nonnegative_integer_member(value, "line"), require_nonnegative_integer_member(value, "character")
    )


def _apply_change(lines: DocumentLines, change: object) -> str:
    put = require_text_member(change, "text")
    span = nested_member_or_none(change, "range")
    if span is None:
        return put
    start, end = (lines.offset_of(parse_position(require_member(span, name))) for name in ("start", "end"))
    if end < start:
        raise MalformedMessageError("a range ends before it begins")
    return lines.text[:start] + put + lines.text[end:]


def path_of_uri(uri: str) -> str | None:
    """The path of a file that a URI names; None where it names something else."""
    try:
        parts = urlsplit(uri)
    except ValueError:
        return None
    if parts.scheme != _FILE or parts.netloc not in ("", "localhost"):
        return None
    path = os.fsdecode(unquote_to_bytes(parts.path))
    return path if path.startswith("/") and "\0" not in path else None


def uri_of_path(path: str) -> str:
    """The URI of a file."""
    return f"{_FILE}://{quote(os.fsencode(os.path.abspath(path)), safe=_SAFE)}"


def text_edit_json(lines: DocumentLines, start: int, end: int, put: str) -> Json:
    """An edit of a text as the protocol has it."""
    return {
        "range": {"start": lines.position_of(start).as_json(), "end": lines.position_of(end).as_json()},
        "newText": put,
    }
