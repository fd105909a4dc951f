"""Lines about sources as diagnostics at the places that they name, taken back once they aren't printed any more."""

import re
from collections.abc import Callable, Mapping, Sequence

from pdsuite.lsp.diagnostics import ERROR, SOURCE
from pdsuite.lsp.documents import uri_of_path
from pdsuite.lsp.json_values import Json

# A line about a place; columns count from 1.
_PLACED = re.compile(r"(?P<path>/[^:]+\.(?:rt|antt)):(?P<line>\d+):(?P<column>\d+): (?P<said>.*)")
# The begin of a line that ./prove prints about a whole crate.
_OF_CRATE = "prove: "


class SourceDiagnostics:
    """The diagnostics that were published last, by the URIs of sources."""

    def __init__(self, notify: Callable[[str, object], None]) -> None:
        self._notify = notify
        self._published: Mapping[str, list[Json]] = {}

    def publish_changed_source_diagnostics(self, lines: Sequence[str]) -> None:
        """Publishes these lines, where they are others."""
        found = parse_diagnostics_by_source_uri(lines)
        for uri in dict.fromkeys([*found, *self._published]):
            if found.get(uri) != self._published.get(uri):
                self._notify("textDocument/publishDiagnostics", {"uri": uri, "diagnostics": found.get(uri, [])})
        self._published = found


def parse_diagnostics_by_source_uri(lines: Sequence[str]) -> Mapping[str, list[Json]]:
    """The diagnostics of lines, by the URIs of sources; a line without a place is of the one above."""
    found: dict[str, list[Json]] = {}
    last: Json | None = None
    for line in lines:
        if placed := _PLACED.fullmatch(line.strip()):
            last = _diagnostic_to_line_end(int(placed["line"]), int(placed["column"]), placed["said"])
            found.setdefault(uri_of_path(placed["path"]), []).append(last)
        elif line.startswith(_OF_CRATE):
            last = None
        elif last is not None:
            last["message"] += f"\n{line}"
    return found


def _diagnostic_to_line_end(line: int, column: int, message: str) -> Json:
    """A diagnostic from a place to the end of its line."""
    row = max(0, line - 1)
    span = {"start": {"line": row, "character": max(0, column - 1)}, "end": {"line": row + 1, "character": 0}}
    return {"range": span, "severity": ERROR, "source": SOURCE, "message": message}
