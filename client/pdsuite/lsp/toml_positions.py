"""A pdsuite.toml as a text: where its keys stand, and which part of it a fault is about."""

import re

from pdsuite.lsp.diagnostics import ERROR, Diagnostic
from pdsuite.lsp.positions import DocumentLines
from pdsuite.packetdrill.lines import Extent
from pdsuite.scripts.toml_places import find_toml_places, find_key_in_toml_line

_AT = re.compile(r"\(at line (\d+), column (\d+)\)")
# The names in a fault: a key at its begin, and the script whose table it stands in.
_NAMED = re.compile(r'(?P<key>[^:\[\]]+): .*?(?:\(\["(?P<table>.*?)"\]\)|$)', re.DOTALL)
_TABLE_NAMED = re.compile(r'\["?(?P<table>.*?)"?\]: ')


def diagnostic_of_fault(fault: str, lines: DocumentLines) -> Diagnostic:
    """The diagnostic of a fault, whose words are those of a run without the file's name."""
    return Diagnostic(_extent_of_fault(fault, lines), ERROR, "settings", fault)


def key_at_line(lines: DocumentLines, line: int) -> str | None:
    """The key that a line gives a value."""
    return find_key_in_toml_line(lines.line_content(line))


def _extent_of_fault(fault: str, lines: DocumentLines) -> Extent:
    if found := _AT.search(fault):
        line = min(int(found[1]), lines.line_count) - 1
        start = min(lines.line_start(line) + int(found[2]) - 1, lines.line_end(line))
        return (
            Extent(start, lines.line_end(line))
            if start < lines.line_end(line)
            else lines.line_extent_after_indent(line)
        )
    if found := _TABLE_NAMED.match(fault):
        return _extent_of_table_or_key_line(found["table"], "", lines)
    if found := _NAMED.match(fault):
        return _extent_of_table_or_key_line(found["table"] or "", found["key"], lines)
    return lines.line_extent_after_indent(0)


def _extent_of_table_or_key_line(table: str, key: str, lines: DocumentLines) -> Extent:
    """The line that begins a table or gives its key a value; the first where none does."""
    return lines.line_extent_after_indent((find_toml_places("", lines.text).line_of_key_or_table(table, key) or 1) - 1)
