"""The lines of the documents about an option, a call, a flag or a setting."""

import re
from collections.abc import Iterator
from functools import cache
from pathlib import Path

from pdsuite.programs.locate import PACKAGE_VERSION, TOP

_PACKED_DOCS = Path("/usr/share/doc/pdregress/docs")
_ROW = re.compile(r"^\| `([^`]+)`[^|]*\|.*\|$", re.MULTILINE)
# The first words of the line of SCRIPTS.md about a field of a packet, or about the header.
_FIELDS = {
    "flags": "- Flags are ",
    "seq": "- The length is ",
    "ack": "- A packet that arrives has a window.",
    "win": "- A packet that arrives has a window.",
    "options": "- Options are, ",
    "header": "The **header** is ",
}
_LINK = re.compile(r"\[([^\]]*)\]\([^)]*\)")
_CELL = re.compile(r"(?<!\\)\|")


@cache
def _read_doc_page(name: str) -> str:
    folder = _PACKED_DOCS if PACKAGE_VERSION.exists() else TOP / "docs"
    try:
        return (folder / name).read_text(encoding="utf-8")
    except OSError:
        return ""


def doc_of_packet_field_or_script_header(name: str) -> str:
    """The line of SCRIPTS.md about a field of a packet, or about the header."""
    begin = _FIELDS.get(name)
    found = [it for it in _read_doc_page("SCRIPTS.md").splitlines() if begin and it.startswith(begin)]
    return _without_links(found[0].removeprefix("- ")) if found else ""


def doc_of_call(name: str) -> str:
    """The rows of SENDER.md about a call."""
    rows = [row for row in _table_rows("SENDER.md") if row[0].partition("(")[0] == name]
    return "\n\n".join(f"`{call}`: {_without_links(cells[0])}" for call, *cells in rows)


def doc_of_setting(key: str) -> str:
    """The row of SETTINGS.md about a key in words: its values, its default, and what it changes."""
    for name, *cells in _table_rows("SETTINGS.md"):
        if name == key and len(cells) >= 5:
            unit, takes, default, _, changes = cells[:5]
            words = f"{takes} {unit}".strip()
            return f"**{key}**: {words}; {default} if nothing is said. {_without_links(changes)}"
    return ""


def _table_rows(name: str) -> Iterator[list[str]]:
    """The rows of a page's tables: what stands between the first backquotes, and the cells after it."""
    for found in _ROW.finditer(_read_doc_page(name)):
        yield [found[1], *(it.strip() for it in _CELL.split(found[0])[2:-1])]


def _without_links(text: str) -> str:
    """A text without links."""
    return _LINK.sub(r"\1", text)
