"""Where the tables and keys of a pdsuite.toml stand in its text: the line of each that has one of its own."""

import re
from collections.abc import Iterator, Mapping
from dataclasses import dataclass

# Comments and strings, in which something may look like a key; strings of several lines come before the others.
_HIDING = re.compile(
    r'#[^\n]*|"""(?:\\.|[^\\])*?"""|\'\'\'.*?\'\'\'|"(?:\\.|[^"\\\n])*"|\'[^\'\n]*\'',
    re.DOTALL,
)
_NAME = r"""(?:"([^"]*)"|'([^']*)'|([A-Za-z0-9_-]+))"""
# Of a key in a table without a heading, as `a.b = 1`, it is the table.
_KEY = re.compile(rf"\s*{_NAME}\s*(?:\.[^=]*)?=")
_TABLE = re.compile(rf"\s*\[\[?\s*(?:{_NAME}|([^\[\]]*?))\s*\]")
_LONG = ('"""', "'''")


@dataclass(frozen=True)
class TomlPlaces:
    """A file as people see its place, and the lines of its keys, each after its table; a table's own has no key."""

    file: str
    lines: Mapping[tuple[str, str], int]

    def line_of_key_or_table(self, table: str, key: str) -> int | None:
        """The line of a key in a table, or else of that table, if one has its own."""
        spots = ((table, key), (table or key, ""), ("", table))
        return next((self.lines[it] for it in spots if it in self.lines), None)

    def file_and_line_of_key(self, table: str = "", key: str = "") -> str:
        """`FILE:LINE` of a key in a table, or else of that table; the file alone where neither has a line."""
        line = self.line_of_key_or_table(table, key)
        return self.file if line is None else f"{self.file}:{line}"


def find_toml_places(file: str, text: str) -> TomlPlaces:
    """The places of a text that is TOML; of a name that stands twice the first."""
    lines: dict[tuple[str, str], int] = {}
    for number, table, key in _lines_of_tables_and_keys(text):
        lines.setdefault((table, key), number)
    return TomlPlaces(file, lines)


def find_key_in_toml_line(line: str) -> str | None:
    """The key that a line gives a value."""
    found = _KEY.match(line)
    return None if found is None else _first_matched_group(found)


def _lines_of_tables_and_keys(text: str) -> Iterator[tuple[int, str, str]]:
    """Each line that begins a table or gives a key its value: its number, the table, and the key if it has one."""
    table = ""
    for number, line in enumerate(_HIDING.sub(_blank_long_string_or_comment, text).split("\n"), 1):
        if found := _TABLE.match(line):
            table = _first_matched_group(found)
            yield number, table, ""
        elif found := _KEY.match(line):
            yield number, table, _first_matched_group(found)


def _blank_long_string_or_comment(found: "re.Match[str]") -> str:
    """The newlines alone of a comment or of a string in three quotes; any other string stays as it is."""
    whole = found.group()
    return "\n" * whole.count("\n") if whole.startswith((*_LONG, "#")) else whole


def _first_matched_group(found: "re.Match[str]") -> str:
    return next(it for it in found.groups() if it is not None)
