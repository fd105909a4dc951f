"""Which settings of a changed sender have another default, and where that is written down."""
from __future__ import annotations

import re
from collections.abc import Iterator
from dataclasses import dataclass
from pathlib import Path

FIELDS = "crates/pd_settings/src/settings.rt"
DEFAULTS = re.compile(r"pub fn new\(\) -> Settings\b.*?\n {8}Settings \{\n(.*?)\n {8}\}", re.DOTALL)
FIELD = re.compile(r"^ +(\w+): (.+),$", re.MULTILINE)
# Where a default stands: in a table, among the items of a man page, and in the client.
PLACES = (
    ("docs/SETTINGS.md", "| `{key}` |"),
    ("packaging/man/pdregress.h2m", ".B {key}"),
    ("client/pdsuite/scripts/defaults.py", '    "{key}": '),
)


@dataclass(frozen=True)
class ChangedDefault:
    """A setting with another default: the place in the sources, its line, and both values as they are written there."""

    key: str
    line: int
    before: str
    after: str

    @property
    def place(self) -> str:
        """Where it stands in the sources."""
        return f"{FIELDS}:{self.line}"


def parse_setting_defaults_with_lines(text: str) -> dict[str, tuple[int, str]]:
    """The defaults of the sources, each with its line.

    >>> text = "    pub fn new() -> Settings\\n    {\\n        Settings {\\n            a: 1_000,\\n        }\\n    }"
    >>> parse_setting_defaults_with_lines(text)
    {'a': (4, '1_000')}
    """
    found = DEFAULTS.search(text)
    if found is None:
        return {}
    first = text.count("\n", 0, found.start(1)) + 1
    return {it[1]: (first + found[1].count("\n", 0, it.start()), it[2]) for it in FIELD.finditer(found[1])}


def changed_defaults(before: Path, tree: Path) -> Iterator[ChangedDefault]:
    """The settings of both trees whose defaults differ."""
    old, new = (
        parse_setting_defaults_with_lines((it / FIELDS).read_text(encoding="utf-8")) if (it / FIELDS).is_file() else {}
        for it in (before, tree)
    )
    for key, (line, value) in new.items():
        if key in old and old[key][1] != value:
            yield ChangedDefault(key, line, old[key][1], value)


def find_lines_stating_default_of_setting(key: str, tree: Path) -> Iterator[tuple[str, int]]:
    """The files of a tree that say a setting's default, each with the line."""
    for name, begin in PLACES:
        file = tree / name
        lines = file.read_text(encoding="utf-8").split("\n") if file.is_file() else []
        yield from (
            (name, number)
            for number, line in enumerate(lines, 1)
            if _starts_with_or_equals_if_man_macro(line, begin.format(key=key))
        )


def _starts_with_or_equals_if_man_macro(line: str, begin: str) -> bool:
    """Whether a line begins so; an item of a man page is all of its line."""
    return line == begin if begin.startswith(".") else line.startswith(begin)
