#!/usr/bin/env python3
"""Prints the table of settings, which stands in crates/pd_settings/specs/Rows.antt, as others have it.

  tools/settings_table.py page      the table of docs/SETTINGS.md; what stands there in its last two columns stays
  tools/settings_table.py client    the rows of client/pdsuite/scripts/defaults.py
  tools/settings_table.py man       the items of packaging/man/pdregress.h2m

`tests/documents.py --write` puts all three in place.
"""

import re
import sys
from collections.abc import Iterator
from dataclasses import dataclass
from pathlib import Path

TOP = Path(__file__).resolve().parents[1]
SPECS = TOP / "crates/pd_settings/specs"
PAGE = TOP / "docs/SETTINGS.md"
ROW = re.compile(
    r'^row_of \w+ = record \{ name = codes "(\w+)"; allowed = (\w+)(?: (\d+) (\d+))?; '
    r'unit = (?:\[\]|codes "(\w+)"); default_value = \w+ (\w+) \}$',
    re.MULTILINE,
)
WORD = re.compile(r'^(window_word|algorithm_word) (\w+) = codes "(\w+)"$', re.MULTILINE)
KIND = {"WindowRules": "window_word", "Algorithms": "algorithm_word"}
HEAD = "| key | unit | range | default | the standards' name | what it changes |\n|---|---|---|---|---|---|\n"


@dataclass(frozen=True)
class Setting:
    """A row: its key, the ends of its range and their unit or else its words, and its default."""

    key: str
    ends: tuple[int, int] | None
    unit: str
    words: tuple[str, ...]
    default: str

    @property
    def shown_range_or_words_without_unit(self) -> str:
        """The range or the words that it takes, as pages say them."""
        if self.ends:
            return f"{self.ends[0]:,} to {self.ends[1]:,}"
        return ", ".join(f"`{word}`" for word in self.words)

    @property
    def shown_default_without_unit(self) -> str:
        """The default, as pages say it."""
        return f"{int(self.default):,}" if self.ends else f"`{self.default}`"


def parse_settings_from_rows_and_words(rows: str, words: str) -> Iterator[Setting]:
    """The settings, by the texts of the rows and of the words."""
    found = WORD.findall(words)
    named = {rule: word for _, rule, word in found}
    for key, takes, least, greatest, unit, unset in ROW.findall(rows):
        ends = (int(least), int(greatest)) if least else None
        of_kind = tuple(word for kind, _, word in found if kind == KIND.get(takes))
        choice = () if ends else of_kind or ("true", "false")
        yield Setting(key, ends, unit, choice, named.get(unset, unset))


def page_table_keeping_last_two_columns(rows: list[Setting]) -> str:
    """The table of the page, with the last two columns of the page as they are."""
    lines = (line.split("|") for line in PAGE.read_text(encoding="utf-8").splitlines())
    kept = {cells[1].strip(" `"): "|".join(cells[5:7]) for cells in lines if len(cells) == 8}

    def row(it: Setting) -> str:
        unit = f" {it.unit}" if it.unit else ""
        values = f"{it.shown_range_or_words_without_unit} | {it.shown_default_without_unit}"
        return f"| `{it.key}` |{unit} | {values} |{kept.get(it.key, ' | ')}|\n"

    return HEAD + "".join(map(row, rows))


def render_client_defaults_as_python(rows: list[Setting]) -> str:
    """The same as values of Python."""

    def value(word: str) -> str:
        return word.capitalize() if word in ("true", "false") else f'"{word}"'

    def number_or_word_expression(it: Setting) -> str:
        if it.ends:
            return f'Number({int(it.default):_}, {it.ends[0]:_}, {it.ends[1]:_}, "{it.unit}")'
        words = "" if "true" in it.words else f", ({', '.join(map(value, it.words))})"
        return f"Word({value(it.default)}{words})"

    lines = (f'    "{it.key}": {number_or_word_expression(it)},\n' for it in rows)
    return f"KEYS: dict[str, Number | Word] = {{\n{''.join(lines)}}}\n"


def man_page_items(rows: list[Setting]) -> str:
    """The same as items of a man page."""
    takes = (
        (
            it,
            f"{it.shown_range_or_words_without_unit} {it.unit}"
            if it.ends
            else it.shown_range_or_words_without_unit.replace("`", ""),
        )
        for it in rows
    )
    return "".join(
        f".TP\n.B {it.key}\n{what}; {it.shown_default_without_unit.strip('`')} where nobody sets it\n"
        for it, what in takes
    )


MADE = {"page": page_table_keeping_last_two_columns, "client": render_client_defaults_as_python, "man": man_page_items}


def main(arguments: list[str]) -> int:
    """Prints the chosen table."""
    text = (SPECS / "Rows.antt").read_text(encoding="utf-8")
    rows = list(parse_settings_from_rows_and_words(text, (SPECS / "Words.antt").read_text(encoding="utf-8")))
    if len(rows) != len(re.findall(r"^row_of \w+ =", text, re.MULTILINE)):
        print("settings_table: a row isn't read; each is one line, as the others are", file=sys.stderr)
        return 1
    if len(arguments) != 1 or arguments[0] not in MADE:
        print((__doc__ or "").strip(), file=sys.stderr)
        return 2
    print(MADE[arguments[0]](rows), end="")
    return 0


if __name__ == "__main__":
    sys.exit(main(sys.argv[1:]))
