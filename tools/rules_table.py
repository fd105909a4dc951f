#!/usr/bin/env python3
"""Prints the tables of rules in docs/RULES.md, by client/pdsuite/rules/rules.toml.

  tools/rules_table.py

Below the title of each group stand the sections of docs/SENDER.md that have names of the group; a name that no section
has is refused. `tests/documents.py --write` puts the tables in place.
"""

import re
import sys
import tomllib
from collections.abc import Iterator, Mapping
from pathlib import Path

TOP = Path(__file__).resolve().parents[1]
RULES = TOP / "client/pdsuite/rules/rules.toml"
PAGE = TOP / "docs/SENDER.md"
NAME = re.compile(r"`((?:rfc\d+|own)\.[a-z0-9.-]+)`")


def section_titles_by_name(page: str) -> dict[str, str]:
    """The title of the section of a page that has each name."""
    sections = (it.partition("\n") for it in page.split("\n## ")[1:])
    return {name: title for title, _, text in sections for name in NAME.findall(text)}


def section_link(title: str) -> str:
    return f"[{title}](SENDER.md#{title.lower().replace(' ', '-')})"


def lines_of_group(title: str, rules: Mapping[str, str], sections: Mapping[str, str]) -> Iterator[str]:
    """The title of a group, its sections, and its table."""
    links = ", ".join(map(section_link, dict.fromkeys(sections[name] for name in rules)))
    yield f"### {title}\n\nSENDER.md: {links}.\n\n| rule | words |\n|---|---|\n"
    yield from (f"| `{name}` | {words} |\n" for name, words in rules.items())


def main() -> int:
    """Prints the tables."""
    groups = tomllib.loads(RULES.read_text(encoding="utf-8"))
    sections = section_titles_by_name(PAGE.read_text(encoding="utf-8"))
    lacking = [name for rules in groups.values() for name in rules if name not in sections]
    if lacking:
        print(f"rules_table: docs/SENDER.md has no {', '.join(lacking)}", file=sys.stderr)
        return 1
    print("\n".join("".join(lines_of_group(title, rules, sections)) for title, rules in groups.items()), end="")
    return 0


if __name__ == "__main__":
    sys.exit(main())
