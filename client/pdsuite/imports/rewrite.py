"""A text in which pieces are replaced: by lines, and comments after them that keep what stood there and say why."""

import re
from collections.abc import Iterable, Sequence
from dataclasses import dataclass

_REST = re.compile(r"[ \t\r]*(?:\n|\Z)")
_BLANKS = re.compile(r"[ \t]*")


@dataclass(frozen=True, slots=True)
class Rewrite:
    """The replacement of a piece of a text: lines, if any, and then comments."""

    start: int
    end: int
    lines: tuple[str, ...]
    comments: tuple[str, ...]


def apply_rewrites(text: str, rewrites: Iterable[Rewrite]) -> str:
    """The text with all pieces replaced; they stand in the order of their places."""
    parts: list[str] = []
    place = 0
    for it in rewrites:
        parts.append(text[place : it.start])
        indent = indent_if_only_blanks_before_place(text, it.start)
        lines = [*it.lines, *it.comments]
        parts.append("\n".join([lines[0], *(indent + line for line in lines[1:])]))
        if not _REST.match(text, it.end):
            parts.append("\n")
        place = it.end
    parts.append(text[place:])
    return "".join(parts)


def indent_if_only_blanks_before_place(text: str, place: int) -> str:
    """The blanks that the line of a place begins with, where nothing else stands before it."""
    begin = text.rfind("\n", 0, place) + 1
    found = _BLANKS.match(text, begin, place)
    return found[0] if found and found.end() == place else ""


def comments_keeping_old_text_and_reasons(mark: str, old: str, reasons: Sequence[str]) -> tuple[str, ...]:
    """Comments that keep a piece, line by line, and then say why."""
    return (*(f"// {mark}: {line}" for line in old.split("\n")), *(f"// why: {it}" for it in reasons))
