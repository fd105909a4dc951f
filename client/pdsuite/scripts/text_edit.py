"""How one text of a script becomes another: one edit of the lines that lie between equal first and equal last ones."""

from collections.abc import Iterable
from dataclasses import dataclass

from pdsuite.scripts.text import ScriptText


@dataclass(frozen=True, slots=True)
class Edit:
    """From a line on, so many lines go and others take their place. Lines count from 1."""

    first: int
    removed: int
    put: ScriptText


def edit_between(old: ScriptText, new: ScriptText) -> Edit:
    """The edit that makes the new text of the old one."""
    before, after = _lines_without_ends(old), _lines_without_ends(new)
    front = _count_equal_front(zip(before, after))
    most = min(len(before), len(after)) - front
    back = min(most, _count_equal_front(zip(reversed(before), reversed(after))))
    between = after[front : len(after) - back]
    put = ScriptText(b"".join(line + b"\n" for line in between), len(between))
    return Edit(front + 1, len(before) - front - back, put)


def _lines_without_ends(text: ScriptText) -> list[bytes]:
    """The lines, which end at the octet 10 alone."""
    return text.octets.split(b"\n")[: text.lines]


def _count_equal_front(pairs: Iterable[tuple[bytes, bytes]]) -> int:
    """How many pairs are equal before the first that isn't."""
    count = 0
    for one, other in pairs:
        if one != other:
            break
        count += 1
    return count
