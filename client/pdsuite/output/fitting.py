"""Text that fits a terminal: lines of words and facts are broken at blanks, and those that one pastes stay whole."""

import re
import textwrap

from pdsuite.output.styled_text import StyledText

# The lines that begin so hold words and facts, which nobody pastes.
_PROSE = re.compile(r" +(?=(?:state(?: of the sender \w+)?|reason|rule|expected|found|runs|mend): )")
_INDENT = "    "
_LEAST = 20


def columns_without_autowrap(width: int) -> int:
    """How long a line may be on a terminal of so many columns, so that none begins another one after it."""
    return max(_LEAST, width - 1)


def wrap_prose_in_styled_text(text: StyledText, columns: int) -> StyledText:
    """The text, whose lines of words and facts are broken at blanks where they don't fit."""
    pieces = [
        ("".join(_wrap_line_if_prose(line, columns) for line in it.splitlines(True)), style)
        for it, style in text.pieces
    ]
    return StyledText(pieces)


def wrap_with_hanging_indent(line: str, columns: int, indent: str = _INDENT) -> str:
    """A line broken at blanks; the lines after its first one are indented."""
    lines = textwrap.wrap(line, columns, subsequent_indent=indent, break_long_words=False, break_on_hyphens=False)
    return "\n".join(lines)


def _wrap_line_if_prose(line: str, columns: int) -> str:
    found = _PROSE.match(line)
    return line if found is None else f"{wrap_with_hanging_indent(line, columns, f'{found[0]}  ')}\n"
