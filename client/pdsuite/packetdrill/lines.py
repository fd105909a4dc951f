"""The lines of a text, and parts of it, by offsets of characters."""

import re
from bisect import bisect_right
from dataclasses import dataclass

_NEWLINE = re.compile("\n")


@dataclass(frozen=True, slots=True)
class Extent:
    """A part of a text, by offsets of characters."""

    start: int
    end: int

    def __contains__(self, offset: int) -> bool:
        """Whether a place lies in it or at its end."""
        return self.start <= offset <= self.end


class TextLines:
    """A text cut at its newlines. A carriage return by itself ends no line, as in scripts."""

    def __init__(self, text: str) -> None:
        self.text = text
        self._starts = [0, *(it.end() for it in _NEWLINE.finditer(text))]

    @property
    def line_count(self) -> int:
        """How many lines there are; after a last newline comes an empty one."""
        return len(self._starts)

    def line_start(self, line: int) -> int:
        """Where a line begins; past the last line, the end of the text."""
        return self._starts[line] if line < len(self._starts) else len(self.text)

    def line_end(self, line: int) -> int:
        """Where a line ends, before its newline."""
        return self._starts[line + 1] - 1 if line + 1 < len(self._starts) else len(self.text)

    def line_content(self, line: int) -> str:
        """A line without its end, be that a newline or a carriage return too."""
        return self.text[self.line_start(line) : self.line_end(line)].removesuffix("\r")

    def line_of(self, offset: int) -> int:
        """The line that a place lies in."""
        return bisect_right(self._starts, offset) - 1

    def line_extent_after_indent(self, line: int) -> Extent:
        """The part of a line between its first blanks and its end; of a blank line, all of it."""
        content = self.line_content(line)
        start = self.line_start(line)
        indent = len(content) - len(content.lstrip(" \t"))
        return Extent(start + (indent if indent < len(content) else 0), start + len(content))
