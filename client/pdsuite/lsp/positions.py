"""Places in a text as the protocol has them: lines and columns in units of UTF-16."""

import re
from bisect import bisect_right
from dataclasses import dataclass

from pdsuite.lsp.json_values import Json
from pdsuite.packetdrill.lines import Extent, TextLines

# The first character that takes two units of UTF-16.
_BEYOND = "\U00010000"
# Ends a line of the protocol, 3.17; of a script only the newline does.
_LINE_END = re.compile("\r\n|\r|\n")


@dataclass(frozen=True, slots=True, order=True)
class Position:
    """A line and a column in units of UTF-16, both counted from 0."""

    line: int
    character: int

    def as_json(self) -> Json:
        """The position as the protocol has it."""
        return {"line": self.line, "character": self.character}


class DocumentLines(TextLines):
    """The lines of a script's text, and positions in it, of which the lines are those of the protocol."""

    def __init__(self, text: str) -> None:
        super().__init__(text)
        self._is_narrow = text.isascii()
        ends = list(_LINE_END.finditer(text))
        self._begins = [0, *(it.end() for it in ends)]
        self._closes = [*(it.start() for it in ends), len(text)]

    def offset_of(self, position: Position) -> int:
        """The place at a position; one past the end of its line is that end, one inside a character its begin."""
        if position.line >= len(self._begins):
            return len(self.text)
        start, end = self._begins[position.line], self._closes[position.line]
        if self._is_narrow:
            return min(start + position.character, end)
        left = position.character
        for offset in range(start, end):
            left -= 2 if self.text[offset] >= _BEYOND else 1
            if left < 0:
                return offset
        return end

    def position_of(self, offset: int) -> Position:
        """The position of a place; that of one inside of a line's end is before that."""
        line = bisect_right(self._begins, offset) - 1
        before = self.text[self._begins[line] : min(offset, self._closes[line])]
        wide = 0 if self._is_narrow else sum(it >= _BEYOND for it in before)
        return Position(line, len(before) + wide)

    def range_json(self, extent: Extent) -> Json:
        """A part of the text as the protocol has it."""
        return {"start": self.position_of(extent.start).as_json(), "end": self.position_of(extent.end).as_json()}
