"""The expectation of a script that is known not to pass: the first words of its row, and the reason."""

import re
from dataclasses import dataclass

_LINE = "[1-9][0-9]{0,5}"
# A row without the script's name, or its first words. One that passes is no such row.
_ROW = re.compile(rf"fail(?: {_LINE}(?: [a-z]+)?)?|(?:syntax|unsupported|limit)(?: {_LINE})?|error(?:: \S.*)?")
# After the words that are expected, a row ends or goes on with one of these characters.
_ENDS = ("", " ", ":")


@dataclass(frozen=True, slots=True)
class Expectation:
    """The first words of a row, and why it is known."""

    row: str
    reason: str

    def is_beginning_of_row(self, row: str) -> bool:
        """Whether a row, as the program says it without the script's name, has these words first."""
        return row.startswith(self.row) and row[len(self.row) : len(self.row) + 1] in _ENDS


def can_begin_failing_row(words: str) -> bool:
    """Whether a row that doesn't pass can have these words first."""
    return _ROW.fullmatch(words) is not None
