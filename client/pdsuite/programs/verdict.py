"""A script's row: its verdict, with a number and a word."""

from dataclasses import dataclass
from enum import StrEnum


class Verdict(StrEnum):
    """The verdict on a script: the program's, or why it gave none."""

    PASS = "pass"
    FAIL = "fail"
    SYNTAX = "syntax"
    UNSUPPORTED = "unsupported"
    LIMIT = "limit"
    ERROR = "error"
    NOT_RUN = "not run"


@dataclass(frozen=True, slots=True)
class Row:
    """A verdict with its number (the events of a pass, else the line) and a word.

    The word is the kind of a fail, or the reason of an error, which is safe to print.
    """

    verdict: Verdict
    number: int = 0
    word: str = ""

    @property
    def line(self) -> int | None:
        """The line of the script that the row is about."""
        return None if self.verdict in _WITHOUT_LINE else self.number

    def __str__(self) -> str:
        """The verdict in the words of the program's row, without name and line."""
        verdict = str(self.verdict.value)
        if self.verdict is Verdict.PASS:
            return f"{verdict} {self.number}"
        if self.verdict is Verdict.ERROR:
            return f"{verdict}: {self.word}"
        return f"{verdict} {self.word}" if self.word else verdict

    @property
    def whole_text_without_name(self) -> str:
        """The row as the program says it, without the script's name."""
        if self.line is None:
            return str(self)
        return f"{self.verdict.value} {self.number} {self.word}" if self.word else f"{self.verdict.value} {self.number}"


_WITHOUT_LINE = (Verdict.PASS, Verdict.ERROR, Verdict.NOT_RUN)
