"""The tokens of a script: the longest piece at each place, as docs/SCRIPTS.md spells them."""

import re
from collections.abc import Iterator
from dataclasses import dataclass
from enum import Enum


class TokenKind(Enum):
    """The kind of a token."""

    NUMBER = "number"
    HEX = "hexadecimal"
    WORD = "word"
    DECIMAL = "decimal"
    DOTS = "dots"
    OPTION = "option"
    STRING = "string"
    COMMAND = "command"
    CODE = "code"
    SYMBOL = "symbol"


@dataclass(frozen=True, slots=True)
class Token:
    """A token, and where it begins and ends in its text."""

    kind: TokenKind
    text: str
    start: int

    @property
    def end(self) -> int:
        return self.start + len(self.text)


class ScriptSyntaxError(Exception):
    """Why no script goes on, and at which place of the text."""

    def __init__(self, place: int, words: str, what: str = "") -> None:
        super().__init__(words)
        self.place = place
        self.words = words
        self.what = what


_GAP = re.compile(r"(?:[ \t\r\n]+|//[^\n]*|/\*.*?\*/)*", re.DOTALL)
_OPENING = re.compile(r'/\*|"|`|%\{')
_CODE = re.compile(r"%\{.*?\}%", re.DOTALL)
_COMMAND = re.compile(r"`[^`]*`")
_STRING = re.compile(r'"(?:[^"\\]|\\.)*"', re.DOTALL)
_OPTION = re.compile(r"--[0-9A-Za-z_]+(?:=[^ \t\r\n]*)?")
_DECIMAL = re.compile(r"[0-9]*\.[0-9]+")
_DOTS = re.compile(r"\.\.\.")
_LETTERS = re.compile(r"[0-9A-Za-z_]+")
_SYMBOL = re.compile(r"[!-~]")
_DIGITS = re.compile(r"[0-9]+")
_HEX = re.compile(r"0x[0-9A-Fa-f]+")

# The first that fits is the longest.
_PIECES = (
    (TokenKind.CODE, _CODE),
    (TokenKind.COMMAND, _COMMAND),
    (TokenKind.STRING, _STRING),
    (TokenKind.OPTION, _OPTION),
    (TokenKind.DECIMAL, _DECIMAL),
    (TokenKind.DOTS, _DOTS),
    (TokenKind.WORD, _LETTERS),
)
_PIECE = re.compile("|".join(f"(?P<{kind.name}>{piece.pattern})" for kind, piece in _PIECES), re.DOTALL)


def tokens_of(text: str) -> Iterator[Token]:
    """The tokens of a text, up to its end or to the first place where none fits."""
    place = _skip_gap(text, 0)
    while place < len(text):
        token = _token_at(text, place)
        yield token
        place = _skip_gap(text, token.end)


def line_number_at(text: str, place: int) -> int:
    """The line that a place of a text lies in."""
    return text.count("\n", 0, place) + 1


def _skip_gap(text: str, place: int) -> int:
    """The place after blanks and comments."""
    found = _GAP.match(text, place)
    return place if found is None else found.end()


def _token_at(text: str, place: int) -> Token:
    if found := _PIECE.match(text, place):
        kind = TokenKind[found.lastgroup or ""]
        return Token(_kind_of_number_hex_or_word(found[0]) if kind is TokenKind.WORD else kind, found[0], place)
    if _OPENING.match(text, place):
        raise ScriptSyntaxError(place, "what is opened here is never closed")
    if found := _SYMBOL.match(text, place):
        return Token(TokenKind.SYMBOL, found[0], place)
    raise ScriptSyntaxError(place, "an octet that no script has here")


def _kind_of_number_hex_or_word(letters: str) -> TokenKind:
    if _DIGITS.fullmatch(letters):
        return TokenKind.NUMBER
    return TokenKind.HEX if _HEX.fullmatch(letters) else TokenKind.WORD
