"""Reads a script into its items, by the grammar of docs/SCRIPTS.md, which here takes commands and code anywhere."""

import re
from collections.abc import Sequence
from dataclasses import dataclass

from pdsuite.packetdrill.items import SECOND, Call, Code, Command, HeaderOption, Item, Packet, TcpOption, Time
from pdsuite.packetdrill.tokens import ScriptSyntaxError, Token, TokenKind, line_number_at, tokens_of

MOST_NUMBER = (1 << 32) - 1
MOST_PAIRS = 16
_FLAGS = re.compile(r"[FSRPUEWC]+")
_CLOSING = {"(": ")", "[": "]", "{": "}"}
_END = Token(TokenKind.SYMBOL, "", 0)

# The features that aren't read, by the tokens that show them.
_KNOWN = {
    "md5": "MD5",
    "FO": "Fast Open",
    "FOEXP": "Fast Open",
    "icmp": "ICMP",
    "udp": "UDP",
    "ipv4": "IP headers",
    "ipv6": "IP headers",
    "gre": "IP headers",
    "?": "the result ?",
    "[": "ECN",
    "urg": "urgent data",
    "mp_capable": "MPTCP",
}
_NO_SCRIPT = "no script of this language"
# Flags with the one that Accurate ECN adds (RFC 9768).
_ACCURATE = re.compile(r"[SFRPUEWC.]+A[SFRPUEWC.]*")


@dataclass(frozen=True)
class Reading:
    """The items of a text, up to its end or to where no script goes on."""

    items: tuple[Item, ...]
    fault: ScriptSyntaxError | None = None


def parse_items_until_syntax_error(text: str) -> Reading:
    """Reads a text as far as it is a script."""
    reader = _Reader(text)
    items: list[Item] = []
    try:
        while not reader.is_at_end():
            items.append(reader.take_item())
    except ScriptSyntaxError as unread:
        return Reading(tuple(items), unread)
    return Reading(tuple(items))


class _Reader:
    """A place among the tokens of a text; each method takes what its name says, or raises `ScriptSyntaxError`."""

    def __init__(self, text: str) -> None:
        self._text = text
        self._tokens: list[Token] = []
        self._stuck: ScriptSyntaxError | None = None
        self._at = 0
        try:
            for token in tokens_of(text):
                self._tokens.append(token)
        except ScriptSyntaxError as unread:
            self._stuck = unread

    def is_at_end(self) -> bool:
        return self._at == len(self._tokens) and self._stuck is None

    def take_item(self) -> Item:
        """An option, a command or code without a time, or an event."""
        token = self._peek_required_token()
        line = line_number_at(self._text, token.start)
        match token.kind:
            case TokenKind.OPTION:
                self._at += 1
                name, equals, value = token.text.removeprefix("--").partition("=")
                what = HeaderOption(name, value if equals else None)
                return Item(what, line, token.start, token.end, token.start)
            case TokenKind.COMMAND | TokenKind.CODE:
                self._at += 1
                return Item(_command_or_code_of_token(token), line, token.start, token.end, token.start)
        return self._take_event(token, line)

    def _take_event(self, first: Token, line: int) -> Item:
        time = self._take_time()
        action = self._peek_required_token().start
        is_blocking = self._skip_blocking_end_and_check_any()
        token = self._peek_required_token()
        match token.kind, token.text:
            case (TokenKind.COMMAND | TokenKind.CODE), _:
                self._at += 1
                what: Packet | Call | Command | Code = _command_or_code_of_token(token)
            case TokenKind.SYMBOL, ("<" | ">"):
                self._at += 1
                what = self._take_packet(token.text == "<")
            case _:
                what = self._take_call()
        return Item(what, line, first.start, self._tokens[self._at - 1].end, action, time, is_blocking)

    # ---- times

    def _take_time(self) -> Time:
        if self._take_symbol_if("*"):
            return Time(None)
        is_relative = self._take_symbol_if("+")
        first = self._take_seconds_as_microseconds(0)
        if not self._take_symbol_if("~"):
            return Time(first, None, is_relative)
        if is_relative:
            self._take_symbol_if("+")
        return Time(first, self._take_seconds_as_microseconds(first), is_relative)

    def _skip_blocking_end_and_check_any(self) -> bool:
        """Takes the end of a blocking call, where there is one."""
        if self._peek_required_token().kind is not TokenKind.DOTS:
            return False
        self._at += 1
        self._take_symbol_if("+")
        self._take_seconds_as_microseconds(0)
        return True

    def _take_seconds_as_microseconds(self, least: int) -> int:
        """Seconds as microseconds; digits after the sixth decimal are dropped."""
        token = self._peek_required_token()
        if token.kind not in (TokenKind.NUMBER, TokenKind.DECIMAL):
            raise self._syntax_error(token)
        whole, _, part = token.text.partition(".")
        seconds = _parse_number_capped(whole or "0")
        microseconds = seconds * SECOND + int(part[:6].ljust(6, "0"))
        if seconds > MOST_NUMBER or microseconds < least:
            raise self._syntax_error(token)
        self._at += 1
        return microseconds

    # ---- packets

    def _take_packet(self, is_inbound: bool) -> Packet:
        flags = self._take_flags()
        start = self._take_number_in_range()
        self._require_symbol(":")
        end = self._take_number_in_range(least=start)
        self._require_symbol("(")
        self._take_number_in_range(least=end - start, most=end - start)
        self._require_symbol(")")
        ack = self._take_named_number_if_present("ack")
        win = self._take_named_number_if_present("win")
        if win is None and is_inbound:
            raise self._syntax_error(self._peek_token_or_end())
        first = self._at
        options = self._take_options(is_inbound)
        return Packet(
            is_inbound, flags, start, end, ack, win, options, self._join_token_range_in_one_line(first, self._at)
        )

    def _take_flags(self) -> str:
        if self._take_symbol_if("-"):
            return ""
        if self._take_symbol_if("."):
            return "."
        token = self._peek_required_token()
        if token.kind is not TokenKind.WORD or not _FLAGS.fullmatch(token.text):
            raise self._syntax_error(token)
        self._at += 1
        return "".join(dict.fromkeys(token.text)) + ("." if self._take_symbol_if(".") else "")

    def _take_named_number_if_present(self, name: str) -> int | None:
        """A number after its name, where that stands here."""
        token = self._peek_token_or_end()
        if token.kind is not TokenKind.WORD or token.text != name:
            return None
        self._at += 1
        return self._take_number_in_range()

    def _take_options(self, is_inbound: bool) -> tuple[TcpOption, ...]:
        if not self._take_symbol_if("<") or self._take_symbol_if(">"):
            return ()
        if not is_inbound and self._peek_required_token().kind is TokenKind.DOTS:
            self._at += 1
            self._require_symbol(">")
            return ()
        options = [self._take_option()]
        while self._take_symbol_if(","):
            options.append(self._take_option())
        self._require_symbol(">")
        return tuple(options)

    def _take_option(self) -> TcpOption:
        token = self._peek_required_token()
        self._at += 1
        match token.text:
            case "mss" | "wscale":
                return TcpOption(token.text, (self._take_number_in_range(),))
            case "sackOK" | "nop" | "eol":
                return TcpOption(token.text)
            case "TS":
                return TcpOption("TS", (self._require_named_number("val"), self._require_named_number("ecr")))
            case "sack":
                return TcpOption("sack", self._take_sack_edges())
        self._at -= 1
        raise self._syntax_error(token)

    def _require_named_number(self, name: str) -> int:
        token = self._peek_required_token()
        if token.text != name:
            raise self._syntax_error(token)
        self._at += 1
        return self._take_number_in_range()

    def _take_sack_edges(self) -> tuple[int, ...]:
        """The edges of one block or more."""
        edges: list[int] = []
        while not edges or self._peek_token_or_end().kind is TokenKind.NUMBER:
            edges.append(self._take_number_in_range())
            self._require_symbol(":")
            edges.append(self._take_number_in_range())
        return tuple(edges)

    # ---- calls

    def _take_call(self) -> Call:
        token = self._peek_required_token()
        if token.kind is not TokenKind.WORD:
            raise self._syntax_error(token)
        self._at += 1
        self._require_symbol("(")
        arguments = self._take_arguments()
        self._require_symbol("=")
        result, error = self._take_result_and_error_name()
        if self._take_symbol_if("("):
            self._take_balanced_tokens_as_text(MOST_PAIRS - 1, parted=False)
            self._require_symbol(")")
        return Call(token.text, arguments, result, error)

    def _take_arguments(self) -> tuple[str, ...]:
        if self._take_symbol_if(")"):
            return ()
        arguments = [self._take_balanced_tokens_as_text(MOST_PAIRS, parted=True)]
        while self._take_symbol_if(","):
            arguments.append(self._take_balanced_tokens_as_text(MOST_PAIRS, parted=True))
        self._require_symbol(")")
        return tuple(arguments)

    def _take_balanced_tokens_as_text(self, most: int, parted: bool) -> str:
        """Tokens whose brackets are balanced, up to the bracket after them, or to a comma where these part them."""
        first = self._at
        closing: list[str] = []
        while closing or not self._is_at_argument_end(parted):
            token = self._peek_required_token()
            if token.kind is TokenKind.SYMBOL:
                self._open_or_close_bracket(token, closing, most)
            self._at += 1
        if parted and first == self._at:
            raise self._syntax_error(self._peek_required_token())
        return self._join_token_range_in_one_line(first, self._at)

    def _is_at_argument_end(self, parted: bool) -> bool:
        token = self._peek_required_token()
        return token.kind is TokenKind.SYMBOL and (token.text == ")" or (parted and token.text == ","))

    def _open_or_close_bracket(self, token: Token, closing: list[str], most: int) -> None:
        """Opens a pair of brackets, or closes the innermost one."""
        if token.text in _CLOSING:
            if len(closing) == most:
                raise self._syntax_error(token)
            closing.append(_CLOSING[token.text])
        elif token.text in _CLOSING.values():
            if not closing or closing.pop() != token.text:
                raise self._syntax_error(token)

    def _take_result_and_error_name(self) -> tuple[int, str | None]:
        """A result, and where it is negative the error that it may be written with."""
        if not self._take_symbol_if("-"):
            return self._take_number_in_range(also=TokenKind.HEX), None
        number = self._take_number_in_range()
        error = self._peek_token_or_end()
        if error.kind is not TokenKind.WORD:
            return -number, None
        self._at += 1
        return -number, error.text

    # ---- tokens

    def _peek_required_token(self) -> Token:
        """The token that stands here, which there has to be."""
        if self._at < len(self._tokens):
            return self._tokens[self._at]
        raise self._stuck or ScriptSyntaxError(max(len(self._text.rstrip("\n")) - 1, 0), "the script breaks off here")

    def _peek_token_or_end(self) -> Token:
        """The token that stands here, if there is one."""
        return self._tokens[self._at] if self._at < len(self._tokens) else _END

    def _take_symbol_if(self, symbol: str) -> bool:
        token = self._peek_token_or_end()
        if token.kind is not TokenKind.SYMBOL or token.text != symbol:
            return False
        self._at += 1
        return True

    def _require_symbol(self, symbol: str) -> None:
        if not self._take_symbol_if(symbol):
            raise self._syntax_error(self._peek_required_token())

    def _take_number_in_range(self, least: int = 0, most: int = MOST_NUMBER, also: TokenKind = TokenKind.NUMBER) -> int:
        token = self._peek_required_token()
        if token.kind not in (TokenKind.NUMBER, also):
            raise self._syntax_error(token)
        number = _parse_number_capped(token.text)
        if not least <= number <= most:
            raise self._syntax_error(token)
        self._at += 1
        return number

    def _syntax_error(self, token: Token) -> ScriptSyntaxError:
        if token is _END:
            return ScriptSyntaxError(max(len(self._text) - 1, 0), "the script breaks off here")
        if _ACCURATE.fullmatch(token.text):
            return ScriptSyntaxError(token.start, "AccECN", token.text)
        return ScriptSyntaxError(token.start, _KNOWN.get(token.text, _NO_SCRIPT), token.text)

    def _join_token_range_in_one_line(self, first: int, last: int) -> str:
        """Tokens in one line: a blank stands where blanks or comments stood."""
        return join_tokens_in_one_line(self._tokens[first:last])


def join_tokens_in_one_line(tokens: Sequence[Token]) -> str:
    """Tokens in one line: a blank stands where blanks or comments stood."""
    parts: list[str] = []
    for number, token in enumerate(tokens):
        if number and tokens[number - 1].end < token.start:
            parts.append(" ")
        parts.append(token.text)
    return "".join(parts)


def _parse_number_capped(digits: str) -> int:
    """The number that digits write, or one above all that a script may have."""
    if digits.startswith("0x"):
        return int(digits, 16)
    digits = digits.lstrip("0")
    return int(digits or "0") if len(digits) <= 20 else 10**20


def _command_or_code_of_token(token: Token) -> Command | Code:
    if token.kind is TokenKind.COMMAND:
        return Command(token.text[1:-1])
    return Code(token.text[2:-2])
