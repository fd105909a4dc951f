"""Assertions of a script's code: which of them `pdsuite run` compares, and the comments that they become."""

import ast
import re
import textwrap
import warnings
from collections.abc import Iterator
from dataclasses import dataclass

# The values that names of Linux's tcp_info are compared with, as they are written.
_NUMBER = re.compile(r"[0-9]{1,9}")
_STATES = {
    "TCP_CA_Open": "TCP_CA_Open",
    "TCP_CA_Recovery": "TCP_CA_Recovery",
    "TCP_CA_Loss": "TCP_CA_Loss",
    "0": "TCP_CA_Open",
    "3": "TCP_CA_Recovery",
    "4": "TCP_CA_Loss",
}
_COMMENT = re.compile(r"[ \t]*// asserts (tcpi_[a-z_]+) == ([A-Za-z0-9_]+)\r?")


@dataclass(frozen=True, slots=True)
class Assertion:
    """That a name of Linux's `tcp_info` has a value."""

    name: str
    value: str

    def __str__(self) -> str:
        return f"{self.name} == {self.value}"


@dataclass(frozen=True, slots=True)
class ParsedAssertions:
    """The assertions of a code that are compared, and the rest of it, in words that are counted."""

    assertions: tuple[Assertion, ...]
    others: tuple[str, ...]


def parse_assertions(code: str) -> ParsedAssertions:
    """The assertions of a code, which is read and never run."""
    assertions: list[Assertion] = []
    others: list[str] = []
    for statement in _parse_statements(code):
        found = None if statement is None else _assertion_of_statement_if_compared(statement)
        if found is not None:
            assertions.append(found)
        else:
            others.append(_words_of_uncompared(statement))
    return ParsedAssertions(tuple(assertions), tuple(others))


def assertion_comment(assertion: Assertion) -> str:
    """The comment that stands for an assertion in an imported script."""
    return f"// asserts {assertion}"


def assertion_in_comment(line: str) -> Assertion | None:
    """The assertion that a line of an imported script has as a comment."""
    found = _COMMENT.fullmatch(line)
    return None if found is None else _assertion_if_compared(found[1], found[2])


def _parse_statements(code: str) -> Iterator[ast.stmt | None]:
    """The statements of a code, or None where it isn't read."""
    try:
        with warnings.catch_warnings():
            warnings.simplefilter("ignore")
            yield from ast.parse(textwrap.dedent(code).strip()).body
    except (SyntaxError, ValueError, RecursionError, MemoryError):
        yield None


def _assertion_of_statement_if_compared(statement: ast.stmt) -> Assertion | None:
    """The assertion of a statement `assert NAME == VALUE`, with a message or without, where it is compared."""
    match statement:
        case ast.Assert(ast.Compare(ast.Name(name), [ast.Eq()], [ast.Constant(int(number))])):
            return _assertion_if_compared(name, str(number)) if not isinstance(number, bool) else None
        case ast.Assert(ast.Compare(ast.Name(name), [ast.Eq()], [ast.Name(value)])):
            return _assertion_if_compared(name, value)
    return None


def _assertion_if_compared(name: str, value: str) -> Assertion | None:
    match name:
        case "tcpi_snd_cwnd" if _NUMBER.fullmatch(value):
            return Assertion(name, value)
        case "tcpi_unacked" if value == "0":
            return Assertion(name, value)
        case "tcpi_ca_state" if value in _STATES:
            return Assertion(name, _STATES[value])
    return None


def _words_of_uncompared(statement: ast.stmt | None) -> str:
    """The words for a statement that isn't compared: at most three names of tcp_info that it asserts, or its kind."""
    if not isinstance(statement, ast.Assert):
        return "other code"
    names = sorted({it.id for it in ast.walk(statement.test) if isinstance(it, ast.Name) and it.id.isascii()})
    tcp_info_names = [it for it in names if it.startswith("tcpi_")]
    return " and ".join(tcp_info_names[:3]) or "other assertions"
