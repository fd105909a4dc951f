"""The proposals for a place: what the program expects there, with snippets where an event may begin."""

import re
from collections.abc import Iterator, Sequence
from dataclasses import dataclass

from pdsuite.lsp.documents import text_edit_json
from pdsuite.lsp.json_values import Json
from pdsuite.lsp.positions import DocumentLines
from pdsuite.scripts.defaults import KEYS, Number
from pdsuite.scripts.settings import value_as_toml

_KEYWORD, _VALUE, _SNIPPET, _FUNCTION, _PROPERTY = 14, 12, 15, 3, 10
_PLAIN, _TABSTOPS = 1, 2
# The part of a word that is typed already, before a place.
_TYPED = re.compile(r"[0-9A-Za-z_]*\Z")
# An octet that begins no token: the program says what could stand in its place.
PROBE = "\x01"

_A_TIME = "a time"
_A_CALL = "the name of a call"
_AN_ERROR = "the name of an error"
_FLAGS = "letters of flags"
_CALLS = {
    "socket": "socket(..., SOCK_STREAM, IPPROTO_TCP) = 3",
    "bind": "bind(3, ..., ...) = 0",
    "listen": "listen(3, 1) = 0",
    "accept": "accept(3, ..., ...) = 4",
    "setsockopt": "setsockopt(${1:3}, SOL_SOCKET, SO_REUSEADDR, [1], 4) = 0",
    "fcntl": "fcntl(${1:4}, F_SETFL, O_RDWR|O_NONBLOCK) = 0",
    "write": "write(4, ..., ${1:1000}) = ${1:1000}",
    "close": "close(${1:4}) = 0",
}
_ERRORS = ("EAGAIN", "EINVAL", "EPIPE", "EBADF")
_FLAG_WORDS = ("S", "S.", "P.", "F.", "FP.", "R", "R.")
_HANDSHAKE = """0 socket(..., SOCK_STREAM, IPPROTO_TCP) = 3
+0 bind(3, ..., ...) = 0
+0 listen(3, 1) = 0
+0.1 < S 0:0(0) win ${1:32792} <mss ${2:1000},sackOK,nop,nop,nop,wscale ${3:7}>
+0 > S. 0:0(0) ack 1 <...>
+0.1 < . 1:1(0) ack 1 win ${4:257}
+0 accept(3, ..., ...) = 4
$0"""
_SNIPPETS = {
    "handshake": ("a connection that is set up, and accepted as 4", _HANDSHAKE),
    "write": (
        "a call that writes, and the segment that it sends",
        "+0 write(4, ..., ${1:1000}) = ${1:1000}\n+0 > P. ${2:1}:${3:1001}(${1:1000}) ack 1\n$0",
    ),
    "ack": ("an ACK that arrives", "+0.1 < . 1:1(0) ack ${1:1001} win ${2:257}\n$0"),
    "sack": (
        "an ACK that arrives with a SACK block",
        "+0.1 < . 1:1(0) ack ${1:1} win ${2:257} <nop,nop,sack ${3:1001}:${4:2001}>\n$0",
    ),
}
_TABSTOP = re.compile(r"\$\{\d+:([^}]*)\}|\$\d+")


@dataclass(frozen=True, slots=True)
class Proposal:
    """Something that may stand at a place: its name, its kind, what is put there, and what it is."""

    label: str
    kind: int
    put: str
    detail: str = ""


def typed_word_start(text: str, offset: int) -> int:
    """Where the word begins that is typed at a place."""
    found = _TYPED.search(text[:offset])
    return offset if found is None else found.start()


def proposals_for_expected(expected: Sequence[str]) -> Iterator[Proposal]:
    """The proposals for a place where the program expects these."""
    for words in expected:
        if words == _A_TIME:
            yield from (Proposal(name, _SNIPPET, put, detail) for name, (detail, put) in _SNIPPETS.items())
            yield from (Proposal(it, _VALUE, it, _A_TIME) for it in ("+0", "+0.1", "*"))
        elif words == _A_CALL:
            yield from (Proposal(name, _FUNCTION, put) for name, put in _CALLS.items())
        elif words == _AN_ERROR:
            yield from (Proposal(it, _VALUE, it, words) for it in _ERRORS)
        elif words == _FLAGS:
            yield from (Proposal(it, _VALUE, it, words) for it in _FLAG_WORDS)
        elif words.startswith("`") and words.endswith("`") and len(words) > 2:
            yield Proposal(words[1:-1], _KEYWORD, words[1:-1])
        elif words[:1].isalpha():
            yield Proposal(words, _VALUE, "", words)


def completion_items(
    each: Sequence[Proposal], lines: DocumentLines, offset: int, takes_snippets: bool, newline: str = "\n"
) -> list[Json]:
    """Proposals as the protocol has them, in place of the word that is typed; those that put nothing are left out."""
    start = typed_word_start(lines.text, offset)
    return [
        {
            "label": it.label,
            "kind": it.kind,
            "detail": it.detail,
            "filterText": it.label,
            "sortText": f"{number:03}",
            "insertTextFormat": _TABSTOPS if takes_snippets else _PLAIN,
            "textEdit": text_edit_json(
                lines, start, offset, _snippet_or_plain_insert_text(it.put, takes_snippets, newline)
            ),
        }
        for number, it in enumerate(each)
        if it.put
    ]


def _snippet_or_plain_insert_text(put: str, takes_snippets: bool, newline: str) -> str:
    return (put if takes_snippets else _TABSTOP.sub(lambda it: it[1] or "", put)).replace("\n", newline)


def proposals_for_every_setting_key() -> Iterator[Proposal]:
    """The settings, each with its default."""
    for key, it in KEYS.items():
        value = value_as_toml(it.default)
        detail = it.accepted_values_text if isinstance(it, Number) else f"one of {it.accepted_values_text}"
        yield Proposal(key, _PROPERTY, f"{key} = ${{1:{value}}}", detail)
