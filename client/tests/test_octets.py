"""How octets are shown."""

import os
from pathlib import Path

import pytest

from pdsuite.output.octets import printable_octets, printable_path


@pytest.mark.parametrize(
    ("octets", "text"),
    [
        (b"", ""),
        (b"a b~", "a b~"),
        (b"a\\b", r"a\\b"),
        (b"a\x1b[2J", r"a\x1b[2J"),
        (b"\n\r\t\x00\x7f", r"\x0a\x0d\x09\x00\x7f"),
        (b"\xff\xc3", r"\xff\xc3"),
        ("grün 日本".encode(), "grün 日本"),
        ("\x85\u2028\u202e\u200b".encode(), r"\xc2\x85\xe2\x80\xa8\xe2\x80\xae\xe2\x80\x8b"),
        (b"\xed\xa0\x80", r"\xed\xa0\x80"),
        (rb"\xff", r"\\xff"),
        (rb"$\frac{$", r"$\\frac{$"),
    ],
)
def test_what_is_no_printable_text_stands_in_hexadecimals(octets: bytes, text: str) -> None:
    assert printable_octets(octets) == text


def test_no_two_texts_are_shown_alike() -> None:
    pairs = [bytes([a, b]) for a in range(256) for b in range(256)]
    texts = {printable_octets(it) for it in pairs}
    assert len(texts) == len(pairs)
    assert all(it.isprintable() for it in texts)


def test_further_characters_can_be_named() -> None:
    assert printable_octets(b"a # SKIP\\", also="#") == r"a \x23 SKIP\\"


@pytest.mark.parametrize("octet", [b"a", b"\x01", b"\xff", b"\\", "ü".encode(), "日".encode()])
@pytest.mark.parametrize("count", [40, 50, 66, 67, 100, 101, 199, 200, 201, 70_000])
def test_a_long_text_is_cut_between_signs(octet: bytes, count: int) -> None:
    text = printable_octets(octet * count, 200)
    whole = printable_octets(octet * count)
    if len(whole.encode()) <= 200:
        assert text == whole
    else:
        assert text.endswith("...") and whole.startswith(text[:-3])
        assert 200 - len(printable_octets(octet).encode()) < len(text.encode()) <= 200


def test_a_path_is_shown_by_its_octets() -> None:
    assert printable_path(Path(os.fsdecode(b"a/\xffb\n.pkt"))) == r"a/\xffb\x0a.pkt"
