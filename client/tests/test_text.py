"""Which files are texts of scripts."""

import os
import socket
from pathlib import Path

import pytest

from pdsuite.scripts.text import ScriptText, UnfitTextError, make_newline_ended_text_within_limits, read_text


@pytest.mark.parametrize(
    ("octets", "text"),
    [
        (b"", ScriptText(b"", 0)),
        (b"\n", ScriptText(b"\n", 1)),
        (b"a", ScriptText(b"a\n", 1)),
        (b"a\n", ScriptText(b"a\n", 1)),
        (b"a\nb", ScriptText(b"a\nb\n", 2)),
        (b"a\r\nb\r", ScriptText(b"a\r\nb\r\n", 2)),
    ],
)
def test_a_last_line_counts_with_and_without_its_newline(octets: bytes, text: ScriptText) -> None:
    assert make_newline_ended_text_within_limits(octets) == text


FITS = [b"x\n" * 4_096, b"x\n" * 4_095 + b"x", b"\n" * 4_096]
FITS += [b"x" * 65_535, b"x" * 65_535 + b"\n", b"x" * 65_535 + b"\r\n", b"x" * 65_535 + b"\r"]
FITS += [b"x" * 15 + b"\r\n", (b"x" * 15 + b"\r\n") * 4_096]


@pytest.mark.parametrize("octets", FITS, ids=range(len(FITS)))
def test_the_largest_texts_fit(octets: bytes, tmp_path: Path) -> None:
    (tmp_path / "a.pkt").write_bytes(octets)
    assert read_text(str(tmp_path / "a.pkt")) == make_newline_ended_text_within_limits(octets)


LARGER = [
    (b"x\n" * 4_097, "more than 4,096 lines"),
    (b"x\n" * 4_096 + b"x", "more than 4,096 lines"),
    (b"x" * 65_536, "more than 65,536 octets"),
    (b"x" * 65_536 + b"\n", "more than 65,536 octets"),
    (b"x" * 65_535 + b"\r\r\n", "more than 65,536 octets"),
    (b"x" * 65_535 + b"\n\n", "more than 65,536 octets"),
    (b"x" * 10_000_000, "more than 65,536 octets"),
    ((b"x" * 15 + b"\r\n") * 4_095 + b"x" * 17, "more than 65,536 octets"),
]


@pytest.mark.parametrize(("octets", "reason"), LARGER, ids=range(len(LARGER)))
def test_larger_texts_do_not(octets: bytes, reason: str, tmp_path: Path) -> None:
    (tmp_path / "a.pkt").write_bytes(octets)
    with pytest.raises(UnfitTextError, match=reason):
        read_text(str(tmp_path / "a.pkt"))


def test_only_regular_files_are_read(tmp_path: Path) -> None:
    os.mkfifo(tmp_path / "pipe.pkt")
    (tmp_path / "folder.pkt").mkdir()
    (tmp_path / "round.pkt").symlink_to("round.pkt")
    (tmp_path / "dangling.pkt").symlink_to("nowhere")
    with socket.socket(socket.AF_UNIX) as listening:
        listening.bind(str(tmp_path / "socket.pkt"))
        reasons = {}
        for path in sorted(tmp_path.iterdir()):
            with pytest.raises(UnfitTextError) as unfit:
                read_text(str(path))
            reasons[path.stem] = str(unfit.value)
    assert reasons == {
        "dangling": "No such file or directory",
        "folder": "isn't a regular file",
        "pipe": "isn't a regular file",
        "round": "Too many levels of symbolic links",
        "socket": "No such device or address",
    }


def test_lines_are_found_by_their_number() -> None:
    text = make_newline_ended_text_within_limits(b"one\r\n\nthree")
    assert [text.find_line_by_number(it) for it in range(5)] == [None, b"one", b"", b"three", None]
