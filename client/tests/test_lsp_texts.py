"""Open texts of the language server: positions in UTF-16, changes, URIs, and where the parts of a script stand."""

import pytest

from pdsuite.lsp.documents import Document, document_from_item, path_of_uri, uri_of_path
from pdsuite.lsp.json_values import MalformedMessageError
from pdsuite.lsp.positions import DocumentLines, Position
from pdsuite.packetdrill.layout import layout_of

CRAB = "\U0001f980"


def change(start: tuple[int, int], end: tuple[int, int], text: str) -> dict[str, object]:
    """A change of a part of a text."""
    place = [{"line": line, "character": character} for line, character in (start, end)]
    return {"range": {"start": place[0], "end": place[1]}, "text": text}


def changed(text: str, *changes: dict[str, object]) -> str:
    """A text after changes."""
    return Document("file:///a.pkt", 1, text).with_changes(2, changes).text


@pytest.mark.parametrize(
    "text, offset, position",
    [
        ("", 0, (0, 0)),
        ("ab\ncd", 3, (1, 0)),
        ("ab\ncd", 5, (1, 2)),
        ("ab\n", 3, (1, 0)),
        (f"// {CRAB}x\n", 5, (0, 6)),
        (f"// \u00e4{CRAB}\n{CRAB}y", 7, (1, 2)),
        ("a\r\nb", 3, (1, 0)),
        ("a\rb", 1, (0, 1)),
        ("a\rb", 2, (1, 0)),
        ("a\r\r\nb\nc", 4, (2, 0)),
        (f"{CRAB}\r{CRAB}x", 3, (1, 2)),
    ],
)
def test_a_place_and_its_position(text: str, offset: int, position: tuple[int, int]) -> None:
    lines = DocumentLines(text)
    assert lines.position_of(offset) == Position(*position)
    assert lines.offset_of(Position(*position)) == offset


def test_a_position_that_is_nowhere_is_the_nearest_one_before() -> None:
    lines = DocumentLines(f"a{CRAB}b\r\ncd\n")
    assert lines.offset_of(Position(0, 2)) == 1  # inside the crab
    assert lines.offset_of(Position(0, 99)) == 3  # before the carriage return
    assert lines.offset_of(Position(1, 99)) == 7
    assert lines.offset_of(Position(9, 0)) == len(lines.text)


def test_every_place_is_found_again() -> None:
    lines = DocumentLines(f"0 a() = 1 // {CRAB}\u00fc\u2028\n\n{CRAB}{CRAB}\r\n+0 b() = 2")
    for offset in range(len(lines.text) + 1):
        is_inside = lines.text[offset - 1 : offset + 1] == "\r\n"  # which is no position
        assert lines.offset_of(lines.position_of(offset)) == offset - is_inside


def test_changes_apply_one_after_another() -> None:
    assert changed(
        "one\ntwo\n", change((0, 0), (0, 3), "1"), change((1, 0), (1, 3), "2"), change((0, 1), (1, 0), "")
    ) == ("12\n")
    assert changed("one", {"text": "all new"}) == "all new"
    assert changed(f"{CRAB}x", change((0, 2), (0, 3), "y")) == f"{CRAB}y"
    assert changed("a\r\nb\r\n", change((0, 1), (1, 0), "\n")) == "a\nb\r\n"
    assert changed("a", change((7, 7), (9, 9), "b")) == "ab"


@pytest.mark.parametrize(
    "broken",
    [
        {},
        {"text": 1},
        {"text": "", "range": {}},
        change((0, 2), (0, 1), ""),
        {"text": "", "range": {"start": {"line": -1, "character": 0}, "end": {"line": 0, "character": 0}}},
        {"text": "", "range": {"start": {"line": True, "character": 0}, "end": {"line": 0, "character": 0}}},
    ],
)
def test_a_change_of_another_shape_is_refused(broken: dict[str, object]) -> None:
    with pytest.raises(MalformedMessageError):
        changed("abc", broken)


def test_a_text_counts_as_its_file_would() -> None:
    assert (
        document_from_item({"uri": "file:///a", "text": "0 a() = 1"}).script_text_or_reason()
        == document_from_item({"uri": "", "text": "0 a() = 1\n"}).script_text_or_reason()
    )
    assert Document("", 1, "\n" * 4_097).script_text_or_reason() == "more than 4,096 lines"
    assert Document("", 1, f"// {CRAB * 17_000}").script_text_or_reason() == "more than 65,536 octets"
    assert Document("", 1, "// \ud800\n").octets == b"// \xed\xa0\x80\n"


@pytest.mark.parametrize("path", ["/a.pkt", "/a b/\u00e4%#?&.pkt", "/\udcff/x.pkt", "/'\"<>"])
def test_a_path_and_its_uri(path: str) -> None:
    assert path_of_uri(uri_of_path(path)) == path


@pytest.mark.parametrize(
    "uri", ["", "untitled:Untitled-1", "http://x/a", "file://elsewhere/a", "file:a", "file:///%00", "//["]
)
def test_what_names_no_file_has_no_path(uri: str) -> None:
    assert path_of_uri(uri) is None


def test_the_fields_of_events() -> None:
    text = "\n".join(
        [
            "--tolerance_usecs=5000",
            "0 socket(..., (a, [b]), X) = 3 (a note)",
            "+0...0.5 write(4, ..., 10) = -1 EAGAIN",
            "+0.1 < S. 0:1(1) ack 2 win 3 <mss 4,nop>",
            "+0~+1 /* x */ >  P .  0:1 ( 1 )",
            "* > - 0:0(0) <>",
            "bad",
        ]
    )
    layout = layout_of(text)
    fields = [{name: text[it.start : it.end] for name, it in event.field_extents.items()} for event in layout.items]
    assert fields == [
        {},
        {"time": "0", "call": "socket", "arguments": "(..., (a, [b]), X)", "result": "3"},
        {"time": "+0", "call": "write", "arguments": "(4, ..., 10)", "result": "-1 EAGAIN"},
        {"time": "+0.1", "flags": "S.", "seq": "0:1(1)", "ack": "ack 2", "win": "win 3", "options": "<mss 4,nop>"},
        {"time": "+0~+1", "flags": "P .", "seq": "0:1 ( 1 )"},
        {"time": "*", "flags": "-", "seq": "0:0(0)", "options": "<>"},
    ]
    assert layout.fault is not None and layout.fault.place == text.index("bad")
    assert [it.is_expected_outbound_packet for it in layout.packets_and_calls] == [False, False, False, True, True]


def test_the_event_of_a_line_is_the_one_that_is_shown() -> None:
    layout = layout_of("0 a() = 1 +0 b(\t2) = 2\n+0 c() = 3\n")
    found = [
        layout.find_item_starting_on_line(1, "+0 b(\\x092) = 2"),
        layout.find_item_starting_on_line(1),
        layout.find_item_starting_on_line(2),
        layout.find_item_starting_on_line(3),
    ]
    assert [None if it is None else layout.text[it.item.start] for it in found] == ["+", "0", "+", None]
