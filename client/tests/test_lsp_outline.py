"""The language server's outline of comments, and its words on settings, calls and flags by the documents."""

from pdsuite.lsp import doc_lookup
from pdsuite.lsp.comments import whole_line_comment_blocks_of, comment_foldings_of, section_symbols_of
from pdsuite.lsp.completion import (
    completion_items,
    proposals_for_expected,
    proposals_for_every_setting_key,
    typed_word_start,
)
from pdsuite.lsp.positions import DocumentLines
from pdsuite.lsp.toml_positions import diagnostic_of_fault, key_at_line
from pdsuite.scripts.defaults import KEYS

SCRIPT = """// Sets up,
// slowly.

0 socket("//", ..., 0) = 3 // no section
/* The
 * rest */
+0 bind(3, ..., ...) = 0
  /* one */ // two
+0 listen(3, 1) = 0 /*
 */
//
// last
"""


def test_blocks_are_comments_of_lines_of_their_own() -> None:
    assert [(it.first, it.last) for it in whole_line_comment_blocks_of(DocumentLines(SCRIPT))] == [
        (0, 1),
        (4, 5),
        (10, 11),
    ]


def test_a_section_goes_to_the_next_one() -> None:
    found = section_symbols_of(DocumentLines(SCRIPT))
    assert [it["name"] for it in found] == ["Sets up,", "The", "last"]
    assert [(it["range"]["start"]["line"], it["range"]["end"]["line"]) for it in found] == [(0, 3), (4, 9), (10, 12)]
    assert section_symbols_of(DocumentLines("0 a() = 1\n")) == [] and section_symbols_of(DocumentLines("")) == []


def test_only_several_lines_are_folded() -> None:
    assert [(it["startLine"], it["endLine"]) for it in comment_foldings_of(DocumentLines(SCRIPT))] == [
        (0, 1),
        (4, 5),
        (10, 11),
    ]
    assert comment_foldings_of(DocumentLines("// one\n0 a() = 1\n// two\n")) == []


def test_comments_stand_up_to_where_no_token_begins() -> None:
    assert [(it.first, it.last) for it in whole_line_comment_blocks_of(DocumentLines("// a\n\x01\n// b\n"))] == [(0, 0)]
    assert whole_line_comment_blocks_of(DocumentLines("/* never closed\n// x\n")) == []


def test_the_documents_have_each_key_call_and_field() -> None:
    assert all(f"**{key}**" in doc_lookup.doc_of_setting(key) for key in KEYS)
    assert "64 to 65,495 octets; 1,460" in doc_lookup.doc_of_setting("mss")
    for call in ("socket", "bind", "listen", "accept", "setsockopt", "fcntl", "write", "close"):
        assert doc_lookup.doc_of_call(call).startswith(f"`{call}(")
    assert doc_lookup.doc_of_call("setsockopt").count("`setsockopt(") == 2
    assert all(
        doc_lookup.doc_of_packet_field_or_script_header(it)
        for it in ("flags", "seq", "ack", "win", "options", "header")
    )
    assert (
        doc_lookup.doc_of_call("connect")
        == doc_lookup.doc_of_packet_field_or_script_header("time")
        == doc_lookup.doc_of_setting("root")
        == ""
    )


def test_what_is_expected_becomes_proposals() -> None:
    labels = [
        it.label for it in proposals_for_expected(["`ack`", "letters of flags", "the name of a call", "a time", "`<`"])
    ]
    assert labels[0] == "ack" and labels[-1] == "<"
    assert {"S", "P.", "write", "+0", "handshake", "sack"} <= set(labels)


def test_proposals_take_the_place_of_the_word_that_is_typed() -> None:
    lines = DocumentLines("// \U0001f980 \n+0 wri")
    assert typed_word_start(lines.text, len(lines.text)) == len(lines.text) - 3
    (item,) = [
        it
        for it in completion_items(list(proposals_for_expected(["the name of a call"])), lines, 11, False)
        if it["label"] == "write"
    ]
    assert item["textEdit"]["range"]["start"] == {"line": 1, "character": 3}
    assert item["textEdit"]["newText"] == "write(4, ..., 1000) = 1000"


def test_a_number_is_proposed_by_nothing() -> None:
    assert (
        completion_items(
            list(proposals_for_expected(["a whole number up to 4,294,967,295"])), DocumentLines("x"), 1, True
        )
        == []
    )


def test_snippets_are_plain_where_the_client_has_none() -> None:
    each = list(proposals_for_expected(["a time"]))
    with_stops, without = (completion_items(each, DocumentLines(""), 0, it, "\r\n") for it in (True, False))
    assert "${1:32792}" in with_stops[0]["textEdit"]["newText"]
    assert all("$" not in it["textEdit"]["newText"] for it in without)
    assert without[0]["textEdit"]["newText"].startswith("0 socket(..., SOCK_STREAM, IPPROTO_TCP) = 3\r\n+0 bind")


def test_an_editor_sorts_proposals_as_they_come() -> None:
    items = completion_items(list(proposals_for_every_setting_key()), DocumentLines(""), 0, True)
    assert len(items) > 10 and sorted(items, key=lambda it: str(it["sortText"])) == items


def test_keys_are_proposed_with_their_defaults() -> None:
    assert [it.put for it in proposals_for_every_setting_key()][0] == "mss = ${1:1460}"


def test_the_place_of_a_fault_of_settings() -> None:
    lines = DocumentLines('root = true\nmss = 10\n\n["a.pkt"]\n  sack = 7\n["b.pkt"]\nmss = \n')
    places = {
        "mss: BadValue: it takes 64 to 65,495 octets": "mss = 10",
        'sack: BadValue (["a.pkt"]): it takes true or false': "sack = 7",
        '["b.pkt"]: no script of this name is beside the file': '["b.pkt"]',
        "no TOML: Invalid value (at line 7, column 7)": "mss = ",
        "no TOML: Invalid value (at line 2, column 7)": "10",
        "something else": "root = true",
    }
    for fault, words in places.items():
        extent = diagnostic_of_fault(fault, lines).extent
        assert lines.text[extent.start : extent.end] == words, fault
    assert [key_at_line(lines, it) for it in (0, 2, 3, 4)] == ["root", None, None, "sack"]
