"""The page as values and as files: what stands on it, where its files lie, and that nothing else is overwritten."""

import os
import signal
from pathlib import Path

import pytest

from pdsuite.packetdrill.columns import Mark, PacketColumns, PacketField, marked_field_columns_of_both_packets
from pdsuite.page.diagram_choice import DiagramChoice
from pdsuite.page.diagrams import undrawn_diagram_with_reason
from pdsuite.page.links import FOLDER, is_script_page_file, page_file_name_of
from pdsuite.page.page_updates import PageUpdates
from pdsuite.page.render import render_script_page
from pdsuite.page.view_model import NamedFact, PageEntry, RefusedText, ScriptView, script_view_of, table_row_of
from pdsuite.programs.protocol import Cause, UnexpectedAnswerError, parse_causes_by_script_and_line
from pdsuite.programs.verdict import Row, Verdict
from pdsuite.run.line_diff import DiffLine, LineDiff
from pdsuite.run.outcomes import ScriptOutcome
from pdsuite.scripts.text import make_newline_ended_text_within_limits
from pdsuite.signals import Stop
from tests.helpers import FAILS, PASSES, Call, write
from tests.watch_process import Watching

MARKS = {Mark.NONE: "", Mark.FAILS: "!", Mark.DIFFERS: "?"}
# The origins of packets, by their words.
ORIGINS: dict[str, Cause] = {
    "line 8": {"line": 8},
    "the timer": {"timer_us": 200_000},
    "line 8: rescue (RFC 6675)": {"line": 8, "rule": "rfc6675.next-seg.rescue", "rule_words": "rescue (RFC 6675)"},
    "the timer: an expiry": {"timer_us": 200_000, "rule": "rfc6298.expiry", "rule_words": "an expiry"},
    r"line 8: \x1b[2J": {"line": 8, "rule": "rfc9293.new-data", "rule_words": "\x1b[2J"},
}


def line(packet: PacketColumns) -> str:
    """A packet as it stands on the page, each mark after its field."""
    return "".join(f"{it.text}{MARKS[it.mark]}{' ' * it.blanks}" for it in packet)


@pytest.mark.parametrize(
    ("kind", "script", "actual", "one", "other"),
    [
        (
            "seq",
            "+0 > P. 1:501(500)   ack 1",
            "+0 > P. 1:1001(1000) ack 1 win 511 // 0.200000",
            "+0 > P. 1:501(500)!   ack 1",
            "+0 > P. 1:1001(1000)! ack 1 win 511 // 0.200000",
        ),
        (
            "flags",
            "+0.1 > .  1:501(500)   ack 2 win 5",
            "+0   > P. 1:1001(1000) ack 1 win 511 // 0.200000",
            "+0.1 > .!  1:501(500)?   ack 2? win 5?",
            "+0   > P.! 1:1001(1000)? ack 1? win 511? // 0.200000",
        ),
        (
            "time",
            "+0.1~+0.3 > P. 1:1001(1000) ack 1",
            "+0        > P. 1:1001(1000) ack 1 win 511 // 0.200000",
            "+0.1~+0.3! > P. 1:1001(1000) ack 1",
            "+0!        > P. 1:1001(1000) ack 1 win 511 // 0.200000",
        ),
        (
            "options",
            "+0 > S. 0:0(0) ack 1 <mss 1000,...>",
            "+0 > S. 0:0(0) ack 1 win 65535 <mss 1460,nop,wscale 7> // 0.100000",
            "+0 > S. 0:0(0) ack 1           <mss 1000,...>!",
            "+0 > S. 0:0(0) ack 1 win 65535 <mss 1460,nop,wscale 7>! // 0.100000",
        ),
        (
            "win",
            "* > .P 1:2(1) win 3 <...>",
            "* > P. 1:2(1) ack 1 win 4 <nop> // 0.000001",
            "* > .P 1:2(1)       win 3! <...>",
            "* > P. 1:2(1) ack 1 win 4! <nop> // 0.000001",
        ),
        ("seq", "+0 > what", "+0 > . 1:2(1)", "+0 > what", "+0 > . 1:2(1)"),
    ],
)
def test_packets_stand_in_columns_and_what_differs_is_marked(
    kind: str, script: str, actual: str, one: str, other: str
) -> None:
    assert tuple(map(line, marked_field_columns_of_both_packets(script, actual, kind))) == (one, other)


def sheet(verdict: Verdict, text: bytes, cause: Cause, number: int = 1, word: str = "") -> ScriptView:
    """The page of a script."""
    row = Row(verdict, number, word)
    named = make_newline_ended_text_within_limits(text).find_line_by_number(number) if row.line else None
    return script_view_of(
        PageEntry(ScriptOutcome("a.pkt", (), row, named), make_newline_ended_text_within_limits(text)),
        cause,
        undrawn_diagram_with_reason(row),
    )


def test_what_the_program_tells_of_a_missing_packet() -> None:
    cause = {
        "script_packet": "* > . 1:1(0) ack 1",
        "awaited_until_us": None,
        "tolerance_us": 4_000,
        "timer_us": None,
        "reason": "acknowledged",
        "reason_words": "all that was handed over is acknowledged",
        "dropped_segments": [{"line": 1, "rule": "old_ack", "rule_words": "its ACK lies below una"}],
        "untaken_packets": ["+0 > . 1:2(1) ack 1 // 0.1", "+0 > . 2:3(1) ack 1 // 0.1"],
        "untaken_sent_by": [ORIGINS["line 8: rescue (RFC 6675)"], {"timer_us": 100_000}],
        "more_untaken_packets": 2,
        "state": {"name": "ESTABLISHED", "una": 1, "flight_size": 0, "rto_us": 1_500_000, "expiry_us": None},
    }
    view = sheet(Verdict.FAIL, b"one\ntwo\n", cause, 2, "missing")
    assert [line(packet) for _, packet in view.packets] == ["* > . 1:1(0) ack 1", ""]
    assert view.reason == "all that was handed over is acknowledged"
    assert [(it.name, it.value) for it in view.facts] == [
        ("awaited until", "any time"),
        ("tolerance", "0.004000 s"),
        ("timer expires", "never, it doesn't run"),
        ("dropped", "line 1: its ACK lies below una"),
    ]
    assert view.unmatched == (
        "+0 > . 1:2(1) ack 1 // 0.1, sent by line 8: rescue (RFC 6675)",
        "+0 > . 2:3(1) ack 1 // 0.1, sent by the timer",
    )
    assert view.more_unmatched == 2
    assert [(it.name, it.value) for it in view.state] == [
        ("state", "ESTABLISHED"),
        ("una", "1"),
        ("FlightSize", "0"),
        ("RTO", "1.500000 s"),
        ("expiry", "none"),
    ]
    assert [(it.number, it.text, it.is_named) for it in view.lines] == [(1, "one", False), (2, "two", True)]


def test_what_sent_a_packet_that_differs_and_by_which_rule() -> None:
    for words, origin in ORIGINS.items():
        view = sheet(Verdict.FAIL, b"one\n", {"sent_by": origin}, 1, "seq")
        assert [(it.name, it.value) for it in view.facts] == [("sent by", words)]


def test_where_a_text_is_no_script_and_what_could_stand_there() -> None:
    view = sheet(
        Verdict.SYNTAX, b"+0 > X.\n", {"text": "+0 > X.", "column": 5, "expected": ["letters of flags", "`.`"]}
    )
    assert view.refused == RefusedText("+0 > ", "X.", ("letters of flags", "`.`"))
    view = sheet(Verdict.SYNTAX, b"+0 >\n", {"text": "+0 >", "column": None, "expected": ["`.`"]})
    assert view.refused == RefusedText("+0 >", "", ("`.`",))


def test_where_nothing_is_told_the_line_stands() -> None:
    view = sheet(Verdict.FAIL, b"a\xff\tb\r\n", {}, 1, "seq")
    assert view.below == (r"a\xff\x09b",)
    assert view.lines[0].text == r"a\xff      b"


def test_what_each_line_was_met_by_stands_on_the_page_of_a_script_that_fails() -> None:
    row = Row(Verdict.FAIL, 2, "seq")
    wanted, came = marked_field_columns_of_both_packets("+0 > P. 1:2(1)", "+0 > P. 1:3(2) win 5 // 0.100000", "")
    met = LineDiff(
        (
            DiffLine(1, (PacketField("0 close(3) = 0"),)),
            DiffLine(2, wanted, came, True),
            DiffLine(3, (PacketField("+0 > . 3:3(0)"),), (), True),
            DiffLine(None, (), (PacketField("+1 > . 1:3(2) // 1.100000"),), True),
        )
    )
    view = script_view_of(PageEntry(ScriptOutcome("a.pkt", (), row)), None, undrawn_diagram_with_reason(row), met)
    page = render_script_page(view, False).decode()
    section = page[page.index("<h2>Line by line</h2>") :]
    assert '<a href="#L1">1</a></th><td><code>0 close(3) = 0</code>' in section
    assert '<mark class="differs">1:3(2)</mark>' in section and "nothing was sent" in section
    assert section.count('<tr class="came">') == 3 and '">too</th>' in section
    assert (
        "Line by line"
        not in render_script_page(
            script_view_of(PageEntry(ScriptOutcome("a.pkt", (), row)), None, undrawn_diagram_with_reason(row)), False
        ).decode()
    )


def test_the_table_names_the_rule_and_the_reason_of_an_error() -> None:
    view = ("rule: a command", "limit: 7")
    row = table_row_of(ScriptOutcome("a.pkt", (), Row(Verdict.LIMIT, 3), b"  x\t1", "a number is over its limit", view))
    assert (row.line, row.text, row.why) == (3, "x     1", "a number is over its limit: a command")
    row = table_row_of(ScriptOutcome("a.pkt", (), Row(Verdict.ERROR, word="more than 4,096 lines")))
    assert (row.line, row.kind, row.why) == (None, "", "more than 4,096 lines")


def test_settings_stand_on_the_page() -> None:
    entry = PageEntry(
        ScriptOutcome("a", (("initial_window", "rfc6928"), ("sack", False)), Row(Verdict.PASS, 0)),
        make_newline_ended_text_within_limits(b""),
    )
    assert script_view_of(entry, None, undrawn_diagram_with_reason(entry.outcome.row)).settings == (
        NamedFact("initial_window", '"rfc6928"'),
        NamedFact("sack", "false"),
    )


@pytest.mark.parametrize(
    "message", [b"{}\n", b"{\xff\n", b'{"name": 1, "line": 2}\n', b'{"a":' + b"[" * 100_000 + b"\n"]
)
def test_what_is_no_object_of_a_script_is_not_taken(message: bytes) -> None:
    with pytest.raises(UnexpectedAnswerError):
        parse_causes_by_script_and_line(b"[1]\njob 1 s1 steps 2\n" + message)


def test_what_is_no_object_tells_something_else() -> None:
    message = b'job 1 s1 steps 2\n{"name": "s1", "line": 2}\n[1]\n\xff'
    assert parse_causes_by_script_and_line(message) == {(b"s1", 2): {"name": "s1", "line": 2}}


PATHS = [
    "a/b.pkt",
    "a_b.pkt",
    "a b.pkt",
    "../a/b.pkt",
    "/a/b.pkt",
    ".a/.b",
    "é.pkt",
    "\udcff.pkt",
    "x" * 5_000,
    "-",
    "",
]


def test_each_path_has_a_file_of_its_own_that_any_system_takes() -> None:
    files = list(map(page_file_name_of, PATHS))
    assert len(set(files)) == len(PATHS)
    assert all(is_script_page_file(it) and len(it) < 120 and it[0] not in "._-" for it in files)
    assert page_file_name_of("a/b.pkt").startswith("a_b-")


def octets_in(folder: Path) -> dict[str, bytes]:
    """All files of a page."""
    return {str(it.relative_to(folder)): it.read_bytes() for it in folder.rglob("*") if it.is_file()}


def test_the_same_run_gives_the_same_octets_and_takes_away_what_is_gone(
    programs: Path, tmp_path: Path, call: Call
) -> None:
    write(tmp_path / "in", a=PASSES, b=FAILS, c=b"?")
    assert call(programs, "run", "--html", "one", "in").status == 1
    one = octets_in(tmp_path / "one")
    assert sorted(one) == sorted(
        [
            "index.html",
            "page.css",
            "page.js",
            "sender.css",
            *(f"scripts/{page_file_name_of(f'in/{name}.pkt')}" for name in "abc"),
        ]
    )
    called = call(programs, "run", "--html", "two", "in")
    assert (called.status, called.err, octets_in(tmp_path / "two")) == (1, "", one)
    (tmp_path / "in/c.pkt").unlink()
    assert call(programs, "run", "--html", "two", "in").status == 1
    assert set(one) - set(octets_in(tmp_path / "two")) == {f"scripts/{page_file_name_of('in/c.pkt')}"}


@pytest.mark.parametrize("name", ["notes.txt", "index.html", "scripts/mine.html", "page"])
def test_a_folder_with_other_things_is_refused_and_stays_as_it_is(
    name: str, programs: Path, tmp_path: Path, call: Call
) -> None:
    write(tmp_path / "in", a=PASSES)
    (tmp_path / "out" / name).parent.mkdir(parents=True)
    (tmp_path / "out" / name).write_text("mine")
    for command in ("run", "watch"):
        called = call(programs, command, "--html", "out", "in")
        message = f"pdsuite: out: holds {name}, which is no part of a page\n"
        assert (called.status, called.out, called.err) == (2, "", message)
    assert octets_in(tmp_path / "out") == {name: b"mine"}


def test_a_folder_that_cannot_be_made_is_a_fault(programs: Path, tmp_path: Path, call: Call) -> None:
    write(tmp_path / "in", a=PASSES)
    (tmp_path / "file").write_text("")
    called = call(programs, "run", "--html", "file", "in")
    assert (called.status, called.out, called.err) == (2, "", "pdsuite: file: Not a directory\n")


def test_a_page_that_cannot_be_written_is_told_and_all_rows_are_shown(
    programs: Path, tmp_path: Path, call: Call
) -> None:
    write(tmp_path / "in", a=FAILS)
    (tmp_path / "out/scripts" / page_file_name_of("in/a.pkt")).mkdir(parents=True)
    called = call(programs, "run", "--html", "out", "in")
    assert (called.status, called.rows) == (2, ["in/a.pkt:1: fail result"])
    assert called.err == f"pdsuite: {tmp_path}/out/scripts/{page_file_name_of('in/a.pkt')}: Is a directory\n"


def test_scripts_that_were_not_run_stand_in_the_table(programs: Path, tmp_path: Path, call: Call) -> None:
    for number in range(100):
        write(tmp_path / "in", **{f"s{number:03}": FAILS if number == 0 else PASSES})
    assert call(programs, "run", "--fail-fast", "--html", "out", "in").status == 1
    table = (tmp_path / "out/index.html").read_text()
    assert table.count('data-verdict="not run"') == 36
    assert "It was not run" in (tmp_path / "out/scripts" / page_file_name_of("in/s099.pkt")).read_text()


def test_the_page_of_a_script_that_went_and_came_back_is_drawn_again(tmp_path: Path) -> None:
    paths = ("a.pkt", "b.pkt")
    one, other = (PageEntry(ScriptOutcome(it, (), Row(Verdict.PASS, 1))) for it in paths)
    with Stop(()) as stop, PageUpdates(tmp_path / "page", DiagramChoice(), print) as drawing:
        for entries in ([one, other], [other], [one, other]):
            drawing.queue_entries_and_advance_drawing(entries)
            drawing.wait_until_drawn(stop, lambda done, count: None)
    assert sorted(it.name for it in (tmp_path / "page" / FOLDER).iterdir()) == sorted(map(page_file_name_of, paths))


def test_watch_keeps_the_page_up_and_draws_only_what_changed(programs: Path, tmp_path: Path) -> None:
    write(tmp_path / "in", a=PASSES, b=PASSES, c=FAILS)
    pages = {name: tmp_path / "out/scripts" / page_file_name_of(f"in/{name}.pkt") for name in "abcd"}

    def await_table(words: str, runs: int = 1) -> None:
        """Waits until the table has these words, and until nothing more is drawn."""
        watching._await(lambda: (tmp_path / "out/index.html").exists(), "the table")
        watching._await(lambda: words in (tmp_path / "out/index.html").read_text(), words)
        watching._await(lambda: len(watching.programs()) == runs, "no drawing")

    with Watching(tmp_path, programs, "--html", "out", "in") as watching:
        await_table("2 pass</span>")
        before = {name: os.stat(path).st_ino for name, path in pages.items() if path.exists()}
        assert sorted(before) == ["a", "b", "c"]
        write(tmp_path / "in", b=FAILS, d=PASSES)
        watching.await_out("in/b.pkt:1: fail result\n")
        await_table('2 pass</span>, <span class="verdict fail">2 fail</span>')
        assert "the call has another result" in pages["b"].read_text()
        after = {name: os.stat(path).st_ino for name, path in pages.items()}
        assert (after["a"], after["c"]) == (before["a"], before["c"]) and after["b"] != before["b"]
        (tmp_path / "in/pdsuite.toml").write_text('["a.pkt"]\nmss = 1000\n')
        watching._await(lambda: "mss" in pages["a"].read_text(), "the setting")
        (tmp_path / "in/c.pkt").unlink()
        await_table('2 pass</span>, <span class="verdict fail">1 fail</span>', runs=2)
        watching._await(lambda: not pages["c"].exists(), "the page of what went to go")
        assert watching.err == ""
        assert watching.ends(signal.SIGINT).status == 1
