"""Scripts that differ in groups, and what two senders send: plain functions of recordings, as text and as Markdown."""

import json
from dataclasses import replace

import pytest

from pdsuite.compare.comparison import ComparedScript, ComparisonKind
from pdsuite.compare.groups import first_differing_field_and_event_kind, group_by_first_difference
from pdsuite.compare.quantities import (
    Quantities,
    Quantity,
    quantities_of_recording,
    sorted_quantity_changes,
    summed_quantities_before_and_after,
)
from pdsuite.programs.verdict import Row, Verdict
from pdsuite.reports.comparison import ComparisonReport, comparison_json, plain_comparison
from pdsuite.reports.comparison_markdown import whole_comparison_as_markdown
from pdsuite.reports.quantities import total_and_changed_quantity_lines
from pdsuite.run.outcomes import ScriptOutcome
from tests.schemas import held

SYN = "+0.1 < S 0:0(0) win 9\n//= at 0.100000 SYN-RECEIVED una:0 RTO:1.000000\n"
ACK = "+0.1 < . 1:1(0) ack 1 win 9\n//= at 0.200000 ESTABLISHED una:1 cwnd:{} RTO:1.000000\n"
WRITE = "+0 write(4, ..., 2000) = {}\n//= at 0.200000 ESTABLISHED una:1 cwnd:{} RTO:1.000000\n"
SENT = "+{} > {} {}:{}(1000) ack 1\n//= at 0.200000 ESTABLISHED una:1 cwnd:4000 RTO:1.000000 sent_by:{}\n"
BLOCKS = "+0.1 < . 1:1(0) ack 1 win 9 <sack 5:6>\n//= at 0.300000 ESTABLISHED una:1 cwnd:4000 DupAcks:{}\n"
LAST = "+0.1 < . 1:1(0) ack {} win 9\n//= at {} ESTABLISHED una:{} cwnd:4000 RTO:1.000000\n"
BASE = SYN + ACK.format(4000)


def sent(first: int, flags: str = ".", time: str = "0", by: str = "line4") -> str:
    return SENT.format(time, flags, first, first + 1000, by)


@pytest.mark.parametrize(
    ("before", "after", "wanted"),
    [
        (BASE, SYN + ACK.format(9000), ("cwnd", "the ACK that establishes")),
        (SYN, SYN.replace("RTO:1.", "RTO:3."), ("RTO", "the SYN")),
        (BASE + WRITE.format(2000, 4000), BASE + WRITE.format(1000, 4000), ("an answer", "a call of write")),
        (BASE + sent(1), BASE + sent(1001), ("seq", "a packet that leaves")),
        (BASE + sent(1), BASE + sent(1, "P."), ("flags", "a packet that leaves")),
        (BASE + sent(1), BASE + sent(1, time="1"), ("time", "a packet that leaves")),
        (BASE + BLOCKS.format(1), BASE + BLOCKS.format(2), ("DupAcks", "an ACK with SACK blocks")),
        (BASE + sent(1), BASE + LAST.format(1001, "0.3", 1001), ("what leaves", "a packet that leaves")),
        (BASE + sent(1), BASE, ("nothing more is played", "a packet that leaves")),
        (BASE, BASE + sent(1), ("nothing more is played", "a packet that leaves")),
        (BASE, "", ("no recording tells", "")),
    ],
)
def test_the_first_field_or_fact_that_differs_is_found_with_its_event(
    before: str, after: str, wanted: tuple[str, str]
) -> None:
    assert first_differing_field_and_event_kind(before, after) == wanted


def script(path: str, before: str, after: str, comment: str = "") -> ComparedScript:
    rows = Row(Verdict.PASS, 3), Row(Verdict.FAIL, 7, "seq")
    one, other = (ScriptOutcome(path, (), row) for row in rows)
    return ComparedScript(0, ComparisonKind.TURNED, one, other, None, ("", ""), (before, after), comment)


MANY = [
    script("a.pkt", BASE + sent(1), BASE + sent(1001)),
    script("b.pkt", BASE, SYN + ACK.format(9000), "RFC 1, section 2: *b*."),
    script("c.pkt", BASE + sent(1), SYN + ACK.format(9000) + sent(1), "RFC 1, section 3: c."),
]


def report_of(is_every: bool = False) -> ComparisonReport:
    return ComparisonReport(MANY, None, 1.0, False, Quantity.TIME, is_every)


def test_the_largest_group_comes_first_with_one_script_whole_and_the_others_by_their_comments() -> None:
    assert [[it.path for it in group.scripts] for group in group_by_first_difference(MANY)] == [
        ["b.pkt", "c.pkt"],
        ["a.pkt"],
    ]
    heads = [
        line for line in plain_comparison(report_of()).text_without_styles.splitlines() if not line.startswith(" ")
    ]
    assert heads[:4] == [
        "2 scripts differ first in cwnd, at the ACK that establishes:",
        "b.pkt: turned",
        "c.pkt: turned: RFC 1, section 3: c.",
        "a.pkt: turned",
    ]
    whole = plain_comparison(report_of(is_every=True)).text_without_styles.splitlines()
    assert whole.count("  before: pass 3") == 3 and "c.pkt: turned" in whole


def test_as_json_the_groups_name_their_scripts() -> None:
    found = held("compare", comparison_json(report_of(), ("x", "y")).text_without_styles)
    assert [(it["kind"], it["field"], [each["path"] for each in it["scripts"]]) for it in found["groups"]] == [
        ("turned", "cwnd", ["b.pkt", "c.pkt"]),
        ("turned", "seq", ["a.pkt"]),
    ]
    assert json.dumps(found["quantities"]["total"]["before"]) == json.dumps(
        {"segments": 2, "again": 0, "expiries": 0, "time_us": 600_000}
    )


def test_as_markdown_no_comment_is_markup() -> None:
    lines = whole_comparison_as_markdown(report_of(), ("one `x`", "y")).text_without_styles.splitlines()
    assert lines[:5] == [
        "## Before and after",
        "",
        "- before: `` one `x` ``",
        "- after: `y`",
        "- 3 scripts, 3 turned, 0 played otherwise, 0 as before",
    ]
    assert "### turned: 2 scripts, first in cwnd, at the ACK that establishes" in lines
    assert "`b.pkt`: RFC 1, section 2: \\*b\\*." in lines and "- `c.pkt`: RFC 1, section 3: c." in lines
    assert "    before: pass 3" in lines


def test_quantities_are_counted_from_a_trace() -> None:
    syn_ack = "+0 > S. 0:0(0) ack 1\n//= at 0.100000 SYN-RECEIVED una:0 sent_by:line1\n"
    again = sent(1, time="1", by="timer").replace("at 0.200000", "at 1.200000")
    last = LAST.format(2001, "1.300000", 2001) + LAST.format(2001, "1.400000", 2001)
    text = SYN + syn_ack + ACK.format(4000) + sent(1) + sent(1001) + again + last
    # The SYN/ACK, two segments, and the first again.
    assert quantities_of_recording(text) == Quantities(4, 1_000, 1, 1_300_000)
    ack_alone = "+0 > . 2001:2001(0) ack 1\n//= at 1.400000 ESTABLISHED una:2001 sent_by:line9\n"
    assert quantities_of_recording(text + ack_alone) == quantities_of_recording(text)
    # A FIN is an octet, and a part sent again counts as far as it was sent.
    fin = "+0 > F. 1501:2501(1000) ack 1\n//= at 1.400000 FIN-WAIT-1 una:2001 sent_by:line9\n"
    assert quantities_of_recording(text + fin) == Quantities(5, 1_500, 1, 1_300_000)


def test_the_largest_changes_come_first_by_the_quantity_that_is_asked_for() -> None:
    late = BASE + sent(1) + LAST.format(1001, "9.300000", 1001)
    soon = late.replace("9.300000", "0.300000")
    scripts = [
        replace(script("one.pkt", BASE + sent(1), BASE + sent(1) + sent(1001) + sent(1)), index=1),
        replace(script("two.pkt", late, soon), index=2),
        replace(script("same.pkt", late, late), index=3),
    ]
    assert [it.path for it in sorted_quantity_changes(scripts, Quantity.TIME)] == ["two.pkt", "one.pkt"]
    assert [it.path for it in sorted_quantity_changes(scripts, Quantity.AGAIN)] == ["one.pkt", "two.pkt"]
    assert summed_quantities_before_and_after(scripts).after == Quantities(5, 1_000, 0, 200_000 + 300_000 + 9_300_000)
    assert list(total_and_changed_quantity_lines(scripts, Quantity.TIME, False))[1:] == [
        "  two.pkt: last octet acknowledged at 9.300000 to 0.300000",
        "  one.pkt: segments 1 to 3, octets sent again 0 to 1,000",
    ]
    many = [replace(it, index=number) for number in range(4) for it in scripts]
    assert len(list(total_and_changed_quantity_lines(many, Quantity.TIME, True))) == 9
    assert len(list(total_and_changed_quantity_lines(scripts[2:], Quantity.TIME, True))) == 0


@pytest.mark.parametrize(("count", "more"), [(10, []), (11, ["  1 more (--every)"])])
def test_ten_scripts_with_changed_quantities_are_shown_and_how_many_more_there_are(count: int, more: list[str]) -> None:
    scripts = [script(f"s{number:02}.pkt", BASE, BASE + sent(1)) for number in range(count)]
    assert list(total_and_changed_quantity_lines(scripts, Quantity.TIME, False))[11:] == more
    assert len(list(total_and_changed_quantity_lines(scripts, Quantity.TIME, True))) == 1 + count
