"""Measuring two senders: figures and what they show, `pdsuite measure` and what it prints."""

import json
import signal
from collections.abc import Callable, Sequence
from dataclasses import replace
from pathlib import Path
from random import Random

import pytest

from pdsuite.commands.measure import MeasureOptions, measure_transfers_of_two_senders
from pdsuite.compare.senders import Sender
from pdsuite.compare.sides import Side, make_side_named_with_settings
from pdsuite.measure.measurement import MeasureResult, MeasuredCase, Measurement, Pair, TransferCase, cases_of_paths
from pdsuite.measure.measurement import side_settings_with_path_mss
from pdsuite.measure.paths import NetworkPath, load_network_paths_matching
from pdsuite.measure.report import MeasureReport, row_cells_without_verdict, plain_report
from pdsuite.measure.statistics import (
    FIGURES,
    ChangeVerdict,
    FigureRow,
    FigureTable,
    _shown_by_holm,
    figure_tables_with_holm_verdicts,
)
from pdsuite.measure.transfer import TransferResult
from pdsuite.output.screen import Screen
from pdsuite.signals import Stop
from tests.helpers import Call

PATH = NetworkPath("road", "a test", 8_000_000, 1_000, 10_000, (1_000,), loss=0.01)
PATHS = """
[wide]
source = "a test"
rate = 100_000_000
delay_us = 20_000
queue = 100_000
ack_every = 1
sizes = [14_600, 58_400]

[lossy]
source = "a test"
rate = 10_000_000
delay_us = 20_000
queue = 100_000
loss = 0.02
sizes = [29_200]
"""


def delivery(time: float, again: int = 0) -> TransferResult:
    return TransferResult(1_000, int(time), 1, again, 1_000 * again, 0, 0.0, 0, 0, (), ())


def table(before: Sequence[float], after: Sequence[float], path: NetworkPath = PATH) -> FigureTable:
    (found,) = figure_tables_with_holm_verdicts([measured(before, after, path)])
    return found


def measured(before: Sequence[float], after: Sequence[float], path: NetworkPath = PATH) -> MeasuredCase:
    pairs = tuple(
        Pair(number, delivery(one), delivery(other)) for number, (one, other) in enumerate(zip(before, after))
    )
    return MeasuredCase(TransferCase(path, 1_000, len(pairs)), pairs)


def row(it: FigureTable, key: str) -> FigureRow:
    return next(row for row in it.rows if row.figure.key == key)


# ---- figures


def test_each_case_has_all_figures_of_both_senders() -> None:
    found = table([1_000.0 + it for it in range(101)], [2_000.0 + it for it in range(101)])
    assert [it.figure for it in found.rows] == list(FIGURES)
    assert (row(found, "time_median").before, row(found, "time_median").after) == (1_050, 2_050)
    assert (row(found, "time_90").before, row(found, "time_99").after) == (1_090, 2_099)
    # A thousand octets take a millisecond at the rate.
    assert row(table([1_000], [2_000]), "goodput").after == pytest.approx(0.5)


def test_a_difference_that_runs_show_is_better_or_worse_and_lies_in_its_interval() -> None:
    draw = Random(3)
    before = [draw.gauss(100_000, 20_000) for _ in range(100)]
    after = [it - 5_000 + draw.gauss(0, 500) for it in before]
    found = table(before, after)
    for key in ("time_median", "goodput"):
        assert row(found, key).verdict is ChangeVerdict.BETTER
        assert row(table(after, before), key).verdict is ChangeVerdict.WORSE
    # The runs differ far more from one another than the senders do in each.
    assert -6_000 < row(found, "time_median").low < row(found, "time_median").high < -4_000


def test_equal_senders_are_the_same_and_chance_alone_shows_nothing() -> None:
    draw = Random(4)
    equal = [draw.gauss(100_000, 20_000) for _ in range(50)]
    assert {it.verdict for it in table(equal, equal).rows} == {ChangeVerdict.SAME}
    cases = [measured(equal, draw.sample(equal, len(equal))) for _ in range(8)]
    found = [
        it.verdict
        for one in figure_tables_with_holm_verdicts(cases)
        for it in one.rows
        if it.figure.key == "time_median"
    ]
    assert found.count(ChangeVerdict.UNSHOWN) >= 7


def test_few_runs_show_nothing_however_alike_they_are() -> None:
    assert row(table([2_000.0] * 4, [1_000.0] * 4), "time_median").chance == pytest.approx(1 / 8)
    assert row(table([2_000.0] * 4, [1_000.0] * 4), "time_median").verdict is ChangeVerdict.UNSHOWN
    assert row(table([2_000.0] * 14, [1_000.0] * 14), "time_median").verdict is ChangeVerdict.BETTER


def test_without_chance_one_run_has_all() -> None:
    exact = NetworkPath("rail", "a test", 8_000_000, 1_000, 10_000, (1_000, 2_000))
    assert [it.runs for it in cases_of_paths([exact, PATH], 30)] == [1, 1, 30]
    found = row(table([2_000.0], [1_999.0], exact), "time_median")
    assert (found.chance, found.verdict, found.low, found.high) == (None, ChangeVerdict.BETTER, -1, -1)


def test_verdicts_hold_together_as_holm_has_it() -> None:
    assert _shown_by_holm([0.02, 0.01, 0.5, 0.03]) == [False, True, False, False]
    assert _shown_by_holm([0.001, None, 0.02, 0.04]) == [True, True, True, True]
    assert _shown_by_holm([0.04, 0.03]) == [False, False]


def test_a_report_has_a_title_each_figure_and_totals() -> None:
    report = MeasureReport([table([2_000.0] * 20, [1_000.0] * 20)], ("one", "other"), 7, 40, 1.5, True)
    first, *rows, counts, total = plain_report(report).text_without_styles.splitlines()
    assert first == "road, 1,000 octets: 20 runs" and len(rows) == len(FIGURES)
    assert rows[0].startswith(
        "  time to deliver, median           2.000 ms  1.000 ms  -1.000 ms  (-1.000 ms to -1.000 ms)"
    )
    assert rows[0].endswith("  better")
    assert counts == "4 better, 0 worse, 0 no difference shown, 4 the same"
    assert total == "total 40 transfers in 1.50 s, seed 7 UNPROVED"


def test_times_of_some_microseconds_are_told_in_microseconds() -> None:
    queue = next(it for it in FIGURES if it.key == "queue")
    assert row_cells_without_verdict(FigureRow(queue, 0.5, 1.75, 1, 1.5, 0.01))[1:] == (
        "0.500 us",
        "1.750 us",
        "+1.250 us",
        "(+1.000 us to +1.500 us)",
    )
    assert row_cells_without_verdict(FigureRow(queue, 200, 201.25, 1, 1.5, None))[1:] == (
        "0.200 ms",
        "0.201 ms",
        "+0.001 ms",
        "",
    )


def test_a_time_of_some_microseconds_beside_a_long_one_is_told_in_milliseconds() -> None:
    queue = next(it for it in FIGURES if it.key == "queue")
    for before, after in ((0.5, 2_000.5), (2_000.5, 0.5)):
        cells = row_cells_without_verdict(FigureRow(queue, before, after, 0, 0, None))
        assert sorted(cells[1:3]) == ["0.001 ms", "2.001 ms"]


def test_a_narrow_terminal_has_the_numbers_of_a_figure_below_it() -> None:
    draw = Random(6)
    slow = [draw.gauss(200_000_000, 20_000_000) for _ in range(40)]
    tables = [table(slow, [it - draw.gauss(10_000_000, 9_000_000) for it in slow])]
    broken = replace(tables[0], measured=replace(tables[0].measured, unfinished=("run 7, before: " + "because " * 20,)))
    report = plain_report(
        MeasureReport([broken], ("one", "other"), 7, 80, 1.5, True), 79
    ).text_without_styles.splitlines()
    assert max(map(len, report)) <= 79
    assert report[1] == f"  {'time to deliver, median':34}better"
    assert report[2].startswith("    20") and report[3].startswith("    (-") and report[3].endswith(" ms)")
    assert "    0.00  0.00  +0.00  (+0.00 to +0.00)" in report
    assert (
        plain_report(MeasureReport(tables, ("one", "other"), 7, 80, 1.5, True), 200).text_without_styles.count("\n")
        == len(FIGURES) + 3
    )


# ---- playing


def side_of_programs(folder: Path) -> Side:
    programs = {it: folder / it for it in ("pdregress", "pdrecord")}
    return make_side_named_with_settings(Sender("a sender", programs, None), "", "--base-settings")


def test_a_signal_leaves_what_both_sides_have_played(programs: Path) -> None:
    side = side_of_programs(programs)
    measuring = Measurement([TransferCase(PATH, 1_000, 400)], (side, side), (), 1)
    with Stop(()) as stop:

        def advance(done: int, count: int) -> None:
            assert count == 800
            if done >= 64:
                stop._note_signal_and_restore_defaults(signal.SIGINT, None)

        found = measuring.run(stop, advance)
    (case,) = found.cases
    assert found.status == 130 and 0 < len(case.pairs) < 400 and found.transfer_count == 2 * len(case.pairs)
    assert all(it.before == it.after for it in case.pairs)


def test_segments_are_as_large_as_those_of_a_path_unless_the_mss_is_set() -> None:
    sender, large = Sender("a sender", None), replace(PATH, mss=8_960)
    side, own = (make_side_named_with_settings(sender, it, "--base-settings") for it in ("", "mss = 500"))
    assert side_settings_with_path_mss(side, (), large) == (("mss", 8_960),)
    assert side_settings_with_path_mss(side, (("mss", 1_000),), large) == (("mss", 1_000),)
    assert side_settings_with_path_mss(own, (("mss", 1_000),), large) == (("mss", 500),)


def test_a_transfer_that_comes_to_no_end_is_told_and_counts_on_neither_side(programs: Path) -> None:
    large = replace(PATH, mss=64, loss=0.2, name="broken")
    side = side_of_programs(programs)
    measuring = Measurement([TransferCase(large, 64 * 3_000, 1), TransferCase(PATH, 1_000, 1)], (side, side), (), 1)
    with Stop(()) as stop:
        found = measuring.run(stop, lambda done, count: None)
    broken, whole = found.cases
    assert broken.pairs == () and len(broken.unfinished) == 2 and len(whole.pairs) == 1
    report = plain_report(
        MeasureReport(figure_tables_with_holm_verdicts(found.cases), ("one", "other"), 1, 2, 0.0, False)
    ).text_without_styles
    assert "not played: run 0, before: its packets don't fit into a script" in report and ", and 1 more" in report


# ---- the command


def test_a_larger_initial_window_is_sooner_done_by_the_rounds_that_it_saves(
    call: Call, programs: Path, tmp_path: Path
) -> None:
    (tmp_path / "paths.toml").write_text(PATHS)
    words = ("--base", programs, "--with", programs, "--paths", "paths.toml", "--runs", "6", "--json")
    done = call(programs, "measure", *words, "--with-settings", 'initial_window = "rfc6928"')
    assert done.status == 0, done.err
    found = json.loads(done.out)
    assert [(it["path"], it["octets"], len(it["runs"])) for it in found["cases"]] == [
        ("wide", 14_600, 1),
        ("wide", 58_400, 1),
        ("lossy", 29_200, 6),
    ]
    # 3, 6, 12 and 24 segments against 10, 20 and 40: two rounds less for ten segments, one for forty.
    medians = [it["figures"]["time_median"] for it in found["cases"][:2]]
    assert [it["verdict"] for it in medians] == ["better", "better"]
    assert [-it["difference"] for it in medians] == [pytest.approx(it, abs=5_000) for it in (80_000, 40_000)]
    assert found["transfers"] == 16 and found["seed"] == 1
    assert set(found["verdicts"]) == {"better", "worse", "no difference shown", "the same"}


def test_another_seed_is_another_chance_and_a_sender_is_the_same_as_itself(
    call: Call, programs: Path, tmp_path: Path
) -> None:
    (tmp_path / "paths.toml").write_text(PATHS)
    words = ("measure", "--base", programs, "--with", programs, "--paths", "paths.toml", "--only", "lossy", "--json")
    one, other = (json.loads(call(programs, *words, "--runs", "8", "--seed", it).out) for it in "12")
    assert one["cases"][0]["runs"] != other["cases"][0]["runs"]
    assert one["verdicts"]["the same"] == len(FIGURES)


def test_a_page_and_all_transfers_as_scripts_are_kept(call: Call, recording_programs: Path, tmp_path: Path) -> None:
    (tmp_path / "paths.toml").write_text(PATHS)
    folder = recording_programs
    words = ("measure", "--base", folder, "--with", folder, "--paths", "paths.toml", "--only", "lossy", "--runs", "2")
    settings = ("--settings", "mss = 1000", "--with-settings", "limited_transmit = false")
    done = call(folder, *words, *settings, "--html", "page", "--save", "kept")
    assert done.status == 0 and done.out.startswith("lossy, 29,200 octets: 2 runs\n"), done.err
    assert sorted(str(it.relative_to(tmp_path / "kept")) for it in (tmp_path / "kept").rglob("*.*")) == [
        f"{side}/lossy-29200/{name}"
        for side in ("after", "before")
        for name in ("0000.pkt", "0001.pkt", "pdsuite.toml")
    ]
    table_text = (tmp_path / "kept/after/lossy-29200/pdsuite.toml").read_text()
    assert table_text == "root = true\nlimited_transmit = false\nmss = 1000\n"
    assert call(folder, "run", "kept").out.startswith("total 4 pass 4")
    page = (tmp_path / "page/index.html").read_text()
    assert page.count("<svg") == 6 and "the worst for the sender after: before" in page
    assert "with limited_transmit = false" in page and ">time to deliver, 99th percentile</th>" in page
    again = call(folder, *words, *settings, "--save", "kept")
    assert again.status == 2 and "kept: isn't empty" in again.err


def test_what_was_played_until_a_signal_is_kept_too(
    recording_programs: Path, tmp_path: Path, monkeypatch: pytest.MonkeyPatch
) -> None:
    def cut(measuring: Measurement, stop: Stop, advance: Callable[[int, int], None]) -> MeasureResult:
        stop._note_signal_and_restore_defaults(signal.SIGINT, None)
        with Stop(()) as unheeded:
            return replace(run(measuring, unheeded, advance), status=130)

    run = Measurement.run
    monkeypatch.setattr(Measurement, "run", cut)
    (tmp_path / "paths.toml").write_text(PATHS)
    folder = str(recording_programs)
    places = {"paths": tmp_path / "paths.toml", "html": tmp_path / "page", "save": tmp_path / "kept"}
    options = MeasureOptions("", "", "", folder, folder, only=["lossy"], runs=2, seed=1, is_json=False, **places)
    with Screen(False, False) as screen:
        assert measure_transfers_of_two_senders(options, screen) == 130
    assert "until a signal came" in (tmp_path / "page/index.html").read_text()
    assert len(list((tmp_path / "kept").rglob("*.pkt"))) == 4


def test_a_setting_or_a_path_that_is_refused_ends_it_first(call: Call, programs: Path, tmp_path: Path) -> None:
    words = ("measure", "--base", programs, "--with", programs)
    refused = call(programs, *words, "--base-settings", "mss = 1")
    assert refused.status == 2 and "--base-settings: mss: BadValue" in refused.err
    unknown = call(programs, *words, "--only", "moon")
    assert (
        unknown.status == 2
        and f"there are {', '.join(it.name for it in load_network_paths_matching(None))}" in unknown.err
    )
    (tmp_path / "paths.toml").write_text(PATHS.replace("[29_200]", "[14_600_000]"))
    large = call(programs, *words, "--paths", "paths.toml")
    assert large.status == 2 and "a script holds 900 segments" in large.err
