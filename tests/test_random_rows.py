"""Tests of random rows: those that are stored, how many are drawn from which seed, and that a wrong answer is seen."""

import re
import subprocess
from collections.abc import Callable, Sequence
from pathlib import Path

import pytest

from drawn import books, packets
from drawn.drawing import Amount
from model.rules import RFC6675
from model.scenarios import Transfer
from harness.calls import Outputs, ProgramCall, ProgramOutput, run_test_alone
from harness.compare import RowResult
from harness.kinds import read_groups
from harness.random_rows import Draw, encode_lines
from harness.model_runs import draw_transfers
from harness.tables import TOP, DrawOptions
from store_rows import STORED, StoredRows

RANDOM = TOP / "tests" / "cases" / "random"


@pytest.mark.parametrize("it", STORED, ids=[it.kind for it in STORED])
def test_the_stored_rows_are_those_that_are_drawn(it: StoredRows) -> None:
    rows = list(it.rows_drawn_from_seed())
    assert it.rows_file.read_bytes() == encode_lines(rows)
    assert it.output_file.read_bytes().count(encode_lines(it.row_lists_of_program_and_kind.output(rows))) == 1


def test_few_random_rows_are_stored() -> None:
    assert sum(it.rows_file.read_bytes().count(b"\n") for it in STORED) <= 2_500


def draws_in_file(file: Path, draw_options: DrawOptions = DrawOptions()) -> list[Draw]:
    """The draws of the rows of a file."""
    return [it for group in read_groups(file, draw_options) for case in group.cases for it in case.checks]


def test_all_are_drawn_from_their_seeds_unless_a_run_chooses_otherwise() -> None:
    chosen = DrawOptions(seed=7, rows=40)
    every = [it for file in sorted(RANDOM.glob("*.cases")) for it in draws_in_file(file)]
    assert {(it.kind, it.amount.lists) for it in every} == {
        ("books", 1_000),
        ("packets", 2_000),
        ("short boards", 1_000),
        ("long boards", 4),
    }
    others = [it for file in sorted(RANDOM.glob("*.cases")) for it in draws_in_file(file, chosen)]
    assert [(it.seed, it.amount.rows) for it in others] == [(7, 40)] * len(every)
    assert all("from 7: 40 rows" in it.row.text for it in others)


def test_a_run_chooses_of_recoveries_too(tmp_path: Path) -> None:
    file = tmp_path / "a.cases"
    file.write_text("[a] random rows of pdrecord\n5 recoveries by rfc6675 from 3\n")
    for draw_options, transfers in (
        (DrawOptions(), draw_transfers(5, RFC6675, 3)),
        (DrawOptions(0, 9), draw_transfers(9, RFC6675, 0)),
    ):
        (group,) = read_groups(file, draw_options)
        calls = next(group.kind.check_cases(group.cases))
        assert [it.given.decode() for it in calls] == [it.script for it in transfers]


def test_a_seed_draws_the_same_rows_again_and_another_one_others() -> None:
    first, again, other = (list(packets.rows(seed, Amount(20))) for seed in (1, 1, 2))
    assert first == again != other and len(first) == 21
    lists = [row for row in books.rows(1, Amount(1, rows=100)) if row.startswith("# ")]
    assert len(lists) in (2, 3, 4)


TABLES = "[a] random rows of test_sender\n2 short boards from 5\n[b] random rows of test_book\n1 books from 5\n"


def run_drawn_tables(file: Path, wrong: str = "") -> list[RowResult]:
    """The results of the tables where the outputs are the wanted ones, but that of one program has another number."""
    file.write_text(TABLES)
    found = []
    for group in read_groups(file):
        wanted = group.cases[0].checks[0].program_run().wanted

        def answer(call: ProgramCall, wanted: ProgramOutput = wanted) -> ProgramOutput:
            return (
                ProgramOutput(wanted.output.replace(b"0 differ", b"1 differ"), b"", 0)
                if call.program == wrong
                else wanted
            )

        found += run_test_alone(group.kind.check_cases(group.cases), lambda calls: [answer(it) for it in calls])
    return found


def test_what_differs_is_printed_with_its_seed(tmp_path: Path) -> None:
    assert run_drawn_tables(tmp_path / "a.cases") == [RowResult(), RowResult()]
    sender, book = run_drawn_tables(tmp_path / "a.cases", "test_sender")
    assert "2 short boards from 5" in sender.fault and "+> 2 lists of 30 calls, 1 differ" in sender.fault
    sender, other = run_drawn_tables(tmp_path / "a.cases", "test_book")
    assert "+> 1 stories, " in other.fault and sender == book == RowResult()


@pytest.mark.parametrize("row", ["2 books from 5", "0 packets from 5", "2 packets", "2 packets from -1"])
def test_what_is_not_drawn_for_the_program_fails(row: str, tmp_path: Path) -> None:
    file = tmp_path / "a.cases"
    file.write_text(f"[a] random rows of test_sender\n{row}\n")
    (group,) = read_groups(file)
    assert [bool(case.error) for case in group.cases] == [True]


COMMANDS = (["tests/run", "random"], ["tests/harness/without_pytest.py", "tests/cases/random"])


@pytest.mark.parametrize("command", COMMANDS)
def test_a_run_draws_by_its_own_options(command: list[str], tmp_path: Path) -> None:
    for name in ("test_sender", "test_book"):
        (tmp_path / name).write_text("#!/bin/sh\ngrep -hc . random_*\n")
        (tmp_path / name).chmod(0o755)
    options = ["--programs", str(tmp_path), "--seed", "7", "--rows", "40"]
    printed = subprocess.run([*command, *options], cwd=TOP, capture_output=True, text=True).stdout
    assert all(f" {kind} from 7: 40 rows\n" in printed for kind in ("books", "packets", "short boards", "long boards"))
    assert "\n+> 41\n" in printed and printed.endswith("\n0 passed, 4 failed\n")


@pytest.mark.parametrize("options", [["--seed", "-1"], ["--rows", "0"], ["--rows", "many"]])
def test_a_number_that_is_none_is_refused(options: list[str]) -> None:
    for command in COMMANDS:
        done = subprocess.run([*command, *options], cwd=TOP, capture_output=True, text=True)
        assert done.returncode and "is wanted" in done.stderr + done.stdout


def trace_of(transfer: Transfer) -> str:
    """A transfer as the recorder is to play it, after one event of its opening."""
    events = [f"+0.1 {it.line}\n//= at {it.at / 1_000_000:.6f} {it.state}\n" for it in transfer.expected]
    return "".join(["+0 accept(3, ..., ...) = 4\n//= at 0.000000 CLOSED\n", *events])


@pytest.mark.parametrize(
    "change, fault",
    [
        (lambda trace: trace, ""),
        (lambda trace: re.sub(r"ssthresh:\d+", "ssthresh:9", trace, count=1), "after 0.000000 accept(3"),
        (lambda trace: trace.rpartition("+0.1")[0], "  played   nothing more"),
        (lambda trace: trace.replace(" > P. ", " > . ", 1), "  expected"),
        (lambda trace: trace.replace("at 0.", "at 1."), "after 1.000000 accept(3"),
        (lambda trace: trace + "+0 more\n//= at 9.000000 CLOSED\n", "  expected nothing more"),
    ],
)
def test_recoveries_are_played_as_the_second_reading_has_it(
    change: Callable[[str], str], fault: str, tmp_path: Path
) -> None:
    traces = {it.script.encode(): trace_of(it) for it in draw_transfers(5, "rfc6675", 3)}
    file = tmp_path / "a.cases"
    file.write_text("[a] random rows of pdrecord\n5 recoveries by rfc6675 from 3\n")
    (group,) = read_groups(file)

    def play(calls: Sequence[ProgramCall]) -> Outputs:
        assert [it.given for it in calls] == list(traces) and len(calls) > 1
        return [ProgramOutput(change(traces[it.given]).encode(), b"", 0) for it in calls]

    (found,) = run_test_alone(group.kind.check_cases(group.cases), play)
    assert group.cases[0].name == "5-recoveries-by-rfc6675-from-3"
    assert bool(found.fault) is bool(fault) and fault in found.fault
    (refused,) = run_test_alone(
        group.kind.check_cases(group.cases), lambda calls: [ProgramOutput(b"", b"17 Read\n", 2) for _ in calls]
    )
    assert "status 2: 17 Read" in refused.fault


def test_a_seed_draws_the_same_recoveries_under_many_settings() -> None:
    first, again, other = (list(draw_transfers(200, "rfc6675", seed)) for seed in (7, 7, 8))
    assert first == again != other and 200 <= sum(it.recoveries for it in first) < 210
    settings = "\n".join(it.settings for it in first)
    keys = (
        "abc_limit",
        "initial_ssthresh",
        "initial_window",
        "limited_transmit",
        "min_rto_us",
        "slow_start_after_idle",
    )
    assert all(f"{key} = " in settings for key in keys) and "recovery_algorithm" not in settings
    assert any("sackOK" not in it.script for it in first) and any("wscale" not in it.script for it in first)


def test_recoveries_are_drawn_that_begin_with_new_octets_and_that_lose_what_they_send_again() -> None:
    drawn = list(draw_transfers(200, "rfc9937", 0))
    assert sum(it.acknowledging for it in drawn) >= 3 and sum(it.lost_again for it in drawn) >= 20
