"""How scripts are cut into runs, what is written to the program, and how its answers are read."""

from collections.abc import Generator
from typing import Any

import pytest

from pdsuite.programs.program import ProgramEndedError
from pdsuite.programs.protocol import (
    UnexpectedAnswerError,
    add_command,
    parse_new_rows,
    refusal_kind_if_refused,
    rows_before_total,
    script_name_of_number,
)
from pdsuite.programs.protocol import set_and_show_commands
from pdsuite.programs.verdict import Row, Verdict
from pdsuite.run.batches import BATCH_SIZE, SuiteScript, batch_scripts_by_equal_settings, split_into_chunks_of_size
from pdsuite.run.outcomes import ScriptOutcome, PassWarning, OutcomeTotals
from pdsuite.run.run_batches import SettledPiece, run_batch
from pdsuite.scripts.settings import Settings
from pdsuite.scripts.text import make_newline_ended_text_within_limits

FASTER: Settings = (("mss", 1000),)


def scripts(count: int, settings: Settings = (), first: int = 0) -> list[SuiteScript]:
    """So many scripts with these settings."""
    return [SuiteScript(index, f"{index}.pkt", settings) for index in range(first, first + count)]


def test_parts_are_full_but_for_the_last() -> None:
    assert split_into_chunks_of_size(range(7), 3) == [(0, 1, 2), (3, 4, 5), (6,)]
    assert split_into_chunks_of_size("", 3) == []


@pytest.mark.parametrize(
    ("count", "sizes"),
    [(1, [[1]]), (64, [[64]]), (65, [[64, 1]]), (1_024, [[64] * 16]), (1_025, [[64] * 16, [1]])],
)
def test_runs_hold_1024_scripts_in_pieces_of_64(count: int, sizes: list[list[int]]) -> None:
    assert [[len(piece) for piece in run.pieces] for run in batch_scripts_by_equal_settings(scripts(count))] == sizes


def test_scripts_with_equal_settings_are_one_run() -> None:
    mixed = [*scripts(2), *scripts(1, FASTER, 2), *scripts(1, (), 3)]
    runs = batch_scripts_by_equal_settings(mixed)
    assert [run.settings for run in runs] == [(), FASTER]
    assert [[script.index for script in run.pieces[0]] for run in runs] == [[0, 1, 3], [2]]


def test_names_differ_and_are_no_words_of_commands() -> None:
    names = [script_name_of_number(number).decode() for number in range(1_024)]
    assert len(set(names)) == 1_024
    assert all(name.isalnum() and name.isascii() and len(name) <= 64 for name in names)
    assert not {"add", "edit", "remove", "set", "show", "settle", "total", "refused"} & set(names)


def test_commands_are_written_as_the_program_reads_them() -> None:
    assert add_command(b"s0", make_newline_ended_text_within_limits(b"a\nb")) == b"add s0 2\na\nb\n"
    assert add_command(b"s1", make_newline_ended_text_within_limits(b"")) == b"add s1 0\n"
    assert set_and_show_commands("mss", "10") == b"set mss 10\nshow\n"


def answer(*rows: str) -> bytes:
    """An answer with these rows; how many pass isn't looked at."""
    total = f"total {len(rows)} pass 0 fail 0 syntax 0 unsupported 0 limit 0 pending 0"
    return "".join(f"{line}\n" for line in [*rows, total]).encode()


def test_rows_are_read_with_their_words() -> None:
    answered = answer("s0 pass 9", "s1 fail 9 seq", "s2 syntax 1", "s3 unsupported 2", "s4 limit 3")
    assert parse_new_rows(answered, b"", [script_name_of_number(it) for it in range(5)], 5) == [
        Row(Verdict.PASS, 9),
        Row(Verdict.FAIL, 9, "seq"),
        Row(Verdict.SYNTAX, 1),
        Row(Verdict.UNSUPPORTED, 2),
        Row(Verdict.LIMIT, 3),
    ]


def test_an_answer_begins_with_the_rows_of_the_one_before() -> None:
    before = rows_before_total(answer("s0 pass 9"))
    assert before == b"s0 pass 9\n"
    assert parse_new_rows(answer("s0 pass 9", "s1 pass 1"), before, [b"s1"], 2) == [Row(Verdict.PASS, 1)]
    with pytest.raises(UnexpectedAnswerError, match="s0 pass 8"):
        parse_new_rows(answer("s0 pass 8", "s1 pass 1"), before, [b"s1"], 2)


class LongRowProgram:
    """Says a row as long as a row can be of each script that it got so far, where as much is requested."""

    def __init__(self) -> None:
        self.count = 0

    def __enter__(self) -> "LongRowProgram":
        return self

    def __exit__(self, *why: object) -> None:
        ...

    def query_with_errors_as_generator(
        self, commands: bytes, longest: int, most_errors: int
    ) -> Generator[None, None, tuple[bytes, bytes]]:
        yield from ()  # it never waits
        self.count += commands.count(b"add ")
        answered = answer(*(f"s{number} fail 999999 {'a' * 200}" for number in range(self.count)))
        if len(answered) > longest:
            raise ProgramEndedError("more than was asked")
        return answered, b""


def test_an_answer_may_have_the_rows_of_all_pieces_before() -> None:
    program = LongRowProgram()

    def start(settings: Settings) -> Any:
        return program

    (run,) = batch_scripts_by_equal_settings(scripts(BATCH_SIZE))
    steps = list(run_batch(run, start, lambda script: make_newline_ended_text_within_limits(b"a\n")))
    assert all(isinstance(it, SettledPiece) for it in steps) and len(steps) == len(run.pieces) > 1


@pytest.mark.parametrize(
    "answered",
    [
        answer(),
        answer("s0 pass 1"),
        answer("s1 pass 1", "s0 pass 1"),
        answer("s0 pass 1", "s1 pass 1", "s2 pass 1"),
        answer("s0 pass 1", "s1 pending"),
        answer("s0 pass 1", "s1 fail 1"),
        answer("s0 pass 1", "s1 fail 1 SEQ"),
        answer("s0 pass 1", "s1 pass -1"),
        answer("s0 pass 1", "s1 perhaps 1"),
        answer("s0 pass 1", "s1 pass 1 ").replace(b"total 2", b"total 3"),
        answer("s0 pass 1", "s1 pass 1").replace(b"total 2", b"total 3"),
        answer("s0 pass 1", "s1 pass 1").replace(b"pending 0", b"pending 1"),
        b"refused 11 HistoryFull\n" + answer("s0 pass 1", "s1 pass 1"),
        answer("s0 pass 1", "s1 pass 1") + b"more\n",
        b"",
    ],
)
def test_any_other_answer_is_not_taken(answered: bytes) -> None:
    with pytest.raises(UnexpectedAnswerError) as unexpected:
        parse_new_rows(answered, b"", [b"s0", b"s1"], 2)
    assert str(unexpected.value).isprintable()


@pytest.mark.parametrize(
    ("line", "message"),
    [
        (b"x" * 81, f"answered \"{'x' * 77}...\", which isn't the row that is due"),
        (b"x" * 80, f"answered \"{'x' * 80}\", which isn't the row that is due"),
        (b"refused " + b"x" * 73, f"refused {'x' * 69}..."),
    ],
)
def test_of_a_line_that_is_not_due_at_most_80_octets_are_shown(line: bytes, message: str) -> None:
    with pytest.raises(UnexpectedAnswerError) as unexpected:
        parse_new_rows(line + b"\n" + answer("s0 pass 1"), b"", [b"s0"], 1)
    assert str(unexpected.value) == message


def test_refusals_are_named_by_their_word() -> None:
    assert refusal_kind_if_refused(b"refused 4 BadValue\n" + answer()) == "BadValue"
    assert refusal_kind_if_refused(answer()) is None


@pytest.mark.parametrize(
    ("verdicts", "status"),
    [
        ([], 0),
        ([Verdict.PASS], 0),
        ([Verdict.PASS, Verdict.FAIL], 1),
        ([Verdict.SYNTAX], 1),
        ([Verdict.UNSUPPORTED], 1),
        ([Verdict.LIMIT], 1),
        ([Verdict.PASS, Verdict.NOT_RUN], 1),
        ([Verdict.FAIL, Verdict.ERROR], 2),
    ],
)
def test_the_status_tells_whether_all_passed(verdicts: list[Verdict], status: int) -> None:
    assert OutcomeTotals.of_outcomes(outcome(it) for it in verdicts).pass_fail_or_error_exit_status() == status


def outcome(verdict: Verdict, number: int = 1, is_strict: bool = False) -> ScriptOutcome:
    return ScriptOutcome("a.pkt", (), Row(verdict, number), is_strict=is_strict)


def test_totals_are_printed_in_the_words_of_the_program() -> None:
    assert str(OutcomeTotals.of_outcomes(outcome(it) for it in (Verdict.PASS, Verdict.FAIL, Verdict.PASS))) == (
        "total 3 pass 2 fail 1 syntax 0 unsupported 0 limit 0 error 0 not run 0"
    )


def test_a_script_without_an_event_is_a_warning_that_counts_where_it_is_strict() -> None:
    empty, strict = outcome(Verdict.PASS, 0), outcome(Verdict.PASS, 0, True)
    assert (empty.warnings, outcome(Verdict.PASS).warnings, outcome(Verdict.FAIL, 0).warnings) == (
        (PassWarning.NO_EVENT,),
        (),
        (),
    )
    assert (empty.lets_run_pass, strict.lets_run_pass, outcome(Verdict.PASS, 1, True).lets_run_pass) == (
        True,
        False,
        True,
    )
    counted = OutcomeTotals.of_outcomes([empty, strict, outcome(Verdict.PASS)])
    assert str(counted).endswith("total 3 pass 3 fail 0 syntax 0 unsupported 0 limit 0 error 0 not run 0 warnings 2")
    assert [
        OutcomeTotals.of_outcomes(it).pass_fail_or_error_exit_status()
        for it in ([empty], [strict], [strict, outcome(Verdict.ERROR)])
    ] == [
        0,
        1,
        2,
    ]
    assert (counted.passing_count_without_strict_warnings, counted.warnings) == (2, 2)
