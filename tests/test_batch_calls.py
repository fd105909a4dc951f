"""Tests of tests/harness/batch_calls.py and run_calls.py: which calls sources make in memory, and how."""

import subprocess
import time
from pathlib import Path

import pytest

from harness.batch_calls import fits_the_batch, outputs_in, length_prefixed, encode_starts
from harness.calls import ProgramCall, ProgramOutput
from harness.run_calls import SourceCalls, fits_rt_try_case, run_calls


@pytest.mark.parametrize(
    ("program", "arguments"),
    [
        ("pdregress", ""),
        ("pdregress", "--settings|mss = 700|--explain|--json|--leftovers"),
        ("pdregress", "--explain|--settings|mss = 700\nsack = false"),
        ("pdrecord", "--trace|--settings|"),
    ],
)
def test_arguments_that_both_programs_take_in_memory(program: str, arguments: str) -> None:
    assert fits_the_batch(ProgramCall(program, tuple(arguments.encode().split(b"|")) if arguments else ()))


@pytest.mark.parametrize(
    ("program", "arguments"),
    [
        ("pdregress", "--workers|2"),
        ("pdregress", "--explain|--explain"),
        ("pdregress", "--json"),
        ("pdregress", "--leftovers"),
        ("pdregress", "--settings"),
        ("pdregress", "--settings|--explain"),
        ("pdregress", "--settings=mss = 700"),
        ("pdregress", "--settings|mss = 700|--settings|mss = 800"),
        ("pdregress", "--trace"),
        ("pdrecord", "--explain"),
        ("pdrecord", "a.pkt"),
        ("test_desk", ""),
    ],
)
def test_arguments_that_need_a_process_of_their_own(program: str, arguments: str) -> None:
    assert not fits_the_batch(ProgramCall(program, tuple(arguments.encode().split(b"|")) if arguments else ()))


def test_starts_have_their_arguments_and_their_input_after_its_length() -> None:
    calls = [ProgramCall("pdrecord", (b"--trace",), b"12\n"), ProgramCall("pdregress", ())]
    assert encode_starts(calls) == b"16\npdrecord\0--trace3\n12\n9\npdregress0\n"


def test_outputs_up_to_the_call_that_ended_the_run() -> None:
    whole = length_prefixed(b"1\n2") + length_prefixed(b"") + length_prefixed(b"0\n")
    assert list(outputs_in(whole * 2)) == [ProgramOutput(b"1\n2", b"", 0)] * 2
    assert list(outputs_in(whole + whole[:-1])) == [ProgramOutput(b"1\n2", b"", 0)]
    assert list(outputs_in(whole + length_prefixed(b"a"))) == [ProgramOutput(b"1\n2", b"", 0)]


def test_calls_that_no_process_can_make_are_left() -> None:
    assert run_calls({}, [ProgramCall("pdregress", (b"a\nb",)), ProgramCall("pdrecord", (b"\xff",))]) == [None, None]


def test_arguments_that_a_case_has_as_they_are() -> None:
    fits = {it: fits_rt_try_case(ProgramCall("pdregress", (it,))) for it in (b"a\rb", b"{}a", b"a\r", b"a\nb", b"{}")}
    assert [it for it, fit in fits.items() if fit] == [b"a\rb", b"{}a"]


@pytest.mark.parametrize(
    ("ends", "last"), [("exit 0", "a, without proofs: 0 calls in 0 s"), ("kill -9 $$", "FAILED why")]
)
def test_calls_that_come_to_no_end_say_why(
    ends: str, last: str, tmp_path: Path, capsys: pytest.CaptureFixture[str]
) -> None:
    (tmp_path / "log").write_text("why")
    process = subprocess.Popen(["sh", "-c", ends])
    process.wait()
    calls = SourceCalls("a", {}, tmp_path, process, begun=time.monotonic())
    assert calls.has_ended_printing_time_and_failure() and capsys.readouterr().out.splitlines()[-1] == last
