"""Runs that stay up, and programs that an editor starts anew, by a program that takes all that it gets."""

import select
from pathlib import Path
from typing import Any

import pytest

from pdsuite.lsp import queries
from pdsuite.programs import program as programs
from pdsuite.programs.lookup import stamped_program
from pdsuite.programs.program import Program as StartedProgram, ProgramEndedError
from pdsuite.programs.protocol import SETTLE, add_command, script_name_of_number
from pdsuite.programs.verdict import Row, Verdict
from pdsuite.scripts.settings import Settings
from pdsuite.scripts.text import make_newline_ended_text_within_limits
from pdsuite.signals import Stop
from pdsuite.watch.live_run import LiveRun
from pdsuite.watch.plan_changes import Act, AddScript, RemoveScript, RunContents, SetKey
from pdsuite.watch.sender import LiveSender
from tests.helpers import HANGS

ONE = make_newline_ended_text_within_limits(b"one\n")


class PassingProgram:
    """Passes all scripts whose names it got, and keeps its queries."""

    def __init__(self, *words: object) -> None:
        self.queries: list[bytes] = []
        self.names: list[bytes] = []

    def __enter__(self) -> "PassingProgram":
        return self

    def __exit__(self, *why: object) -> None:
        ...

    def query_answer_regardless_of_errors(self, commands: bytes, most: int) -> bytes:
        self.queries.append(commands)
        for words in (line.split() for line in commands.split(b"\n")):
            if words[:1] == [b"add"]:
                self.names.append(words[1])
            elif words[:1] == [b"remove"]:
                self.names.remove(words[1])
        rows = b"".join(name + b" pass 1\n" for name in self.names)
        count = len(self.names)
        return rows + f"total {count} pass {count} fail 0 syntax 0 unsupported 0 limit 0 pending 0\n".encode()

    def query_with_errors(self, commands: bytes, most: int, most_errors: int) -> tuple[bytes, bytes]:
        before = list(self.names)
        answer = self.query_answer_regardless_of_errors(commands, most)
        ran = self.names if b"\nset " in b"\n" + commands else [it for it in self.names if it not in before]
        errors = (b'job 1 %b steps 3\n{"name": "%b", "line": 1, "verdict": "pass"}\n' % (it, it) for it in ran)
        return answer, b"".join(errors)


def started(settings: Settings) -> Any:
    return PassingProgram()


def carried_out(run: LiveRun, *acts: Act) -> int:
    """How many acts more a run has after these."""
    before = run.acts
    run.carry_out_acts_and_update_results(acts, RunContents((), {}))
    return run.acts - before


def test_an_act_is_recorded_with_the_start_and_the_end_of_each_job_that_it_leads_to() -> None:
    run = LiveRun((), started)
    assert carried_out(run, AddScript("a", ONE), AddScript("b", ONE), AddScript("c", ONE)) == 3 * 5
    assert run.rows == {it: Row(Verdict.PASS, 1) for it in "abc"}
    assert carried_out(run, SetKey("mss", "100")) == 1 + 4 * 3
    assert carried_out(run, RemoveScript("b"), SetKey("mss", "200")) == 5 + 1 + 4 * 2
    assert list(run.rows) == ["a", "c"]


@pytest.mark.parametrize("octets", range(1, 9))
def test_an_answer_is_found_however_reads_cut_it(octets: int, monkeypatch: pytest.MonkeyPatch) -> None:
    monkeypatch.setattr(programs, "_READ", octets)
    with Stop() as stop, StartedProgram(["sh", "-c", "read line; printf 'a total 1\ntotal 1\n'"], stop) as program:
        assert program.query_answer_regardless_of_errors(b"settle\n", 1_000) == b"a total 1\ntotal 1\n"


@pytest.mark.parametrize(
    ("said", "reason"), [("echo well", "well"), ("true", "sh ended with status 3")], ids=["words", "status"]
)
def test_what_is_told_of_a_job_is_no_reason_for_which_a_program_ended(said: str, reason: str) -> None:
    jobs = """echo 'job 1 s0 steps 3'; echo '{"name": "s0", "line": 1}'"""
    script_words = f"{{ {said}; {jobs}; }} >&2; exit 3"
    with Stop() as stop, StartedProgram(["sh", "-c", script_words], stop) as program:
        with pytest.raises(ProgramEndedError, match=f"^{reason}$"):
            program.query_answer_regardless_of_errors(b"settle\n", 1_000)


def test_what_is_told_stays_until_its_script_runs_again_or_goes() -> None:
    run = LiveRun((), started)
    run.carry_out_acts_and_update_results([AddScript("a", ONE), AddScript("b", ONE)], RunContents((), {}))
    first = run.causes["a"]
    assert (list(run.causes), run.steps) == (["a", "b"], {"a": 3, "b": 3})
    run.carry_out_acts_and_update_results([RemoveScript("b"), AddScript("c", ONE)], RunContents((), {}))
    assert run.causes.keys() == {"a", "c"} and run.causes["a"] is first
    assert run.steps == {"c": 3}
    run.carry_out_acts_and_update_results([SetKey("mss", "100")], RunContents((), {}))
    assert run.causes["a"] is not first and run.steps == {"a": 3, "c": 3}


def test_a_program_that_says_what_nobody_asked_is_at_an_end() -> None:
    """Whoever watches looks at it from time to time."""
    total = "total 0 pass 0 fail 0 syntax 0 unsupported 0 limit 0 pending 0"
    script_words = f"read line; echo {total}; sleep 0.3; echo x; sleep 20"
    with Stop() as stop, StartedProgram(["sh", "-c", script_words], stop) as program:
        assert program.query_answer_regardless_of_errors(b"settle\n", 1_000) == f"{total}\n".encode()
        with pytest.raises(ProgramEndedError, match="sh answered more than was asked"):
            while select.select([program.fileno()], [], [], HANGS)[0]:
                program.require_alive_and_silent()


def test_a_text_is_asked_with_the_octets_that_an_editor_has(monkeypatch: pytest.MonkeyPatch) -> None:
    """One half of a pair of UTF-16 stays what it is, so that no other text is judged in its place."""
    program: Any = PassingProgram()
    monkeypatch.setattr(queries, "Program", lambda words, stop: program)
    sender = LiveSender(stamped_program(Path(__file__)), None)
    with Stop() as stop:
        found = queries.ProgramQueries(sender, stop, lambda line: None).run_texts_for_rows(
            ["a\ud800", "\n" * 5_000, "b"], ()
        )
    assert found == [Row(Verdict.PASS, 1), None, Row(Verdict.PASS, 1)]
    texts = make_newline_ended_text_within_limits(b"a\xed\xa0\x80\n"), make_newline_ended_text_within_limits(b"b\n")
    assert program.queries == [
        add_command(script_name_of_number(0), texts[0]) + add_command(script_name_of_number(2), texts[1]) + SETTLE
    ]
