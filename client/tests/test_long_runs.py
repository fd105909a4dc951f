"""Runs that stay up for long: how many steps a change costs, and what takes the place of one whose history is long."""

from typing import cast

import pytest

from pdsuite.programs.program import Program, ProgramEndedError
from pdsuite.programs.verdict import Verdict
from pdsuite.scripts.settings import Settings
from pdsuite.scripts.text import make_newline_ended_text_within_limits
from pdsuite.watch.live_pool import LivePool
from pdsuite.watch.plan_changes import WantedScript
from tests.model import Model

MSS = (("mss", 1_000),)


class Starts:
    """Starts models of the program, and keeps them."""

    def __init__(self) -> None:
        self.models: list[Model] = []
        self.is_dead = False

    def __call__(self, settings: Settings) -> Program:
        if self.is_dead:
            raise ProgramEndedError("no program")
        self.models.append(Model(settings))
        return cast(Program, self.models[-1])


@pytest.fixture
def starts() -> Starts:
    """Starts the models of `fleet`."""
    return Starts()


@pytest.fixture
def fleet(starts: Starts) -> LivePool:
    """Runs of models; they say nothing."""
    return LivePool(starts, print, lambda doing: None)


def wanted(number: int, settings: Settings = ()) -> dict[str, WantedScript]:
    """Ten scripts, the first of which is another one for each number."""
    texts = {f"{name}.pkt": f"{name}\n" for name in "abcdefghij"} | {"a.pkt": f"{number}\nx\n"}
    return {
        path: WantedScript(settings, make_newline_ended_text_within_limits(text.encode()))
        for path, text in texts.items()
    }


def test_a_run_says_the_steps_of_its_last_change_alone(fleet: LivePool) -> None:
    fleet.update_runs_to_wanted_scripts(wanted(0))
    (run,) = fleet.runs
    assert run.steps["a.pkt"] == 2
    fleet.update_runs_to_wanted_scripts(wanted(1))
    assert run.steps == {"a.pkt": 2}


def test_acts_are_counted_at_least_as_the_program_counts_them(fleet: LivePool) -> None:
    for number in range(20):
        fleet.update_runs_to_wanted_scripts(wanted(number, MSS if number % 5 == 4 else ()))
    (run,) = fleet.runs
    # An act, and the start and the end of each job that it leads to.
    assert run.acts >= 3 * (10 + 16) + 4 * (1 + 2 * 10)


def test_a_run_with_a_long_history_gives_way_to_a_new_one_that_holds_the_same(fleet: LivePool, starts: Starts) -> None:
    fleet.update_runs_to_wanted_scripts(wanted(0))
    assert not fleet.renew_long_runs(1_000) and len(starts.models) == 1
    before = dict(fleet.rows())
    assert fleet.renew_long_runs(10)
    old, new = starts.models
    assert old.is_closed and not new.is_closed and dict(fleet.rows()) == before
    fleet.update_runs_to_wanted_scripts(wanted(1))
    assert len(starts.models) == 2 and new.texts[b"s0"] == [b"1", b"x"]


def test_the_old_run_goes_on_where_no_new_one_begins(fleet: LivePool, starts: Starts) -> None:
    fleet.update_runs_to_wanted_scripts(wanted(0))
    starts.is_dead = True
    assert fleet.renew_long_runs(10) and not starts.models[0].is_closed and len(dict(fleet.rows())) == 10


def test_what_no_program_ran_runs_once_one_begins_again(fleet: LivePool, starts: Starts) -> None:
    starts.is_dead = True
    fleet.update_runs_to_wanted_scripts(wanted(0))
    assert {it.verdict for _, it in fleet.rows()} == {Verdict.ERROR} and not fleet.runs
    starts.is_dead = False
    fleet.update_runs_to_wanted_scripts(wanted(0))
    assert Verdict.ERROR not in {it.verdict for _, it in fleet.rows()} and len(dict(fleet.rows())) == 10
