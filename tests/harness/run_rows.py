"""Runs rows by the programs: by those that are built, or by their sources as they are, without proofs."""

import signal
import subprocess
import traceback
from collections.abc import Iterator, Sequence
from dataclasses import dataclass, field
from pathlib import Path
from typing import Any

from harness.calls import CallSteps, delay_one_step, run_tests_in_step, run_test_alone
from harness.compare import RowCase, RowResult
from harness.kinds import CaseGroup
from harness.recordings import RECORDS
from harness.run_calls import Commands, run_calls
from harness.stories import STORIES
from harness.tables import PROGRAM, TOP

# The programs that have a launcher at the top, and all programs.
LAUNCHED = (PROGRAM, RECORDS)
PROGRAMS = (*LAUNCHED, "test_desk", "test_book", "test_sender")
# A group, and those of its cases that are run.
Selection = tuple[CaseGroup, Sequence[RowCase[Any]]]


@dataclass(frozen=True)
class Programs:
    """The commands of programs, those of stories as a user types them, and why the others aren't built."""

    direct: Commands = field(default_factory=dict)
    launched: Commands = field(default_factory=dict)
    unbuilt: tuple[str, ...] = ()

    def commands_launched_for_stories_else_direct(self, group: CaseGroup) -> Commands:
        return self.launched if group.kind is STORIES else self.direct

    def are_all_built_for(self, groups: Sequence[CaseGroup]) -> bool:
        """Whether all programs of these groups are built."""
        return all(program in self.direct for group in groups for program in group.programs)


def programs_in(folder: Path) -> Programs:
    """The programs of a folder; of those that aren't there the sources are run."""
    found = {program: [folder / program] for program in PROGRAMS if (folder / program).exists()}
    return Programs(found, found)


def proved_programs() -> Programs:
    """The programs that are proved, with nothing changed since."""
    direct, unbuilt = {}, []
    for program in PROGRAMS:
        done = subprocess.run([TOP / "tools" / "proved_program.sh", program], capture_output=True, text=True)
        if done.returncode:
            unbuilt.append(done.stderr.strip())
        else:
            direct[program] = [Path(done.stdout.strip())]
    by_name: dict[str, Sequence[str | Path]] = {it: [TOP / it, "--proved"] for it in LAUNCHED if it in direct}
    return Programs(direct, {**direct, **by_name}, tuple(unbuilt))


def interrupt_at_sigterm() -> None:
    """Lets SIGTERM end what was started, as Ctrl-C does."""
    signal.signal(signal.SIGTERM, signal.default_int_handler)


def check_cases_guarded(group: CaseGroup, cases: Sequence[RowCase[Any]]) -> CallSteps[list[RowResult]]:
    """Checks some cases of a group; each fails where the output of a program can't be read."""
    try:
        return (yield from group.kind.check_cases(cases))
    except Exception:
        return [RowResult(traceback.format_exc())] * len(cases)


def check_selection(selection: Selection, programs: Programs) -> list[RowResult]:
    """Checks some cases of a group."""
    return run_test_alone(
        check_cases_guarded(*selection),
        lambda calls: run_calls(programs.commands_launched_for_stories_else_direct(selection[0]), calls),
    )


def check_selections_in_step(selections: Sequence[Selection], programs: Programs) -> Iterator[list[RowResult]]:
    """Checks several groups in step, so that the sources of each program are built once a step."""
    # Recordings are run by the other program in the second step, so its own cases wait for that step.
    has_recordings = any(set(group.programs) == {RECORDS, PROGRAM} for group, _ in selections)
    tests = [
        delay_one_step(check_cases_guarded(*it))
        if has_recordings and it[0].programs == (PROGRAM,)
        else check_cases_guarded(*it)
        for it in selections
    ]
    return run_tests_in_step(tests, lambda calls: run_calls(programs.direct, calls))
