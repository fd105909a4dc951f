"""Whether the test of each mutant of crates/*/tests.mutants sees it: the program is built with it, without proofs.

A mutant names its test: `story TITLE`, a story of a desk, `part NAME`, a further part of test_desk, or `run NAME`, a
run of pdregress, with each number of workers that its row has. First each test is to pass on the crates as they are.
Then a mutant is seen where its test answers otherwise, or doesn't end in time, each time that it is run.
"""
from __future__ import annotations

import contextlib
import shutil
import sys
from collections.abc import Iterator
from dataclasses import dataclass
from pathlib import Path

from crate_graph import parse_dependencies_between_crates, crates_below_one_in_build_order
from mutant_files import Mutant, MutantError, apply_mutant
from parallel import Commands
from proofs import TOP, copy_given_crates_without_output

sys.path.insert(0, str(TOP / "tests"))

from harness.calls import NO_STATUS, ProgramOutput  # noqa: E402
from harness.compare import ProgramRun, run_fault  # noqa: E402
from harness.named_runs import runs_named  # noqa: E402
from harness.tables import RowError as UnreadRow  # noqa: E402


@dataclass(frozen=True)
class CrateMutant:
    """A mutant of a crate that no contract refuses."""

    crate: str
    mutant: Mutant

    @property
    def name(self) -> str:
        return f"{self.crate} {self.mutant.name}"


@dataclass(frozen=True)
class ProgramTest:
    """The test that has to see a mutant: runs of a program."""

    program: str
    runs: tuple[ProgramRun, ...]


@dataclass(frozen=True)
class RunLimits:
    """How often each test is run, how many seconds a run may take, and where."""

    times: int
    seconds: int
    work: Path
    commands: Commands


def program_test_named_by_mutant(mutant: CrateMutant) -> ProgramTest:
    """The test that a mutant names."""
    try:
        runs = runs_named(mutant.mutant.test)
    except UnreadRow as why:
        raise MutantError(f"{mutant.name}: {why}") from None
    return ProgramTest(runs[0].program, tuple(runs))


def copy_program_crates(program: str, tree: Path) -> None:
    """A tree of a program and the libraries below it."""
    (tree / ".git").mkdir(parents=True)
    uses = parse_dependencies_between_crates((TOP / "crates.txt").read_text())
    copy_given_crates_without_output([*crates_below_one_in_build_order(program, uses), program], tree)


def build_and_run_test_counting_failed_runs(test: ProgramTest, tree: Path, times: int, limits: RunLimits) -> int:
    """How many of the test's runs, each made so many times, differ from what is wanted."""
    runs = {f"{number:05}": run for number, run in enumerate(test.runs * times)}
    cases, answers = tree / "cases", tree / "answers"
    for folder in (cases, answers):
        folder.mkdir()
    for name, run in runs.items():
        (cases / name).write_bytes(run.given)
        (cases / f"{name}.args").write_bytes(b"".join(it + b"\n" for it in run.arguments))
    arguments: list[str | Path] = ["--seconds", str(limits.seconds), "--tree", tree, test.program, cases, answers]
    log = tree / "log"
    if limits.commands.run_command([sys.executable, "-B", TOP / "tools" / "run_cases.py", *arguments], tree, log):
        raise MutantError(f"{test.program} isn't built:\n{log.read_text(errors='replace')[-1000:]}")
    return sum(bool(run_fault(run, read_program_answer_to_case(answers, name))) for name, run in runs.items())


def read_program_answer_to_case(folder: Path, name: str) -> ProgramOutput:
    """The program's output for a case; a case without an answer has no status."""
    output, errors = ((folder / f"{name}.{kind}").read_bytes() for kind in ("output", "errors"))
    status = (folder / f"{name}.status").read_text()
    return ProgramOutput(output, errors, int(status)) if status.isdigit() else ProgramOutput(b"", errors, NO_STATUS)


@contextlib.contextmanager
def temporary_tree_of(program: str, name: str, work: Path) -> Iterator[Path]:
    """A tree of a program that is removed at the end."""
    tree = work / name
    try:
        copy_program_crates(program, tree)
        yield tree
    finally:
        shutil.rmtree(tree, ignore_errors=True)


def refuse_failing_tests(tests: list[ProgramTest], limits: RunLimits) -> None:
    """Refuses to go on where a test doesn't pass on the crates as they are."""
    for program in sorted({it.program for it in tests}):
        runs = tuple(dict.fromkeys(run for it in tests if it.program == program for run in it.runs))
        with temporary_tree_of(program, f"{program}.as-it-is", limits.work) as tree:
            failed = build_and_run_test_counting_failed_runs(ProgramTest(program, runs), tree, 1, limits)
        if failed:
            raise MutantError(f"{failed} of {len(runs)} runs of {program} fail without a mutant")


def try_and_print_mutant(mutant: CrateMutant, test: ProgramTest, limits: RunLimits) -> bool:
    """Applies a mutant to a copy of its own; whether each run of its test fails. Prints a line."""
    count = len(test.runs) * limits.times
    try:
        with temporary_tree_of(test.program, f"{mutant.crate}.{mutant.mutant.name}", limits.work) as tree:
            apply_mutant(mutant.mutant, tree / "crates" / mutant.crate)
            failed = build_and_run_test_counting_failed_runs(test, tree, limits.times, limits)
    except MutantError as reason:
        print(f"{mutant.name}: {reason}", flush=True)
        return False
    print(f"{mutant.name}: seen in {failed} of {count}", flush=True)
    return failed == count


def try_test_mutants_returning_status(mutants: dict[str, list[Mutant]], at_once: int, limits: RunLimits) -> int:
    """Tries the mutants of some crates, each in a copy of its own; the status is 0 if all are seen."""
    crate_mutants = [CrateMutant(crate, mutant) for crate, each in mutants.items() for mutant in each]
    with_tests = [(mutant, program_test_named_by_mutant(mutant)) for mutant in crate_mutants]
    try:
        refuse_failing_tests([test for _, test in with_tests], limits)
    except BaseException:
        limits.commands.stop_all_and_refuse_new()
        raise
    seen = list(limits.commands.map_unordered(with_tests, at_once, lambda it: try_and_print_mutant(*it, limits)))
    print(f"{sum(seen)} seen, {len(seen) - sum(seen)} not seen")
    return 0 if all(seen) else 1
