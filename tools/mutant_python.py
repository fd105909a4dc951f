"""Whether the test of each mutant of Python and shell sees it: the test is run on a copy of the tree that has it.

A mutant names its test: `client NODE` or `tests NODE`, a test of pytest below client/tests or tests, or `shell FILE
NAME`, a line of a file of tests/shell. First each test is to pass on a copy as it is. Then a mutant is seen where its
test fails, or doesn't end in time; a test that isn't found, or that pytest can't begin, sees nothing.
"""
from __future__ import annotations

import shutil
import subprocess
from collections.abc import Iterable, Iterator, Sequence
from contextlib import contextmanager
from dataclasses import dataclass, field
from pathlib import Path
from queue import Queue
from typing import Optional, Union

from mutant_files import Mutant, MutantError, apply_mutant, files_and_texts_changed_by_mutant
from parallel import Commands
from proofs import TOP

PYTHON = "/usr/bin/python3"
# The status of `timeout` where the time is over, and of pytest where tests failed.
TOO_SLOW = 124
FAILED = 1
CommandLine = Sequence[Union[str, Path]]


@dataclass(frozen=True)
class FileMutant:
    """A mutant of Python or shell, and the file of mutants where it stands."""

    file: str
    mutant: Mutant

    @property
    def name(self) -> str:
        return f"{self.file} {self.mutant.name}"


@dataclass(frozen=True)
class NamedTest:
    """A test of pytest, by the folder in which it is started, or a line of a file of tests/shell, and its verdict."""

    kind: str
    place: str
    line: str = ""

    def has_passed_by_status_and_output(self, status: int, printed: str) -> bool:
        return f"ok shell {self.line}\n" in printed if self.line else status == 0

    def has_failed_or_timed_out_by_status_and_output(self, status: int, printed: str) -> bool:
        return status == TOO_SLOW or (f"FAILED shell {self.line}:\n" in printed if self.line else status == FAILED)


def test_folder_and_command(kind: str, places: Sequence[str], tree: Path) -> tuple[Path, CommandLine]:
    """The folder and the command that run tests of a kind in a tree: several of pytest, or one file of tests/shell."""
    if kind == "shell":
        return tree, [tree / "tests" / "shell.sh", *places]
    command = [PYTHON, "-I", "-B", "-m", "pytest", "-q", "-x", "--tb=short", "-p", "no:cacheprovider"]
    if kind == "tests":
        command += ["-c", "tests/pytest.ini"]
    return tree / ("client" if kind == "client" else "."), [*command, *(f"tests/{place}" for place in places)]


def parse_test_kind_and_place(mutant: FileMutant) -> NamedTest:
    """The test that a mutant names."""
    kind, *places = mutant.mutant.test.split(" ")
    if kind in ("client", "tests") and len(places) == 1:
        return NamedTest(kind, places[0])
    if kind == "shell" and len(places) == 2:
        return NamedTest(kind, *places)
    test = mutant.mutant.test
    raise MutantError(f"{mutant.name}: '{test}' is none of `client NODE`, `tests NODE` and `shell FILE NAME`")


@dataclass
class TreeCopies:
    """Copies of the tree in a folder, each for one mutant at a time, the seconds of a test, and the tested programs."""

    folder: Path
    seconds: int
    programs: Optional[Path] = None
    commands: Commands = field(default_factory=Commands)
    idle: "Queue[Path]" = field(default_factory=Queue)

    def make_trees(self, count: int) -> None:
        """Makes so many copies of the tree's files, but for those that git ignores."""
        self.folder.chmod(0o755)  # Tests run some of it as another user.
        listed = subprocess.run(
            ["git", "ls-files", "-z", "--cached", "--others", "--exclude-standard"], cwd=TOP, capture_output=True
        )
        files = [Path(it) for it in listed.stdout.decode().split("\0") if it]
        if listed.returncode or not files:
            raise MutantError("the files of the tree aren't known: it has to be a clone, and git there")
        for number in range(count):
            tree = self.folder / f"tree{number}"
            copy_files_and_git_add(files, tree)
            self.idle.put(tree)

    @contextmanager
    def lend_tree_without_restoring(self) -> Iterator[Path]:
        """A copy that nothing else uses."""
        tree = self.idle.get()
        try:
            yield tree
        finally:
            self.idle.put(tree)

    def run_tests_returning_status_and_output(
        self, kind: str, places: Sequence[str], tree: Path, line: str = ""
    ) -> tuple[int, str]:
        """The status of tests of a kind in a copy, and what they print; of tests/shell all lines, or the named one."""
        folder, command = test_folder_and_command(kind, places, tree)
        variables = {"PDSUITE_PROGRAMS": str(self.programs)} if self.programs else {}
        if line:
            variables["SHELL_TEST"] = line
        log = tree.with_suffix(".log")
        limited = ["timeout", "-k", "10", str(self.seconds), *command]
        status = self.commands.run_command(limited, folder, log, PYTHONDONTWRITEBYTECODE="1", **variables)
        return status, log.read_text(errors="replace")


def copy_files_and_git_add(files: Iterable[Path], tree: Path) -> None:
    """Copies files of this tree to another, and adds them to git there."""
    for file in files:
        if (TOP / file).is_symlink() or (TOP / file).is_file():
            (tree / file).parent.mkdir(parents=True, exist_ok=True)
            shutil.copy2(TOP / file, tree / file, follow_symlinks=False)
    for words in (["init", "-q"], ["add", "-A"]):
        subprocess.run(["git", *words], cwd=tree, check=True)


@contextmanager
def mutant_applied(mutant: FileMutant, tree: Path) -> Iterator[None]:
    """Applies a mutant to a copy, and takes it back at the end."""
    before = {path: path.read_bytes() for path, _ in files_and_texts_changed_by_mutant(mutant.mutant, tree)}
    try:
        apply_mutant(mutant.mutant, tree)
        yield
    finally:
        for path, text in before.items():
            path.write_bytes(text)


def try_and_print_mutant(mutant: FileMutant, copies: TreeCopies) -> bool:
    """Applies a mutant; whether its test sees it. Prints a line."""
    test = parse_test_kind_and_place(mutant)
    try:
        with copies.lend_tree_without_restoring() as tree, mutant_applied(mutant, tree):
            status, printed = copies.run_tests_returning_status_and_output(test.kind, [test.place], tree, test.line)
    except MutantError as reason:
        print(f"{mutant.name}: {reason}", flush=True)
        return False
    seen = test.has_failed_or_timed_out_by_status_and_output(status, printed)
    print(f"{mutant.name}: {'seen' if seen else 'NOT seen'} by {mutant.mutant.test}", flush=True)
    return seen


def output_if_tests_fail_without_mutant(tests: Sequence[NamedTest], copies: TreeCopies) -> str:
    """The output of tests of a kind without a mutant, if one doesn't pass; a line of tests/shell is run alone."""
    places = list(dict.fromkeys(it.place for it in tests))
    with copies.lend_tree_without_restoring() as tree:
        status, printed = copies.run_tests_returning_status_and_output(tests[0].kind, places, tree, tests[0].line)
    return "" if all(it.has_passed_by_status_and_output(status, printed) for it in tests) else printed[-2000:]


def refuse_failing_tests(tests: Iterable[NamedTest], copies: TreeCopies, at_once: int) -> None:
    """Refuses to go on where a test doesn't pass on the tree as it is; those of a kind of pytest are run together.

    A line of tests/shell is run alone, as it is with a mutant: one that needs those before it would fail with any.
    """
    parts: dict[tuple[str, str, str], list[NamedTest]] = {}
    for it in tests:
        parts.setdefault((it.kind, it.place, it.line) if it.line else (it.kind, "", ""), []).append(it)
    failures = [
        it
        for it in copies.commands.map_unordered(
            list(parts.values()), at_once, lambda it: output_if_tests_fail_without_mutant(it, copies)
        )
        if it
    ]
    if failures:
        raise MutantError("tests fail without a mutant:\n" + "\n".join(failures))


def try_python_mutants_returning_status(mutants: dict[str, list[Mutant]], at_once: int, copies: TreeCopies) -> int:
    """Tries mutants, one at a time in each copy; the status is 0 if all are seen."""
    file_mutants = [FileMutant(file, mutant) for file, each in mutants.items() for mutant in each]
    tests = [parse_test_kind_and_place(mutant) for mutant in file_mutants]
    copies.make_trees(at_once)
    refuse_failing_tests(tests, copies, at_once)
    seen = list(copies.commands.map_unordered(file_mutants, at_once, lambda it: try_and_print_mutant(it, copies)))
    print(f"{sum(seen)} seen, {len(seen) - sum(seen)} not seen")
    return 0 if all(seen) else 1
