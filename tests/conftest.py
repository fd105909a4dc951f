"""Collects each row of tests/cases as a test, and tells rows to the programs as they are built; see tests/README.md."""

import fcntl
import json
import os
import signal
from collections.abc import Iterator, Sequence
from dataclasses import asdict
from pathlib import Path

import pytest
from _pytest._code.code import ExceptionInfo, TerminalRepr
from _pytest.terminal import TerminalReporter

from harness.compare import RowCase, RowResult
from harness.kinds import CaseGroup, read_groups
from harness.without_pytest import number_at_least
from harness.tables import DrawOptions
from harness.run_rows import (
    PROGRAMS,
    Programs,
    check_selection,
    check_selections_in_step,
    interrupt_at_sigterm,
    programs_in,
    proved_programs,
)

NEEDS_BUILT = "needs a built program"


@pytest.fixture(autouse=True, scope="session")
def _heeded_signals() -> None:
    """Has no signal ignored, whoever started the tests: `nohup` ignores SIGHUP, a shell SIGINT in the background."""
    for number in (signal.SIGINT, signal.SIGTERM, signal.SIGHUP):
        if signal.getsignal(number) == signal.SIG_IGN:
            signal.signal(number, signal.SIG_DFL)


class RowFailure(Exception):
    """The fault of a row."""


class RowFile(pytest.File):
    """A file of rows."""

    def collect(self) -> Iterator["RowTable"]:
        for group in read_groups(self.path, draw_options_of(self.config)):
            yield RowTable.from_parent(self, name=group.name, group=group)


class RowTable(pytest.Collector):
    """A table of rows."""

    def __init__(self, group: CaseGroup, **more: object) -> None:
        super().__init__(**more)  # type: ignore[arg-type]
        self.group = group

    def collect(self) -> Iterator["RowTest"]:
        for case in self.group.cases:
            yield RowTest.from_parent(self, name=case.name, case=case)


class RowTest(pytest.Item):
    """A row."""

    def __init__(self, case: RowCase[object], **more: object) -> None:
        super().__init__(**more)  # type: ignore[arg-type]
        self.case = case

    def runtest(self) -> None:
        result = row_runner_of(self.config).run_table_of_row_once_and_get_result(self)
        if result.fault:
            raise RowFailure(result.fault)
        if result.is_unanswered:
            pytest.skip(NEEDS_BUILT)

    def repr_failure(self, excinfo: ExceptionInfo[BaseException]) -> str | TerminalRepr:  # type: ignore[override]
        return str(excinfo.value) if isinstance(excinfo.value, RowFailure) else super().repr_failure(excinfo)

    def reportinfo(self) -> tuple[Path, int, str]:
        return self.path, self.case.row.line - 1, self.name


class SessionRows:
    """Runs the rows of a session, and keeps the results."""

    def __init__(self, programs: Programs) -> None:
        self.programs = programs
        self.results: dict[str, RowResult] = {}

    def run_table_of_row_once_and_get_result(self, item: RowTest) -> RowResult:
        """The result of a row; all rows of its table that are to be tested are run together."""
        if item.nodeid not in self.results:
            together = [it for it in rows_of_session(item.session) if it.parent is item.parent]
            self.keep_results(
                together, check_selection((case_group_of_row(item), [it.case for it in together]), self.programs)
            )
        return self.results[item.nodeid]

    def keep_results(self, items: Sequence[RowTest], results: Sequence[RowResult]) -> None:
        self.results.update(zip((it.nodeid for it in items), results))

    def are_programs_of_session_rows_built(self, session: pytest.Session) -> bool:
        """Whether all programs of the rows of a session are built."""
        return self.programs.are_all_built_for(
            [case_group_of_row(items[0]) for items in rows_of_session_by_table(session)]
        )

    def run_all_rows(self, session: pytest.Session) -> None:
        """Runs all rows, after one build of each program that isn't built, or a few."""
        selections = [
            (case_group_of_row(items[0]), [it.case for it in items]) for items in rows_of_session_by_table(session)
        ]
        for items, results in zip(
            rows_of_session_by_table(session), check_selections_in_step(selections, self.programs)
        ):
            self.keep_results(items, results)


ROW_RUNNER = pytest.StashKey[SessionRows]()
STATUS = pytest.StashKey[int]()


def case_group_of_row(item: RowTest) -> CaseGroup:
    assert isinstance(item.parent, RowTable)
    return item.parent.group


def rows_of_session(session: pytest.Session) -> list[RowTest]:
    return [it for it in session.items if isinstance(it, RowTest)]


def rows_of_session_by_table(session: pytest.Session) -> list[list[RowTest]]:
    """The rows of a session, table by table."""
    tables: dict[object, list[RowTest]] = {}
    for item in rows_of_session(session):
        tables.setdefault(item.parent, []).append(item)
    return list(tables.values())


def is_xdist_worker(config: pytest.Config) -> bool:
    """Whether this is one of the processes of `-n`."""
    return hasattr(config, "workerinput")


class ProcessCount:
    """The hook of xdist that chooses how many processes there are."""

    def pytest_xdist_auto_num_workers(self, config: pytest.Config) -> int:
        """With `-n auto`, one for each processor, and none where sources are run, all at once."""
        programs = row_runner_of(config).programs
        return len(os.sched_getaffinity(0)) if all(it in programs.direct for it in PROGRAMS) else 0


def pytest_addoption(parser: pytest.Parser, pluginmanager: pytest.PytestPluginManager) -> None:
    if pluginmanager.hasplugin("xdist"):
        pluginmanager.register(ProcessCount())
    group = parser.getgroup("rows", "programs that run rows")
    group.addoption("--proved", action="store_true", help="the proved programs alone; if one isn't built, that fails")
    group.addoption("--unproved", action="store_true", help="the sources as they are, without proofs")
    group.addoption("--programs", metavar="FOLDER", type=Path, help="those of a folder, and the sources of others")
    group.addoption(
        "--seed", metavar="N", type=number_at_least(0), help="draws random rows and recoveries from this seed"
    )
    group.addoption(
        "--rows", metavar="N", type=number_at_least(1), help="draws so many rows at least, or recoveries, a table"
    )


def draw_options_of(config: pytest.Config) -> DrawOptions:
    return DrawOptions(config.getoption("--seed"), config.getoption("--rows"))


def row_runner_of(config: pytest.Config) -> SessionRows:
    """The runner of the rows of a session, by the programs that were chosen."""
    if ROW_RUNNER not in config.stash:
        if folder := config.getoption("--programs"):
            programs = programs_in(folder.absolute())
        else:
            programs = Programs() if config.getoption("--unproved") else proved_programs()
        config.stash[ROW_RUNNER] = SessionRows(programs)
    return config.stash[ROW_RUNNER]


def pytest_cmdline_main(config: pytest.Config) -> int | None:
    """Fails where a program isn't built that has to be."""
    interrupt_at_sigterm()
    unbuilt = row_runner_of(config).programs.unbuilt if config.getoption("--proved") else ()
    if not unbuilt:
        return None
    print(*(f"FAILED {it}" for it in unbuilt), f"0 passed, {len(unbuilt)} failed", sep="\n")
    return 1


def pytest_collect_file(file_path: Path, parent: pytest.Collector) -> RowFile | None:
    return RowFile.from_parent(parent, path=file_path) if file_path.suffix == ".cases" else None


def pytest_collection_finish(session: pytest.Session) -> None:
    """Before the first test, runs the rows that are run at once; of the processes of `-n` the first one does."""
    config, runner = session.config, row_runner_of(session.config)
    if config.option.collectonly or runner.are_programs_of_session_rows_built(session):
        return
    if not is_xdist_worker(config):
        with config.pluginmanager.getplugin("capturemanager").global_and_fixture_disabled():
            return runner.run_all_rows(session)
    kept = config._tmp_path_factory.getbasetemp().parent / "results.json"  # type: ignore[attr-defined]
    with kept.with_suffix(".lock").open("w") as lock:
        fcntl.flock(lock, fcntl.LOCK_EX)
        if not kept.exists():
            runner.run_all_rows(session)
            kept.write_text(json.dumps({name: asdict(it) for name, it in runner.results.items()}))
    runner.results = {name: RowResult(**it) for name, it in json.loads(kept.read_text()).items()}


def pytest_terminal_summary(terminalreporter: TerminalReporter) -> None:
    """Names the rows that weren't run, since they need a built program."""
    not_run = [it.nodeid for it in terminalreporter.stats.get("skipped", []) if NEEDS_BUILT in str(it.longrepr)]
    for name in not_run:
        terminalreporter.write_line(f"not run, {NEEDS_BUILT}: {name}")
    if not_run:
        terminalreporter.write_line(f"{len(not_run)} rows need a built program")


def pytest_sessionfinish(session: pytest.Session, exitstatus: int) -> None:
    session.config.stash[STATUS] = exitstatus


def pytest_unconfigure(config: pytest.Config) -> None:
    """Prints how many passed and failed; a run that comes to no end, or finds no test, counts as one that failed."""
    reporter = config.pluginmanager.getplugin("terminalreporter")
    if reporter is not None and not is_xdist_worker(config):
        passed, failed, errors = (len(reporter.stats.get(it, [])) for it in ("passed", "failed", "error"))
        has_passed = config.stash.get(STATUS, None) == pytest.ExitCode.OK
        print(f"{passed} passed, {failed + errors or int(not has_passed)} failed")
