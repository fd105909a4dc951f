"""`pdsuite run`: runs scripts and reports what came of them."""

import os
import time
from collections.abc import Callable, Iterable, Iterator, Mapping, Sequence
from contextlib import AbstractContextManager, closing, nullcontext
from dataclasses import dataclass
from functools import partial
from pathlib import Path
from typing import TYPE_CHECKING

from pdsuite.commands.options import thread_count_or_one_per_processor
from pdsuite.commands.report_files import ReportFiles
from pdsuite.faults import CutShortError, Fault
from pdsuite.files import append_to_file
from pdsuite.output.screen import Screen, print_line_on_stderr
from pdsuite.packages import raise_if_module_missing
from pdsuite.page.diagram_choice import diagram_choice_with_defaults
from pdsuite.programs.locate import (
    BATCH_TOOL,
    RECORD,
    REGRESS,
    TOP,
    UnprovedError,
    locate_given_or_proved_program,
    sha256_of,
)
from pdsuite.programs.lookup import CHANGED, ProgramLookup, SenderGuard, client_programs_lookup
from pdsuite.programs.program import Program
from pdsuite.programs.protocol import Cause
from pdsuite.programs.refusals import query_refusal_lines
from pdsuite.reports.as_json import JsonFormatter
from pdsuite.reports.fitting_formatter import FittingFormatter
from pdsuite.reports.formatter import Formatter
from pdsuite.reports.github import SUMMARY, GithubFormatter, step_summary
from pdsuite.reports.last_run import (
    save_report_or_note_failure,
    paths_of_scripts_failed_last_or_fault,
    formatter_of_new_rows_only,
)
from pdsuite.reports.plain import PlainFormatter
from pdsuite.reports.report import Report
from pdsuite.reports.tap import TapFormatter
from pdsuite.run.assertion_check import AssertionCheck
from pdsuite.run.batches import SuiteScript, batch_scripts_by_equal_settings
from pdsuite.run.collect import (
    INPUT,
    Selection,
    find_selected_script_files_and_read_configs,
    suite_scripts_with_config,
    read_standard_input_script_if_named,
)
from pdsuite.run.explainer import EXPLAIN_OPTIONS
from pdsuite.run.import_check import add_dropped_import_features_to_failures
from pdsuite.run.local_mapper import local_mapper
from pdsuite.run.run_batches import Mapper, SettledPiece, Step
from pdsuite.scripts.config import SuiteConfig, layer_of_option
from pdsuite.scripts.shards import Shard
from pdsuite.scripts.text import ScriptText
from pdsuite.scripts.unused_tables import unused_table_warning_lines_under_paths
from pdsuite.signals import Stop, StoppedError

if TYPE_CHECKING:
    from pdsuite.page.page_updates import PageUpdates
    from pdsuite.run.unproved_run import UnprovedResults


# More scripts than these are run by an optimised build, if one is kept, though a plain one says more of where it stops.
_MANY = 2_000


@dataclass(frozen=True)
class RunOptions:
    """The options of a call: which scripts, and how they are run."""

    paths: Sequence[Path]
    only: Sequence[str]
    shard: Shard | None
    last_failed: bool
    new_only: bool
    settings: str
    strict: bool
    workers: int | None
    scheduler: str | None
    proved: bool  # whether nothing else may run
    fail_fast: bool
    junit: Path | None
    json: Path | None
    tap: Path | None
    form: str | None
    full_diff: bool
    verbose: bool
    html: Path | None
    plot: str | None
    plots: int | None

    @property
    def may_leave_out_scripts(self) -> bool:
        """Whether scripts of the paths may be left out."""
        return bool(self.only) or self.shard is not None or self.last_failed

    @property
    def needed_programs(self) -> Sequence[str]:
        """The programs that it starts."""
        return (REGRESS, RECORD) if self.full_diff or self.html is not None else (REGRESS,)

    @property
    def report_files(self) -> ReportFiles:
        """The files that reports are written to, too."""
        return ReportFiles(self.junit, self.json, self.tap)

    @property
    def has_json_report(self) -> bool:
        """Whether a report has what is known of scripts by keys."""
        return self.form == "json" or self.json is not None

    @property
    def github_summary_file(self) -> Path | None:
        """The file for a summary that GitHub names, where its annotations are requested."""
        name = os.environ.get(SUMMARY)
        return Path(name) if self.form == "github" and name else None


def run_scripts(options: RunOptions, screen: Screen) -> int:
    """Runs the scripts, and answers the exit status."""
    begin = time.monotonic()
    form = _make_formatter(options)
    with Stop() as stop:
        suite = SuiteConfig(layer_of_option(options.settings))
        part = Selection(
            options.shard, paths_of_scripts_failed_last_or_fault(options.paths) if options.last_failed else None
        )
        try:
            scripts = _standard_input_or_found_scripts(options, suite, part, stop)
            if not scripts:
                screen.print_note_on_stderr(f"pdsuite: {part.empty_message()}")
            options.report_files.refuse_unwritable_or_colliding_files(it.path for it in scripts)
            if options.new_only:
                form = formatter_of_new_rows_only(
                    form,
                    PlainFormatter(True) if isinstance(form, PlainFormatter) else form,
                    options.paths,
                    screen.print_note_on_stderr,
                )
            look = client_programs_lookup(*options.needed_programs)
            steady = SenderGuard(look)
            program, page = _proved_program_or_none_if_allowed(options, look), None
            if is_unproved := program is None:
                # Refuse all that can be refused before anything is built.
                if lines := unused_table_warning_lines_under_paths(suite, options.paths):
                    return _print_errors_always_returning_fault(lines)
                page = _requested_page_updates_or_none(options, screen, is_unproved)
                program = _build_unproved_program_if_keepable(len(scripts), stop, screen)
            if program is None and options.scheduler is not None:
                look.require_program(REGRESS)  # workers run programs that stand somewhere
            if program is None:
                return _run_unproved_and_report(suite, scripts, options, form, screen, begin, stop, steady, page)
            refused = query_refusal_lines(suite.all_claims(), partial(Program, [program], stop))
            if lines := [*unused_table_warning_lines_under_paths(suite, options.paths), *refused]:
                return _print_errors_always_returning_fault(lines)
            page = page or _requested_page_updates_or_none(options, screen, is_unproved)
            with _cluster_or_local_mapper(options, program, stop, screen.print_note_on_stderr) as mapper:
                return _run_and_report(mapper, scripts, options, form, screen, begin, stop, steady, page, is_unproved)
        except StoppedError as stopped:
            return stopped.status


def _standard_input_or_found_scripts(
    options: RunOptions, suite: SuiteConfig, part: Selection, stop: Stop
) -> list[SuiteScript]:
    """The scripts that are meant: standard input, or those that are found."""
    if (script := read_standard_input_script_if_named(options.paths, suite, options.strict)) is not None:
        if options.may_leave_out_scripts:
            raise Fault("-: standard input is no part of a suite")
        return [script]
    return suite_scripts_with_config(
        find_selected_script_files_and_read_configs(options.paths, options.only, suite, stop, part),
        suite,
        options.strict,
    )


def _make_formatter(options: RunOptions) -> Formatter:
    match options.form:
        case "tap":
            return TapFormatter()
        case "json":
            return JsonFormatter(options.shard)
        case "github":
            return GithubFormatter()
    return PlainFormatter(options.verbose)


def _print_errors_always_returning_fault(lines: Iterable[str]) -> int:
    for line in lines:
        print_line_on_stderr(line)
    return 2


def _proved_program_or_none_if_allowed(options: RunOptions, look: ProgramLookup) -> Path | None:
    """The proved program, or none where the sender may run without proofs."""
    try:
        return look.require_program(REGRESS).path
    except UnprovedError:
        if options.proved or not BATCH_TOOL.is_file():
            raise
    return None


def _build_unproved_program_if_keepable(count: int, stop: Stop, screen: Screen) -> Path | None:
    """The program of a build of the sender as it stands for so many scripts, or none where no build can be kept."""
    # Only who has no proved program pays for what does without them.
    from pdsuite.programs.unproved_programs import use_kept_or_new_build_if_possible

    return (
        locate_given_or_proved_program(REGRESS)
        if use_kept_or_new_build_if_possible("any" if count > _MANY else "plain", stop, screen)
        else None
    )


def _run_unproved_and_report(
    suite: SuiteConfig,
    scripts: Sequence[SuiteScript],
    options: RunOptions,
    form: Formatter,
    screen: Screen,
    begin: float,
    stop: Stop,
    steady: SenderGuard,
    page: "PageUpdates | None",
) -> int:
    """Runs the scripts by `rt try` on the sender as it stands, reports what came of them, and answers the status."""
    from pdsuite.run.unproved_run import load_scripts_and_make_plan, build_and_run_plan

    plan = load_scripts_and_make_plan(
        batch_scripts_by_equal_settings(scripts), suite.all_claims(), EXPLAIN_OPTIONS, options.full_diff
    )
    tried = build_and_run_plan(plan, TOP, stop, screen.print_note_on_stderr)
    if tried.refused:
        return _print_errors_always_returning_fault([it.refusal_line for it in tried.refused])
    return _run_and_report(tried.settled_steps, scripts, options, form, screen, begin, stop, steady, page, True, tried)


def _requested_page_updates_or_none(options: RunOptions, screen: Screen, is_unproved: bool) -> "PageUpdates | None":
    """The page, if one is requested."""
    if options.html is None:
        return None
    # Only who requests a page pays for what draws it.
    from pdsuite.page.page_updates import PageUpdates

    return PageUpdates(
        options.html,
        diagram_choice_with_defaults(options.plot, options.plots),
        screen.print_note_on_stderr,
        is_unproved,
    )


def _steps_storing_texts_and_failure_causes(
    steps: Iterable[Step], texts: dict[int, ScriptText], causes: dict[int, Cause]
) -> Iterator[Step]:
    """The steps, whose texts are kept, and what is reported by keys of scripts that don't pass."""
    for step in steps:
        if isinstance(step, SettledPiece):
            texts.update(step.texts)
            rows = {script.index: outcome.row for script, outcome in step.outcomes}
            causes.update((index, it) for index, it in step.causes.items() if rows[index].line is not None)
        yield step


def _cluster_or_local_mapper(
    options: RunOptions, program: Path, stop: Stop, note: Callable[[str], None]
) -> AbstractContextManager[Mapper]:
    """The cluster that was requested, else the processors of this machine."""
    if options.scheduler is None:
        return nullcontext(
            local_mapper(program, EXPLAIN_OPTIONS, thread_count_or_one_per_processor(options.workers), stop)
        )
    # Only who has a cluster needs what speaks with it.
    raise_if_module_missing("distributed")
    from pdsuite.run.cluster import open_cluster_mapper_when_worker_ready

    return open_cluster_mapper_when_worker_ready(options.scheduler, (str(program), sha256_of(program)), stop, note)


def _run_and_report(
    mapper: Mapper,
    scripts: Sequence[SuiteScript],
    options: RunOptions,
    form: Formatter,
    screen: Screen,
    begin: float,
    stop: Stop,
    steady: SenderGuard,
    page: "PageUpdates | None",
    is_unproved: bool,
    tried: "UnprovedResults | None" = None,
) -> int:
    """Runs the scripts by whoever is given, reports what came of them, and answers the exit status."""
    # Other forms are for programs, which break no lines.
    report = Report(
        scripts,
        FittingFormatter(form, lambda: screen.terminal_columns_if_any) if options.form is None else form,
        screen,
        is_unproved,
    )
    checking = AssertionCheck(stop, screen.print_note_on_stderr)
    texts: dict[int, ScriptText] = {}
    causes: dict[int, Cause] = {}
    ended: StoppedError | CutShortError | None = None
    try:
        report.show_opening()
        with closing(mapper(batch_scripts_by_equal_settings(scripts))) as steps:
            kept_steps = steps if page is None else _steps_storing_texts_and_failure_causes(steps, texts, causes)
            kept_steps = add_dropped_import_features_to_failures(kept_steps)
            explained_steps = _with_whole_explanations(kept_steps) if options.has_json_report else kept_steps
            if options.full_diff:
                explained_steps = _with_line_diffs(explained_steps, tried, stop, screen.print_note_on_stderr)
            ended = _report_run_steps_returning_interruption(
                explained_steps, report, checking, screen, options.fail_fast
            )
        if has_changed := steady.has_changed():
            screen.print_note_on_stderr(f"pdsuite: {CHANGED}: run the scripts again")
        totals = report.show_rest_and_totals(time.monotonic() - begin)
        if ended is None:
            for line in checking.failed_assertion_lines_and_counts():
                print_line_on_stderr(line)
    finally:
        # Also where nothing can be shown any more.
        if INPUT not in options.paths:
            save_report_or_note_failure(
                options.paths,
                [*report.outcomes, *report.unshown_or_not_run_outcomes()],
                options.may_leave_out_scripts,
                screen.print_note_on_stderr,
            )
        faults = _write_report_files_returning_faults(options, report, time.monotonic() - begin)
        if page is not None and ended is None:
            ended = _draw_page_returning_interruption(page, report, texts, causes, screen, stop)
    if isinstance(ended, CutShortError):
        raise ended
    if faults or has_changed:
        return 2
    if ended is not None:
        return ended.status
    return 2 if page is not None and page.has_failed else totals.pass_fail_or_error_exit_status()


def _with_whole_explanations(steps: Iterable[Step]) -> Iterator[Step]:
    """The steps with whole explanations."""
    # Only who requests them pays for what reads scripts.
    from pdsuite.run.explanation import add_places_and_packet_fields_to_steps

    return add_places_and_packet_fields_to_steps(steps)


def _with_line_diffs(
    steps: Iterable[Step], tried: "UnprovedResults | None", stop: Stop, note: Callable[[str], None]
) -> Iterator[Step]:
    """The steps with what each line of a script that fails was met by."""
    # Only who requests it pays for what records scripts and reads them.
    from pdsuite.programs.recorder import Recorder
    from pdsuite.run.full_diff import add_line_diffs_to_failed_outcomes

    if tried is not None:
        recordings = tried.recordings
        return add_line_diffs_to_failed_outcomes(steps, lambda script, _: recordings[script.index])
    recorder = Recorder(stop, note)
    return add_line_diffs_to_failed_outcomes(
        steps,
        lambda script, text: recorder.record_script_or_return_and_note_reason(
            script.path, text.octets, script.settings
        ),
    )


def _report_run_steps_returning_interruption(
    steps: Iterable[Step], report: Report, checking: AssertionCheck, screen: Screen, fail_fast: bool
) -> StoppedError | CutShortError | None:
    """Reports each step, up to the last one or the one where it is to end; what ended it early, if anything did."""
    try:
        for step in steps:
            if not isinstance(step, SettledPiece):
                screen.print_note_on_stderr(str(step))
                continue
            report.show_outcomes_in_order(step.outcomes)
            checking.store_scripts_with_assertions(step)
            if fail_fast and not all(outcome.lets_run_pass for _, outcome in step.outcomes):
                break
    except (StoppedError, CutShortError) as ended:
        return ended
    return None


def _write_report_files_returning_faults(options: RunOptions, report: Report, seconds: float) -> list[Fault]:
    """Writes the files that are requested beside the report, and says why of each that can't be written."""
    if not options.report_files.requested_files and options.github_summary_file is None:
        return []
    outcomes = [*report.outcomes, *report.unshown_or_not_run_outcomes()]
    totals = report.outcome_totals_with_unproved_flag(outcomes)
    faults = options.report_files.write_reports_collecting_faults(outcomes, totals, seconds, options.shard)
    if options.github_summary_file is not None:
        try:
            append_to_file(options.github_summary_file, step_summary(outcomes, totals).encode())
        except Fault as fault:
            faults.append(fault)
    for it in faults:
        print_line_on_stderr(f"pdsuite: {it}")
    return faults


def _draw_page_returning_interruption(
    page: "PageUpdates",
    report: Report,
    texts: Mapping[int, ScriptText],
    causes: Mapping[int, Cause],
    screen: Screen,
    stop: Stop,
) -> StoppedError | None:
    """Has the page drawn; the signal that ended it, if one did."""
    from pdsuite.page.view_model import PageEntry

    outcomes = [*report.outcomes, *report.unshown_or_not_run_outcomes()]
    entries = [PageEntry(it, texts.get(index), cause=causes.get(index)) for index, it in enumerate(outcomes)]
    try:
        with page:
            page.queue_entries_and_advance_drawing(entries)
            page.wait_until_drawn(stop, lambda done, count: screen.show_progress(done, count, "pages drawn"))
    except StoppedError as stopped:
        return stopped
    finally:
        screen.clear_live_lines()
    return None
