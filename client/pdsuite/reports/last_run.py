"""A run beside the one before it: which scripts failed then, which rows are new since, and the report it leaves."""

from collections.abc import Callable, Sequence
from pathlib import Path

from pdsuite.faults import Fault, error_reason
from pdsuite.output.octets import make_absolute_printable_path_function, printable_path
from pdsuite.reports.formatter import Formatter
from pdsuite.reports.new_rows import NewRowsFormatter
from pdsuite.reports.report_cache import LastReport
from pdsuite.run.outcomes import ScriptOutcome

# Prints a line that stands in no report.
PrintNote = Callable[[str], None]


def paths_of_scripts_failed_last_or_fault(paths: Sequence[Path]) -> frozenset[str]:
    """The absolute paths of the scripts that didn't pass when these paths were run last."""
    report = LastReport(paths).load_if_kept()
    if report is None:
        raise Fault(f"{_comma_separated_paths(paths)}: no run has left a report: run it without --last-failed first")
    return frozenset(path for path, it in report.rows.items() if it.is_run_and_makes_run_fail)


def formatter_of_new_rows_only(form: Formatter, turned: Formatter, paths: Sequence[Path], note: PrintNote) -> Formatter:
    """A form without the rows that are as they were when these paths were run last."""
    report = LastReport(paths).load_if_kept()
    if report is None:
        note(f"pdsuite: {_comma_separated_paths(paths)}: no run has left a report: all rows are new")
    return NewRowsFormatter(
        form, turned, {} if report is None else report.rows, make_absolute_printable_path_function()
    )


def save_report_or_note_failure(
    paths: Sequence[Path], outcomes: Sequence[ScriptOutcome], is_part: bool, note: PrintNote
) -> None:
    """Leaves the report of a run for the next one. Where it can't be written, that is reported, and is no fault."""
    try:
        LastReport(paths).save_run_keeping_rows_of_unrun(outcomes, is_part)
    except Fault as fault:
        note(f"pdsuite: {fault}: the report isn't kept")
    except OSError as error:
        place = f"{printable_path(error.filename)}: " if error.filename else ""
        note(f"pdsuite: {place}{error_reason(error)}: the report isn't kept")


def _comma_separated_paths(paths: Sequence[Path]) -> str:
    return ", ".join(map(printable_path, paths))
