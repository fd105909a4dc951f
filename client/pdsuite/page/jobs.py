"""The job of a process that draws, and how it is done: the table, and a page for each script."""

from collections.abc import Callable
from dataclasses import dataclass
from pathlib import Path

from pdsuite.files import write_file_atomically
from pdsuite.page.diagrams import make_script_diagram_and_files
from pdsuite.page.folder import TABLE, remove_stale_pages
from pdsuite.page.links import FOLDER
from pdsuite.page.notes import SenderNotes
from pdsuite.page.render import render_script_page, render_table_page
from pdsuite.page.view_model import PageEntry, TableRow, script_view_of
from pdsuite.programs.locate import is_programs_folder_set
from pdsuite.programs.recorder import Recorder
from pdsuite.programs.verdict import Verdict
from pdsuite.run.line_diff import LineDiff, line_diff_from_recording_or_its_fault
from pdsuite.signals import Stop


@dataclass(frozen=True)
class PageJob:
    """The folder, the rows of the table if that is to be written, and the scripts whose pages are.

    With the table come what it says of the sender, and the names that files of diagrams may have, since all others are
    taken away. Where the sender isn't proved, and no program is named, nothing is recorded for it.
    """

    folder: Path
    rows: tuple[TableRow, ...] | None
    plots: tuple[str, ...]
    entries: tuple[PageEntry, ...]
    is_unproved: bool = False
    regress: Path | None = None
    record: Path | None = None
    notes: SenderNotes = SenderNotes()


def write_table_and_script_pages_of_job(job: PageJob, stop: Stop, done: Callable[[int], None]) -> None:
    """Does a job. `done` gets the place of each script whose page stands."""
    if job.rows is not None:
        write_file_atomically(job.folder / TABLE, render_table_page(job.rows, job.is_unproved, job.notes))
        remove_stale_pages(job.folder, (it.file for it in job.rows), job.plots)
    recorder = Recorder(stop, lambda line: None, job.record)
    for place, entry in enumerate(job.entries):
        stop.raise_if_stopped()
        _write_script_page(job, entry, recorder)
        done(place)


def _has_proved_or_given_programs(job: PageJob) -> bool:
    """Whether there are programs to start: proved ones, or a build that is kept."""
    return not job.is_unproved or job.regress is not None or is_programs_folder_set()


def _write_script_page(job: PageJob, entry: PageEntry, recorder: Recorder) -> None:
    diagram = make_script_diagram_and_files(entry.outcome, entry.text, entry.plot, entry.cause, recorder, job.folder)
    sheet = script_view_of(
        entry,
        entry.cause,
        diagram,
        _known_or_recorded_line_diff(entry, recorder if _has_proved_or_given_programs(job) else None),
    )
    write_file_atomically(job.folder / FOLDER / sheet.row.file, render_script_page(sheet, job.is_unproved))


def _known_or_recorded_line_diff(entry: PageEntry, recorder: Recorder | None) -> LineDiff | None:
    """The line diff of a script that fails, where it is known or can be recorded."""
    outcome, text = entry.outcome, entry.text
    if recorder is None or text is None or outcome.row.verdict is not Verdict.FAIL or outcome.line_diff is not None:
        return outcome.line_diff
    written = text.octets.decode("utf-8", "surrogateescape")
    recording = recorder.record_script_or_return_and_note_reason(outcome.path, text.octets, outcome.settings)
    return line_diff_from_recording_or_its_fault(outcome.row, outcome.block_lines, written, recording, outcome.settings)
