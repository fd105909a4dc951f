"""Has a page drawn by processes beside this one, and keeps it up: only what changed is drawn again."""

import os
import select
from collections.abc import Callable, Sequence
from dataclasses import replace
from pathlib import Path

from pdsuite.compare.comparison import ComparedScript
from pdsuite.files import write_file_atomically
from pdsuite.packages import raise_if_module_missing
from pdsuite.page.diagram_choice import DiagramChoice, Plot, choose_plot_of_each_script
from pdsuite.page.draw_process import FAILED, FAULT
from pdsuite.page.folder import prepare_page_folder_or_refuse_foreign_files
from pdsuite.page.jobs import PageJob
from pdsuite.page.links import plot_file_names
from pdsuite.page.notes import SenderNotes, turned_scripts_with_lines_of_first_ones
from pdsuite.page.render import SENDER, css_marking_pages_of_sender_before
from pdsuite.page.view_model import PageEntry, table_row_of
from pdsuite.programs.child_process import ChildProcess
from pdsuite.signals import Stop

_DRAWER = "pdsuite.page.draw_process"
# So many pages are worth a process more.
_SHARE = 128
_DRAWING = "another sender stands, and its pages are drawn"


class PageUpdates:
    """The page in a folder, and the processes that draw it; `note` gets the reason where one has to end."""

    def __init__(
        self, folder: Path, plots: DiagramChoice, note: Callable[[str], None], is_unproved: bool = False
    ) -> None:
        if plots.pattern is not None:
            raise_if_module_missing("matplotlib")
        prepare_page_folder_or_refuse_foreign_files(folder)
        self._plots = plots
        self._is_unproved = is_unproved
        self.has_failed = False
        self._folder = folder.absolute()
        self._note = note
        self._workers: dict[ChildProcess, tuple[PageEntry, ...]] = {}
        self._drawn: dict[str, PageEntry] = {}
        self._waiting: Sequence[PageEntry] | None = None
        self._entries: Sequence[PageEntry] = ()
        self._turned: Sequence[ComparedScript] = ()
        self._notes = SenderNotes()
        self._is_ending = False
        self._follows = False  # whether it is drawn of the sender that answers
        self._is_turning = False  # whether pages are of another sender than the one that they are to be drawn of
        self._words = self._shown_words = ""
        self._programs: tuple[Path | None, Path | None] = None, None

    def __enter__(self) -> "PageUpdates":
        return self

    def __exit__(self, *error: object) -> None:
        for worker in self._workers:
            worker.terminate_if_running_and_get_status()

    def filenos_of_drawing_workers(self) -> list[int]:
        """The descriptors of the drawing processes; each can be read once its process has drawn something or ended."""
        return [it.fileno() for it in self._workers]

    def set_programs_and_discard_drawn(self, regress: Path, record: Path | None, is_unproved: bool) -> None:
        """Has all drawn anew by other programs."""
        self._programs = regress, record
        self._is_unproved = is_unproved
        self._is_turning, self._follows = self._follows or self._is_turning, False
        self._drawn = {}
        self.terminate_drawing_workers()

    def mark_or_unmark_pages_of_sender_before(self, words: str) -> None:
        """Has all pages say that they are of the sender before, and why, until they are drawn of one that stands."""
        self._words = words
        shown_words = words or (_DRAWING if self._is_turning else "")
        if shown_words != self._shown_words:
            self._shown_words = shown_words
            write_file_atomically(self._folder / SENDER, css_marking_pages_of_sender_before(shown_words))

    def show_sender_refusals_in_table(self, refusals: Sequence[Sequence[str]]) -> None:
        """Has the table say why the sender isn't built or proved."""
        lines = tuple(tuple(it) for it in refusals)
        if lines == self._notes.refusals:
            return
        self._notes = replace(self._notes, refusals=lines)
        if self._follows or not self._entries:
            self._waiting = self._entries
            self.read_drawn_and_start_waiting()

    def terminate_drawing_workers(self) -> None:
        """Has what is drawn now ended, since it isn't wanted any more."""
        self._is_ending = True
        for worker in self._workers:
            worker.terminate()

    def queue_entries_and_advance_drawing(
        self, entries: Sequence[PageEntry], turned: Sequence[ComparedScript] = ()
    ) -> None:
        """Has the page drawn of these scripts, as soon as nothing else is drawn; the sender turned some."""
        self._follows = True
        plots = choose_plot_of_each_script((it.outcome for it in entries), self._plots)
        self._waiting = self._entries = [replace(it, plot=plot) for it, plot in zip(entries, plots)]
        if turned is not self._turned:
            self._turned, self._notes = turned, replace(
                self._notes, turned=turned_scripts_with_lines_of_first_ones(turned)
            )
        self.read_drawn_and_start_waiting()

    def read_drawn_and_start_waiting(self) -> None:
        """Reads what was drawn, and begins what waits."""
        for worker, entries in list(self._workers.items()):
            self._note_worker_progress_and_end(worker, entries)
        if self._waiting is not None and not self._workers:
            self._is_ending = False
            self._start_workers_for_changed_entries(self._waiting)
            self._waiting = None
        if self._is_turning and self._follows and not self._workers and not self._words:
            self._is_turning = False
            self.mark_or_unmark_pages_of_sender_before("")

    def wait_until_drawn(self, stop: Stop, advance: Callable[[int, int], None]) -> None:
        """Waits until all is drawn; `advance` gets how many pages are, and of how many."""
        count = sum(map(len, self._workers.values()))
        while self._workers:
            advance(len(self._drawn), count)
            select.select([stop.fileno(), *self.filenos_of_drawing_workers()], [], [])
            stop.raise_if_stopped()
            self.read_drawn_and_start_waiting()

    def _start_workers_for_changed_entries(self, entries: Sequence[PageEntry]) -> None:
        paths = {it.outcome.path for it in entries}
        self._drawn = {path: it for path, it in self._drawn.items() if path in paths}
        changed = [it for it in entries if self._drawn.get(it.outcome.path) != it]
        changed.sort(key=lambda it: it.plot is not Plot.NONE)  # diagrams take longest, so they come last, and to all
        diagrams = sum(it.plot is not Plot.NONE for it in changed)
        count = max(1, min(len(os.sched_getaffinity(0)), max(len(changed) // _SHARE, diagrams)))
        rows = tuple(table_row_of(it.outcome) for it in entries)
        plots = tuple(name for it in entries if it.plot is Plot.FILES for name in plot_file_names(it.outcome.path))
        for number in range(count):
            share = tuple(changed[number::count])
            table = rows if number == 0 else None
            job = PageJob(self._folder, table, plots, share, self._is_unproved, *self._programs, self._notes)
            self._workers[ChildProcess(_DRAWER, job)] = share

    def _note_worker_progress_and_end(self, worker: ChildProcess, entries: Sequence[PageEntry]) -> None:
        for line in worker.read_lines():
            if line.startswith(FAULT):
                self._set_failed_and_note_reason(line.removeprefix(FAULT))
            else:
                entry = entries[int(line)]
                self._drawn[entry.outcome.path] = entry
        if worker.has_ended:
            del self._workers[worker]
            status = worker.terminate_if_running_and_get_status()
            if status not in (0, FAILED) and not self._is_ending:
                self._set_failed_and_note_reason(f"what draws the page ended with status {status}")

    def _set_failed_and_note_reason(self, reason: str) -> None:
        self.has_failed = True
        self._note(f"pdsuite: {reason}")
