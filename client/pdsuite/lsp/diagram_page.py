"""Has the diagram of a script drawn on a page of its own, by a process beside this one."""

import hashlib
import os

from pdsuite.lsp.workspace import Result
from pdsuite.packages import message_if_module_missing
from pdsuite.page.diagram_choice import Plot
from pdsuite.page.draw_process import FAULT
from pdsuite.page.folder import prepare_page_folder_or_refuse_foreign_files
from pdsuite.page.jobs import PageJob
from pdsuite.page.links import FOLDER, page_file_name_of, plot_file_names
from pdsuite.page.view_model import PageEntry, table_row_of
from pdsuite.programs.child_process import ChildProcess
from pdsuite.reports.report_cache import cache_folder
from pdsuite.watch.sender import LiveSender

_DRAWER = "pdsuite.page.draw_process"
_FOLDER = "drawn"
_DIGITS = 16


class DiagramPage:
    """A page that is being drawn; once its process has ended, `fault` says why it isn't there, if it isn't."""

    def __init__(self, result: Result, sender: LiveSender) -> None:
        path = result.file.path
        folder = cache_folder() / _FOLDER / hashlib.sha256(os.fsencode(path)).hexdigest()[:_DIGITS]
        prepare_page_folder_or_refuse_foreign_files(folder)
        self.page = folder / FOLDER / page_file_name_of(path)
        self.fault = message_if_module_missing("matplotlib")
        entry = PageEntry(result.outcome, result.text, Plot.NONE if self.fault else Plot.FILES, result.cause)
        regress, record = sender.program_paths
        rows = (table_row_of(result.outcome),)
        job = PageJob(folder, rows, plot_file_names(path), (entry,), not sender.is_proved, regress, record)
        self._worker = ChildProcess(_DRAWER, job)

    def fileno(self) -> int:
        """The descriptor that can be read once the process has printed something, or has ended."""
        return self._worker.fileno()

    def read_output_and_has_ended(self) -> bool:
        """Whether the page is drawn, or can't be."""
        for line in self._worker.read_lines():
            if line.startswith(FAULT):
                self.fault = line.removeprefix(FAULT)
        if self._worker.has_ended:
            status = self._worker.terminate_if_running_and_get_status()
            if status and not self.fault:
                self.fault = f"what draws the page ended with status {status}"
        return self._worker.has_ended

    def close(self) -> None:
        """Ends the process."""
        if not self._worker.has_ended:
            self._worker.terminate_if_running_and_get_status()
