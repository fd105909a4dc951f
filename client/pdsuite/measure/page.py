"""The page of a measurement: of each case its figures, the distributions of both senders, and its worst run."""

from collections.abc import Iterator, Sequence
from pathlib import Path

from pdsuite.compare.sides import Side
from pdsuite.diagram.timeline import timeline_if_any_packet
from pdsuite.files import write_file_atomically
from pdsuite.measure.measurement import Pair, TransferCase, program_path_of_side, side_settings_with_path_mss
from pdsuite.measure.report import (
    MeasureReport,
    row_cells_without_verdict,
    title_of_case,
    first_unplayed_reason_and_count,
)
from pdsuite.measure.statistics import ChangeVerdict, FigureTable
from pdsuite.measure.transfer import TransferResult
from pdsuite.packages import message_if_module_missing
from pdsuite.page.folder import TABLE, prepare_page_folder_or_refuse_foreign_files, remove_stale_pages
from pdsuite.page.measure_view import MeasurePicture, MeasureRow, MeasureSection
from pdsuite.page.render import render_measure_page
from pdsuite.programs.locate import RECORD
from pdsuite.programs.recorder import TRACE, record_texts
from pdsuite.programs.trace import traced_events_in
from pdsuite.scripts.settings import Settings
from pdsuite.signals import Stop

_SIDES = ("before", "after")
_STYLES = {
    ChangeVerdict.BETTER: "pass",
    ChangeVerdict.WORSE: "fail",
    ChangeVerdict.UNSHOWN: "gloss",
    ChangeVerdict.SAME: "gloss",
}


class MeasurePage:
    """The page in a folder. Worst runs are recorded by the programs of both sides."""

    def __init__(self, folder: Path, sides: tuple[Side, Side], common: Settings) -> None:
        prepare_page_folder_or_refuse_foreign_files(folder)
        self._folder = folder
        self._sides = sides
        self._common = common

    def write_page_and_remove_stale(self, report: MeasureReport, totals: Sequence[str], stop: Stop) -> None:
        """Writes the page."""
        sections = [self._make_section(number, it, stop) for number, it in enumerate(report.tables)]
        write_file_atomically(
            self._folder / TABLE, render_measure_page(sections, totals, report.names, report.is_unproved)
        )
        remove_stale_pages(self._folder, (), ())

    def _make_section(self, number: int, table: FigureTable, stop: Stop) -> MeasureSection:
        measured = table.measured
        case = measured.case
        pictures = (
            tuple(self._time_distribution_and_worst_run_pictures(case, measured.pairs, stop)) if measured.pairs else ()
        )
        rows = tuple(MeasureRow(row_cells_without_verdict(it), it.verdict, _STYLES[it.verdict]) for it in table.rows)
        unplayed = first_unplayed_reason_and_count(table) if measured.unfinished else ""
        title = title_of_case(case, len(measured.pairs))
        return MeasureSection(f"case-{number}", title, case.path.source, rows, pictures, unplayed)

    def _time_distribution_and_worst_run_pictures(
        self, case: TransferCase, pairs: Sequence[Pair], stop: Stop
    ) -> Iterator[MeasurePicture]:
        """The distributions of both sides, and the diagrams of the run that is worst for the sender after."""
        if reason := message_if_module_missing("matplotlib"):
            yield MeasurePicture("pictures", "", f"Nothing is drawn: {reason}")
            return
        # Only who draws pays for what draws.
        from pdsuite.diagram.distributions import wide_and_narrow_distribution_svg_text

        times = [[it.sides[side].time / 1_000 for it in pairs] for side in (0, 1)]
        yield MeasurePicture(
            "time to deliver",
            wide_and_narrow_distribution_svg_text(times, _SIDES, "milliseconds until all is delivered"),
        )
        worst = max(pairs, key=lambda it: (it.after.time, it.after.time - it.before.time))
        for side, delivery in enumerate(worst.sides):
            title = f"run {worst.run}, the worst for the sender after: {_SIDES[side]}"
            yield self._time_sequence_diagram_of_transfer(case, self._sides[side], delivery, title, stop)

    def _time_sequence_diagram_of_transfer(
        self, case: TransferCase, side: Side, delivery: TransferResult, title: str, stop: Stop
    ) -> MeasurePicture:
        """The time-sequence diagram of a transfer, as the side's own program records it."""
        if not side.sender.has_recorder_or_is_unbuilt:
            return MeasurePicture(title, "", "It isn't drawn: there is no pdrecord.")
        settings = side_settings_with_path_mss(side, self._common, case.path)
        script = [delivery.inputs_only_script_octets()]
        (recording,) = record_texts(program_path_of_side(side, RECORD), script, settings, stop, (TRACE,))
        timeline = timeline_if_any_packet(traced_events_in(recording.text))
        if timeline is None:
            return MeasurePicture(title, "", f"It isn't drawn: {recording.fault or 'nothing is recorded'}.")
        from pdsuite.diagram.pictures import wide_and_narrow_svgs_for_page

        return MeasurePicture(title, wide_and_narrow_svgs_for_page(timeline))
