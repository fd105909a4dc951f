"""`pdsuite measure`: what a change of the sender is worth, over modelled paths."""

import time
from collections.abc import Sequence
from dataclasses import dataclass, replace
from pathlib import Path
from tempfile import TemporaryDirectory

from pdsuite.compare.built_senders import build_missing_programs
from pdsuite.compare.sides import (
    Side,
    SideSettingsError,
    note_renamed_and_lacking_keys,
    refuse_commonly_lacked_keys,
    sides_before_and_after_change,
)
from pdsuite.faults import Fault
from pdsuite.measure.measurement import MeasureResult, Measurement, cases_of_paths, program_path_of_side
from pdsuite.measure.page import MeasurePage
from pdsuite.measure.paths import load_network_paths_matching
from pdsuite.measure.report import MeasureReport, as_json, plain_report, total_lines
from pdsuite.measure.statistics import figure_tables_with_holm_verdicts
from pdsuite.measure.transfer_folder import TransferFolder
from pdsuite.output.fitting import columns_without_autowrap
from pdsuite.output.screen import Screen, print_line_on_stderr
from pdsuite.programs.locate import REGRESS
from pdsuite.programs.lookup import SenderGuard
from pdsuite.programs.program import Program
from pdsuite.programs.refusals import query_refused_settings_retrying_once
from pdsuite.scripts.config import Claim, Layer, every_claim_of_layers, layer_of_option
from pdsuite.scripts.settings import Settings, sorted_settings
from pdsuite.signals import Stop, StoppedError

_FAULT = 2
_AGAIN = "measure again"


@dataclass(frozen=True)
class MeasureOptions:
    """The options of a call: which senders, over which paths, how often, and how the result is reported."""

    settings: str
    base_settings: str
    with_settings: str
    base: str | None
    other: str | None
    paths: Path | None
    only: Sequence[str]
    runs: int
    seed: int
    is_json: bool
    html: Path | None = None
    save: Path | None = None


def measure_transfers_of_two_senders(options: MeasureOptions, screen: Screen) -> int:
    """Measures two senders, and answers the exit status: 2 where transfers came to no end."""
    begin = time.monotonic()
    cases = cases_of_paths(load_network_paths_matching(options.paths, options.only), options.runs)
    try:
        with Stop() as stop, TemporaryDirectory(prefix="pdsuite-") as room:
            named = sides_before_and_after_change(
                options.base, options.base_settings, options.other, options.with_settings, Path(room)
            )
            screen.print_note_on_stderr(f"pdsuite: before: {named[0].sender}; after: {named[1].sender}")
            steady = SenderGuard(*(it.sender.lookup_of_programs_or_of_unbuilt_tree for it in named))
            sides = _build_programs_and_adapt_keys(named, layer_of_option(options.settings), stop, screen)
            common = sorted_settings(layer_of_option(options.settings).keys)
            keeping = _MeasureOutputs(options, sides, common)
            measuring = Measurement(cases, sides, common, options.seed)
            measured = measuring.run(stop, lambda done, count: screen.show_progress(done, count, "transfers"))
            screen.clear_live_lines()
            steady.require_unchanged(_AGAIN)
            report = _measure_report_from_result(measured, named, options.seed, time.monotonic() - begin)
            columns = (
                None
                if screen.terminal_columns_if_any is None
                else columns_without_autowrap(screen.terminal_columns_if_any)
            )
            screen.show(as_json(report) if options.is_json else plain_report(report, columns))
            if measured.status is not None:
                # The signal was heeded; the next one ends the process at once.
                with Stop(()) as unheeded:
                    keeping.write_page_and_transfer_scripts(report, unheeded)
                return measured.status
            keeping.write_page_and_transfer_scripts(report, stop)
            return _FAULT if any(it.unfinished for it in measured.cases) else 0
    except SideSettingsError as refused:
        for line in refused.lines:
            print_line_on_stderr(line)
        return _FAULT
    except StoppedError as stopped:
        return stopped.status


def _build_programs_and_adapt_keys(
    named: tuple[Side, Side], common: Layer, stop: Stop, screen: Screen
) -> tuple[Side, Side]:
    """The sides with programs, without keys that these lack."""
    built = build_missing_programs([it.sender for it in named], "optimised", stop, screen)
    if lacking := [it for it in built if not it.has_programs]:
        raise Fault(f"{lacking[0]}: no program of it can be built and kept here, and measuring needs one")
    claims = list(every_claim_of_layers([common]))
    sides = [
        _side_with_keys_that_sender_accepts(replace(side, sender=it), claims, stop) for side, it in zip(named, built)
    ]
    refuse_commonly_lacked_keys(sides, claims)
    note_renamed_and_lacking_keys(sides, screen.print_note_on_stderr)
    return sides[0], sides[1]


def _side_with_keys_that_sender_accepts(side: Side, claims: Sequence[Claim], stop: Stop) -> Side:
    """A side without the keys that its sender lacks."""
    program = program_path_of_side(side, REGRESS)
    return side.with_keys_that_sender_accepts(
        claims, lambda each: query_refused_settings_retrying_once(each, lambda: Program([program], stop))
    )


def _measure_report_from_result(
    measured: MeasureResult, sides: tuple[Side, Side], seed: int, seconds: float
) -> MeasureReport:
    """The report of what was measured."""
    return MeasureReport(
        figure_tables_with_holm_verdicts(measured.cases),
        (str(sides[0].sender), str(sides[1].sender)),
        seed,
        measured.transfer_count,
        seconds,
        not all(it.sender.is_proved for it in sides),
        measured.status is not None,
    )


class _MeasureOutputs:
    """The page and the scripts, where they are requested; that they can be written is seen first."""

    def __init__(self, options: MeasureOptions, sides: tuple[Side, Side], common: Settings) -> None:
        self._sides = sides
        self._common = common
        self._page = None if options.html is None else MeasurePage(options.html, sides, common)
        self._kept = None if options.save is None else TransferFolder(options.save, sides)

    def write_page_and_transfer_scripts(self, report: MeasureReport, stop: Stop) -> None:
        if self._kept is not None:
            self._kept.write_all_transfers([it.measured for it in report.tables], self._common, stop)
        if self._page is not None:
            self._page.write_page_and_remove_stale(report, total_lines(report), stop)
