"""The runs that stay up and explain: they are brought to hold what is wanted; where one ends a new one begins."""

from collections.abc import Callable, Iterator, Mapping
from dataclasses import dataclass

from pdsuite.output.octets import printable_path
from pdsuite.programs.program import ProgramEndedError
from pdsuite.programs.protocol import Cause
from pdsuite.programs.verdict import Row, Verdict
from pdsuite.run.batches import PIECE_SIZE, Batch, SuiteScript, split_into_chunks_of_size
from pdsuite.run.explainer import outcome_with_failure_reason_or_end_warning
from pdsuite.run.outcomes import ScriptOutcome
from pdsuite.run.run_batches import SettledPiece, Start, UnexplainedScript, run_batch
from pdsuite.scripts.settings import Settings
from pdsuite.watch.live_run import LiveRun
from pdsuite.watch.plan_changes import AddScript, RunChange, RunContents, WantedScript, plan_changes


@dataclass(frozen=True, slots=True)
class FatalScript:
    """A script on which runs ended, and the row that it has."""

    wanted: WantedScript
    row: Row
    is_lasting: bool  # only another text mends it: an empty run does answer


class LivePool:
    """All runs. `note` is reported of each that ends, `show_running` what is running.

    A script on which a run ends gets its row by one that tells nothing of it, if `plain_start` starts one.
    """

    def __init__(
        self,
        start: Start,
        note: Callable[[str], None],
        show_running: Callable[[str], None],
        plain_start: Start | None = None,
    ) -> None:
        self._start = start
        self._plain_start = plain_start
        self._note = note
        self._show_running = show_running
        self._runs: list[LiveRun] = []
        self._not_run: dict[str, FatalScript] = {}

    def __enter__(self) -> "LivePool":
        return self

    def __exit__(self, *error: object) -> None:
        for run in self._runs:
            run.program.kill_and_close()

    @property
    def runs(self) -> tuple[LiveRun, ...]:
        """The runs as they are now."""
        return tuple(self._runs)

    def update_runs_to_wanted_scripts(self, wanted: Mapping[str, WantedScript]) -> None:
        """Brings the runs to hold what is wanted."""
        self._not_run = {
            path: it for path, it in self._not_run.items() if it.is_lasting and wanted.get(path) == it.wanted
        }
        fit = {path: it for path, it in wanted.items() if path not in self._not_run}
        before = self.runs
        for change in plan_changes([it.contents for it in before], fit):
            self._show_running(_running_words(change))
            self._apply_change_or_restart_run(None if change.run is None else before[change.run], change)

    def restart_ended_runs(self) -> bool:
        """Begins anew what has ended by itself; whether anything had."""
        ended = False
        for run in self.runs:
            try:
                run.program.require_alive_and_silent()
            except ProgramEndedError as end:
                ended = True
                self._restart_run(run, run.contents, str(end))
        return ended

    def renew_long_runs(self, most: int) -> bool:
        """Starts a new run for each whose history has more acts than that, before the old one ends; whether any had."""
        worn = [run for run in self.runs if run.acts > most]
        for run in worn:
            place = self._runs.index(run)
            try:
                self._start_run(run.contents, place)
            except ProgramEndedError:
                continue  # the old one goes on
            self._end_run_returning_its_place(run)
        return bool(worn)

    def rows(self) -> Iterator[tuple[str, Row]]:
        """The row of each script, as it was printed last."""
        for run in self._runs:
            yield from run.rows.items()
        for path, it in self._not_run.items():
            yield path, it.row

    def causes_by_path(self) -> Mapping[str, Cause]:
        """The explanations of scripts by keys, by their paths."""
        return {path: it for run in self._runs for path, it in run.causes.items()}

    def outcome_with_explanation(self, outcome: ScriptOutcome, wanted: WantedScript) -> ScriptOutcome:
        """An outcome with its explanation."""
        causes = (run.causes[outcome.path] for run in self._runs if outcome.path in run.causes)
        return outcome_with_failure_reason_or_end_warning(outcome, next(causes, None), wanted.text)

    def step_counts_at_last_change_of_each_run(self) -> Mapping[str, int]:
        """How many steps scripts took that ran at the last change, by their paths."""
        return {path: it for run in self._runs for path, it in run.steps.items()}

    def _apply_change_or_restart_run(self, run: LiveRun | None, change: RunChange) -> None:
        if run is not None and not change.after.texts:
            self._end_run_returning_its_place(run)
            return
        try:
            if run is None:
                self._start_run(change.after, len(self._runs))
            else:
                run.carry_out_acts_and_update_results(change.acts, change.after)
        except ProgramEndedError as end:
            self._restart_run(run, change.after, str(end))

    def _start_run(self, contents: RunContents, place: int) -> None:
        """Starts a run that holds this, as the one with this number."""
        run = LiveRun(contents.settings, self._start)
        try:
            run.carry_out_acts_and_update_results(
                [AddScript(path, text) for path, text in contents.texts.items()], contents
            )
        except BaseException:
            run.program.kill_and_close()
            raise
        self._runs.insert(place, run)

    def _end_run_returning_its_place(self, run: LiveRun) -> int:
        """Ends a run; the number that it had."""
        place = self._runs.index(run)
        del self._runs[place]
        run.program.kill_and_close()
        return place

    def _restart_run(self, run: LiveRun | None, contents: RunContents, reason: str) -> None:
        """Starts a new run with all files of one that ended. If that ends too, each script is tried by itself."""
        place = len(self._runs) if run is None else self._end_run_returning_its_place(run)
        self._note(f"pdsuite: {reason}; a new run begins with {_path_or_count(list(contents.texts))}")
        try:
            self._start_run(contents, place)
        except ProgramEndedError:
            self._restart_without_fatal_scripts(contents, place)

    def _restart_without_fatal_scripts(self, contents: RunContents, place: int) -> None:
        """Finds the scripts on which a run ends, and starts one with all others."""
        rows = self._rows_of_fatal_scripts_by_batch_run(contents)
        rest = {path: text for path, text in contents.texts.items() if path not in rows}
        if rest:
            try:
                self._start_run(RunContents(contents.settings, rest), place)
            except ProgramEndedError as end:
                rows.update(dict.fromkeys(rest, Row(Verdict.ERROR, word=str(end))))
        is_lasting = bool(rows) and self._can_empty_run_answer(contents.settings)
        for path, row in rows.items():
            self._not_run[path] = FatalScript(WantedScript(contents.settings, contents.texts[path]), row, is_lasting)

    def _can_empty_run_answer(self, settings: Settings) -> bool:
        """Whether a run without scripts answers."""
        try:
            run = LiveRun(settings, self._start)
        except ProgramEndedError:
            return False
        try:
            run.carry_out_acts_and_update_results([], run.contents)
        except ProgramEndedError:
            return False
        finally:
            run.program.kill_and_close()
        return True

    def _rows_of_fatal_scripts_by_batch_run(self, contents: RunContents) -> dict[str, Row]:
        """The scripts on which a run ends twice, as `pdsuite run` finds them, each with its row."""
        scripts = [SuiteScript(index, path, contents.settings) for index, path in enumerate(contents.texts)]
        batch = Batch(contents.settings, tuple(split_into_chunks_of_size(scripts, PIECE_SIZE)))
        unexplained: set[str] = set()
        rows: dict[str, Row] = {}
        for step in run_batch(batch, self._start, lambda script: contents.texts[script.path], self._plain_start):
            if isinstance(step, SettledPiece):
                rows |= {script.path: it.row for script, it in step.outcomes}
            elif isinstance(step, UnexplainedScript):
                unexplained.add(step.script.path)
                self._note(str(step))
        return {path: it for path, it in rows.items() if it.verdict is Verdict.ERROR or path in unexplained}


def _running_words(change: RunChange) -> str:
    return f"running {_path_or_count(change.rerun_paths)}"


def _path_or_count(paths: list[str]) -> str:
    return printable_path(paths[0]) if len(paths) == 1 else f"{len(paths):,} scripts"
