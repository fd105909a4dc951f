"""Scripts that turn where another sender answers: each with the first event that differs, as `compare` shows it."""

from collections.abc import Callable, Iterable, Iterator, Mapping, Sequence
from dataclasses import dataclass
from pathlib import Path
from typing import Protocol

from pdsuite.compare.comparison import ComparedScript, ComparisonKind
from pdsuite.compare.divergence import Divergence, first_divergence_in_event_or_time
from pdsuite.programs.recorder import Recorder
from pdsuite.run.batches import SuiteScript, batch_scripts_by_equal_settings
from pdsuite.run.explainer import EXPLAIN_FAILURES
from pdsuite.run.local_mapper import local_mapper
from pdsuite.run.outcomes import ScriptOutcome
from pdsuite.run.run_batches import SettledPiece, UnexplainedScript
from pdsuite.scripts.text import ScriptText
from pdsuite.signals import Stop
from pdsuite.watch.folder_moves import Outcomes
from pdsuite.watch.plan_changes import WantedScript

Wanted = Mapping[str, WantedScript]
# Where the programs of a sender are; the one that records may be missing.
Programs = tuple[Path, Path | None]


@dataclass(frozen=True)
class ShownScripts:
    """The outcomes of scripts as they were shown, with the texts and settings that they are of."""

    outcomes: Outcomes
    wanted: Wanted


class EarlierSender(Protocol):
    """A sender with which the one that answers is compared."""

    def kept_or_new_outcomes_of_same_scripts(self, shown: ShownScripts, now: ShownScripts) -> Outcomes:
        """Its outcomes of the scripts as they are now: those that were shown, or those of runs of its own."""

    def programs(self) -> Programs | None:
        """Its programs, where they are there."""


@dataclass(frozen=True)
class EarlierBuild:
    """The sender that answered before: what was shown is of it."""

    sender: Programs | None

    def kept_or_new_outcomes_of_same_scripts(self, shown: ShownScripts, now: ShownScripts) -> Outcomes:
        return {path: it for path, it in shown.outcomes.items() if shown.wanted.get(path) == now.wanted.get(path)}

    def programs(self) -> Programs | None:
        return self.sender


class BaseSender:
    """A sender that stays: it runs the scripts whenever they are compared, those alone that aren't as they were."""

    def __init__(self, programs: Programs, workers: int, stop: Stop, note: Callable[[str], None]) -> None:
        self._programs = programs
        self._workers = workers
        self._stop = stop
        self._note = note
        self._known: dict[str, tuple[WantedScript, ScriptOutcome]] = {}

    def kept_or_new_outcomes_of_same_scripts(self, shown: ShownScripts, now: ShownScripts) -> Outcomes:
        self._known = {path: it for path, it in self._known.items() if now.wanted.get(path) == it[0]}
        left = {path: it for path, it in now.wanted.items() if path not in self._known}
        self._known |= {it.path: (left[it.path], it) for it in self._run_scripts(left)}
        return {path: outcome for path, (_, outcome) in self._known.items()}

    def programs(self) -> Programs | None:
        return self._programs

    def _run_scripts(self, wanted: Wanted) -> Iterator[ScriptOutcome]:
        scripts = [SuiteScript(index, path, it.settings) for index, (path, it) in enumerate(wanted.items())]

        def load_wanted_text(script: SuiteScript) -> ScriptText:
            return wanted[script.path].text

        for step in local_mapper(self._programs[0], EXPLAIN_FAILURES, self._workers, self._stop, load_wanted_text)(
            batch_scripts_by_equal_settings(scripts)
        ):
            if isinstance(step, SettledPiece):
                yield from (outcome for _, outcome in step.outcomes)
            elif isinstance(step, UnexplainedScript):
                self._note(str(step))


def find_turned_scripts(
    before: EarlierSender,
    programs: Programs,
    shown: ShownScripts,
    now: ShownScripts,
    stop: Stop,
    note: Callable[[str], None],
) -> list[ComparedScript]:
    """The scripts whose rows another sender turned, in the order of paths; `programs` are those that answer now."""
    old = before.kept_or_new_outcomes_of_same_scripts(shown, now)
    pairs = [(old[path], it) for path, it in now.outcomes.items() if path in old and old[path].row != it.row]
    recorders = [_recorder_if_program_exists(it, stop, note) for it in (before.programs(), programs)]
    return [
        _turned_script_with_divergence_if_known(index, one, other, now.wanted.get(other.path), recorders)
        for index, (one, other) in enumerate(pairs)
    ]


def _recorder_if_program_exists(programs: Programs | None, stop: Stop, note: Callable[[str], None]) -> Recorder | None:
    record = None if programs is None else programs[1]
    return None if record is None or not record.exists() else Recorder(stop, note, record)


def _turned_script_with_divergence_if_known(
    index: int,
    one: ScriptOutcome,
    other: ScriptOutcome,
    wanted: WantedScript | None,
    recorders: Sequence[Recorder | None],
) -> ComparedScript:
    parting = None if wanted is None else _divergence_of_recordings(other.path, wanted, recorders)
    return ComparedScript(index, ComparisonKind.TURNED, one, other, parting)


def _divergence_of_recordings(
    path: str, wanted: WantedScript, recorders: Iterable[Recorder | None]
) -> Divergence | None:
    """Where the recordings of a script part; None where one is missing."""
    texts = [
        it.record_script_or_return_and_note_reason(path, wanted.text.octets, wanted.settings).text
        for it in recorders
        if it is not None
    ]
    return first_divergence_in_event_or_time(*texts) if len(texts) == 2 and all(texts) else None
