"""Watching: each change of scripts and of the sender is followed, and shown once that is answered."""

import select
import time
from collections.abc import Callable, Iterable, Mapping, Sequence
from contextlib import ExitStack
from dataclasses import dataclass, replace
from typing import TYPE_CHECKING, NoReturn

from pdsuite.output.screen import Screen
from pdsuite.programs.lookup import SenderChangedError
from pdsuite.programs.program import Program
from pdsuite.programs.protocol import Cause
from pdsuite.programs.refusals import query_refusal_lines
from pdsuite.programs.verdict import Row, Verdict
from pdsuite.run.batches import BATCH_SIZE
from pdsuite.run.explainer import EXPLAIN_OPTIONS
from pdsuite.run.outcomes import ScriptOutcome
from pdsuite.run.run_batches import starter_with_options, starter_without_explanations
from pdsuite.scripts.config import Claim, Layer, every_claim_of_layers
from pdsuite.scripts.settings import Settings
from pdsuite.scripts.text import ScriptText
from pdsuite.signals import Stop
from pdsuite.watch.folder_moves import Outcomes
from pdsuite.watch.folders import Folders, WatchChoice
from pdsuite.watch.live_pool import LivePool
from pdsuite.watch.plan_changes import WantedScript
from pdsuite.watch.refused_proof import RefusedProof
from pdsuite.watch.sender import LiveSender, SenderFollower
from pdsuite.watch.settings_files import SettingsFiles
from pdsuite.watch.turned_scripts import BaseSender, EarlierBuild, EarlierSender, find_turned_scripts
from pdsuite.watch.view import Compare, View
from pdsuite.watch.watcher import FileEvent, Watcher

if TYPE_CHECKING:
    from pdsuite.page.page_updates import PageUpdates
    from pdsuite.page.view_model import PageEntry

_ANOTHER = "another program stands: all scripts ran again"
_PROVED = "the sender is proved: all scripts ran again"
_BUILT = "the sender is built without proofs: all scripts ran again"
_AGAIN = "the sender stands again that was before"
_NO_BUILD = "the sender isn't built:"


class SessionSettingsError(Exception):
    """That the first sender refuses the settings of the call; the lines say which."""

    def __init__(self, lines: Sequence[str]) -> None:
        super().__init__()
        self.lines = lines


@dataclass(frozen=True)
class WatchedSuite:
    """The suite that is watched: which scripts, the settings before all others, and against which sender."""

    choice: WatchChoice
    option: Layer
    base: BaseSender | None


class Session:
    """The suite that is watched, and the runs of the sender by which rows come. The session ends with `held`."""

    def __init__(
        self,
        watched: WatchedSuite,
        view: View,
        screen: Screen,
        follower: SenderFollower,
        page: "PageUpdates | None",
        stop: Stop,
        held: ExitStack,
    ) -> None:
        self._watched = watched
        self._view = view
        self._screen = screen
        self._follower = follower
        self._page = page
        self._stop = stop
        self._sender: LiveSender | None = None
        self._pool: LivePool | None = None
        self._is_new = False
        self._refused_proof = RefusedProof(follower.tree)
        self._runs = held.enter_context(ExitStack())
        self._watcher = held.enter_context(Watcher())
        self._sources = held.enter_context(Watcher())
        settings_files = SettingsFiles(watched.option, self._refused_claim_lines, screen.print_note_on_stderr)
        self._folders = Folders(watched.choice, settings_files, self._watcher, stop, screen.print_note_on_stderr)

    def follow_changes(self) -> NoReturn:
        """Shows what changes, on and on, until a signal comes."""
        while True:
            try:
                self._look_for_sender_and_switch()
                self._rerun_and_show()
            except SenderChangedError:
                continue  # the next look says what stands
            self._wait_for_event_or_next_look()
            self._stop.raise_if_stopped()

    def _look_for_sender_and_switch(self) -> None:
        """Looks at which sender stands, and goes over to it."""
        follower = self._follower
        self._sources.watch_folders_or_return_limit(follower.folders_to_watch())
        self._sources.read_events()
        failure = follower.failure
        if follower.update_returning_if_sender_or_reason_changed(time.monotonic()) or follower.sender != self._sender:
            self._switch_sender(follower.sender)
            if not follower.is_current:
                self._view.say_sender_outdated(follower.reason)
            if follower.failure and follower.failure != failure:
                self._view.say_sender_refused(_not_built_lines(follower.failure))
        if self._refused_proof.reread_lines_returning_whether_changed() and self._refused_proof.lines:
            self._view.say_sender_refused(self._refused_proof.lines)
        self._show_sender_progress_and_page_refusals(follower.build_phase_and_seconds)

    def _switch_sender(self, sender: LiveSender | None) -> None:
        """Goes over to the sender that answers now."""
        before = self._sender
        if sender is None:
            self._end_runs()
        elif sender != before:
            pool = self._reopen_pool_for_sender_checking_settings(sender)
            self._view.turn_to_sender(
                pool,
                _headline_of_new_sender(before, sender),
                not sender.is_proved,
                self._turned_scripts_finder_if_any(before),
            )
        elif self._follower.is_current and self._pool is not None:
            self._view.turn_to_sender(self._pool, _AGAIN, not sender.is_proved)
            self._is_new = True

    def _turned_scripts_finder_if_any(self, before: LiveSender | None) -> Compare | None:
        """A function that finds the scripts that the sender turned, if there is a sender to compare it with."""
        base, sender = self._watched.base, self._sender
        if sender is None or base is None and before is None:
            return None
        other: EarlierSender = base or EarlierBuild(None if before is None else before.program_paths)
        programs = sender.program_paths
        return lambda shown, now: find_turned_scripts(
            other, programs, shown, now, self._stop, self._screen.print_note_on_stderr
        )

    def _rerun_and_show(self) -> None:
        events, now = self._watcher.read_events(), time.monotonic()
        if self._pool is None or self._sender is None:
            self._folders.take_in_events_and_report_change(events, now)
            return
        rerun_changes_and_show(
            self._folders, self._pool, self._view, events, now, self._page, self._sender.require_unchanged, self._is_new
        )
        self._is_new = False

    def _show_sender_progress_and_page_refusals(self, doing: str) -> None:
        """Says what is built, at the bottom of a terminal and on the page, and there what is refused, too."""
        follower, page = self._follower, self._page
        if doing or not follower.is_current:
            self._view.show_progress(doing)
        if page is not None:
            is_of_before = self._view.last_exit_status_with_outdated_as_fault is not None and not follower.is_current
            page.mark_or_unmark_pages_of_sender_before(
                f"the sender has changed; {follower.build_phase or follower.reason}" if is_of_before else ""
            )
            refusals = (_not_built_lines(follower.failure), self._refused_proof.lines)
            page.show_sender_refusals_in_table([it for it in refusals if it])

    def _wait_for_event_or_next_look(self) -> None:
        files = [
            self._stop.fileno(),
            self._watcher.fileno(),
            self._sources.fileno(),
            *self._follower.build_output_filenos(),
        ]
        files += [it.program.fileno() for it in (self._pool.runs if self._pool else ())]
        if self._page is not None:
            self._page.read_drawn_and_start_waiting()
            files += self._page.filenos_of_drawing_workers()
        until = min(self._folders.next_look_moment(), self._follower.next_look_moment(time.monotonic()))
        _wait_until_readable_or_moment(until, [it for it in files if it is not None])

    def _refused_claim_lines(self, claims: Iterable[Claim]) -> list[str]:
        """The lines of the claims that the sender refuses; nothing while there is none."""
        if (sender := self._sender) is None:
            return []
        program = sender.regress.path
        sender.require_unchanged()
        return query_refusal_lines(claims, lambda: Program([program], self._stop))

    def _reopen_pool_for_sender_checking_settings(self, sender: LiveSender) -> LivePool:
        """Begins runs of a sender in place of those of the one before."""
        is_first = self._view.last_exit_status_with_outdated_as_fault is None
        self._end_runs()
        start = starter_with_options(sender.regress.path, EXPLAIN_OPTIONS, BATCH_SIZE, self._stop)
        plain_start = starter_without_explanations(sender.regress.path, 0, 1, self._stop)

        def checked(settings: Settings) -> Program:
            sender.require_unchanged()
            return start(settings)

        self._sender = sender
        if is_first and (lines := self._refused_claim_lines(every_claim_of_layers([self._watched.option]))):
            raise SessionSettingsError(lines)
        pool = LivePool(checked, self._screen.print_note_on_stderr, self._view.show_progress, plain_start)
        self._pool = self._runs.enter_context(pool)
        self._is_new = True
        if not is_first:
            self._folders.recheck_settings()
        if self._page is not None:
            self._page.set_programs_and_discard_drawn(*sender.program_paths, not sender.is_proved)
        return pool

    def _end_runs(self) -> None:
        self._runs.close()
        self._pool = self._sender = None


def _not_built_lines(failure: Sequence[str]) -> Sequence[str]:
    """The lines that are shown where no sender can be built; none where that isn't so."""
    return (_NO_BUILD, *failure) if failure else ()


def _headline_of_new_sender(before: LiveSender | None, sender: LiveSender) -> str:
    """The words with which the first report of a sender begins."""
    if not sender.is_proved:
        return _BUILT
    return _PROVED if before is not None and not before.is_proved else _ANOTHER


def rerun_changes_and_show(
    folders: Folders,
    pool: LivePool,
    view: View,
    events: Sequence[FileEvent],
    now: float,
    page: "PageUpdates | None" = None,
    check: Callable[[], None] = lambda: None,
    is_new: bool = False,
) -> None:
    """Looks at what is reported or due, has run again what that changes, and shows what came of it.

    `check` raises SenderChangedError where the program has another file than its runs; `is_new` says these are new.
    """
    has_changed = folders.take_in_events_and_report_change(events, now)
    if pool.restart_ended_runs() or has_changed or is_new:
        if page is not None:
            page.terminate_drawing_workers()
        wanted, unfit = folders.wanted_scripts_and_unfit_reasons()
        pool.update_runs_to_wanted_scripts(wanted)
        check()
        view.explain_and_show_changed_outcomes(
            _make_outcomes(folders, pool, unfit), wanted, now, folders.is_strict, check
        )
        if page is not None:
            page.queue_entries_and_advance_drawing(
                _page_entries(view.outcomes, wanted, pool.causes_by_path()), view.turned
            )


def _page_entries(
    outcomes: Outcomes, wanted: Mapping[str, WantedScript], causes: Mapping[str, Cause]
) -> "list[PageEntry]":
    """The entries of the page; of a script that passes nothing is explained there."""
    from pdsuite.page.view_model import PageEntry

    shown_causes = {path: it for path, it in causes.items() if path in outcomes and outcomes[path].row.line is not None}
    return [
        PageEntry(replace(it, settings=wanted[path].settings), wanted[path].text, cause=shown_causes.get(path))
        if path in wanted
        else PageEntry(it)
        for path, it in outcomes.items()
    ]


def _make_outcomes(folders: Folders, pool: LivePool, unfit: Mapping[str, str]) -> Outcomes:
    """The outcome of each script, in the order of paths."""
    rows = {**dict(pool.rows()), **{path: Row(Verdict.ERROR, word=why) for path, why in unfit.items()}}
    return {path: _make_outcome(path, it.file.value, rows[path], folders) for path, it in folders.files.items()}


def _make_outcome(path: str, text: ScriptText | str, row: Row, folders: Folders) -> ScriptOutcome:
    line = text.find_line_by_number(row.line) if isinstance(text, ScriptText) and row.line is not None else None
    outcome = ScriptOutcome(path, (), row, line, expected=folders.expected_row(path))
    if outcome.warnings:
        outcome.is_strict = folders.is_strict(path)
    return outcome


def _wait_until_readable_or_moment(until: float, files: Iterable[int]) -> None:
    """Waits until a moment, or until one of these can be read."""
    poll = select.poll()
    for file in files:
        poll.register(file, select.POLLIN)
    poll.poll(max(0.0, until - time.monotonic()) * 1_000)
