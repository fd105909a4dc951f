"""Folders that are watched: what lies in them, by what is reported and by looking."""

from collections.abc import Callable, Mapping, Sequence, Set
from dataclasses import dataclass
from math import inf
from pathlib import Path
from time import process_time

from pdsuite.scripts.config import CONFIG_FILE, SuiteConfig
from pdsuite.scripts.discover import SUFFIX, ScriptFile, find_scripts_and_folders
from pdsuite.scripts.expectation import Expectation
from pdsuite.signals import Stop
from pdsuite.watch.plan_changes import WantedScript
from pdsuite.watch.settings_files import SettingsFiles
from pdsuite.watch.watched_files import (
    GRACE,
    WatchedFile,
    WatchedFiles,
    has_any_script_changed,
    read_watched_file_marking_unclosed_as_torn,
    update_holding_back_gone_and_torn,
)
from pdsuite.watch.watched_files import reread_changed_watched_files
from pdsuite.watch.watcher import FileEvent, FileEventKind, Watcher

# The folders are walked so often, and so soon after the last event, at the latest a period after the first one.
_PERIOD = 2.0
_QUIET = 0.5
# Where nothing changes, so many times what a walk takes of a processor pass until the next one.
_TIMES = 110
# Folders that come while others are found are found again, so many times.
_TRIES = 3


@dataclass(frozen=True)
class WatchChoice:
    """Which scripts are meant."""

    paths: Sequence[Path]
    only: Sequence[str]
    is_strict: bool = False  # whether a warning makes each of them fail


class Folders:
    """The files seen in folders, and when to look at these again. Moments are those of the monotonic clock."""

    def __init__(
        self,
        choice: WatchChoice,
        settings_files: SettingsFiles,
        watcher: Watcher,
        stop: Stop,
        note: Callable[[str], None],
    ) -> None:
        self.files: WatchedFiles = {}
        self._choice = choice
        self._settings_files = settings_files
        self._suite = settings_files.make_suite_config()
        self._watcher = watcher
        self._stop = stop
        self._note = note
        self._places: Mapping[tuple[str, str], str] = {}
        self._watched: set[str] = set()
        self._limits: set[str] = set()
        self._unused: set[str] = set()
        self._gone: Mapping[str, float] = {}
        self._again: dict[str, float] = {}
        self._walk_at: float = 0.0
        self._period = _PERIOD
        self._busy_since: float | None = None
        self._quiet_at = inf
        self._is_first = True

    @property
    def current_suite_config(self) -> SuiteConfig:
        """The rules of scripts, by the settings files as they are known now."""
        return self._suite

    def next_look_moment(self) -> float:
        """The moment at which something has to be looked at, whatever is reported."""
        return min([self._walk_at, self._quiet_at, *self._again.values()])

    def wanted_scripts_and_unfit_reasons(self) -> tuple[dict[str, WantedScript], dict[str, str]]:
        """The scripts that are to be run, and for all others why they can't."""
        wanted: dict[str, WantedScript] = {}
        unfit: dict[str, str] = {}
        for path, it in self.files.items():
            text = it.file.value
            if isinstance(text, str):
                unfit[path] = text
            else:
                wanted[path] = WantedScript(self._suite.settings_of_script(it.found), text)
        return wanted, unfit

    def is_strict(self, path: str) -> bool:
        """Whether a warning makes a script fail."""
        return self._choice.is_strict or self._suite.is_script_strict(self.files[path].found)

    def expected_row(self, path: str) -> Expectation | None:
        """The row that a script is known to have, if one is given."""
        return self._suite.expectation_of_script(self.files[path].found)

    def recheck_settings(self) -> None:
        """Has the settings files checked anew, as another sender may read them otherwise."""
        self._settings_files.recheck_all_files()
        self._suite = self._settings_files.make_suite_config()

    def take_in_events_and_report_change(self, events: Sequence[FileEvent], now: float) -> bool:
        """Takes in what is reported and what is due; whether anything is other than it was."""
        paths = {path for path, moment in self._again.items() if moment <= now}
        for path in paths:
            del self._again[path]
        closed = {(it.folder, it.name) for it in events if it.kind is FileEventKind.CLOSED}
        is_walk = now >= min(self._walk_at, self._quiet_at)
        for event in events:
            is_walk |= self._note_event_returning_whether_walk_needed(event, paths, now)
        if events:
            self._busy_since = now if self._busy_since is None else self._busy_since
            self._quiet_at = min(self._busy_since + _PERIOD, now + _QUIET)
        seen = {path: self._freshly_read_file(path, closed) for path in paths if path in self.files}
        # Only a look at all there is shows which files are gone or new.
        if is_walk or len(seen) < len(paths) or any(it.is_gone for it in seen.values()):
            return self._walk_and_schedule_returning_whether_changed(closed, now)
        return bool(seen) and self._apply_seen_files_returning_whether_changed({**self.files, **seen}, now)

    def _note_event_returning_whether_walk_needed(self, event: FileEvent, paths: set[str], now: float) -> bool:
        """Notes what an event is about; whether all has to be looked at for it."""
        path = self._places.get((event.folder, event.name))
        if event.kind is FileEventKind.FOLDER:
            return True
        if path is None:
            return event.kind is FileEventKind.CLOSED and (event.name.endswith(SUFFIX) or event.name == CONFIG_FILE)
        if event.kind is FileEventKind.CLOSED:
            paths.add(path)
            return False
        self._again.setdefault(path, now + GRACE)
        if event.kind is FileEventKind.GONE:
            self._gone = {path: now, **self._gone}
        return False

    def _freshly_read_file(self, path: str, closed: Set[tuple[str, str]]) -> WatchedFile:
        known = self.files[path]
        return read_watched_file_marking_unclosed_as_torn(
            known.found, known, (known.found.folder, known.found.name) in closed
        )

    def _walk_and_schedule_returning_whether_changed(self, closed: Set[tuple[str, str]], now: float) -> bool:
        """Looks at all there is, with what was closed just now, and says when it is to be done again."""
        self._walk_at = self._quiet_at = inf
        self._busy_since = None
        begin = process_time()
        is_other = self._reread_all_returning_whether_changed(closed, now)
        if not is_other:
            # A walk that reads files anew takes longer, and is no measure of the next one.
            self._period = max(_PERIOD, _TIMES * (process_time() - begin))
        self._walk_at = min(self._walk_at, now + self._period)
        return is_other

    def _reread_all_returning_whether_changed(self, closed: Set[tuple[str, str]], now: float) -> bool:
        scripts = self._find_and_watch_scripts()
        has_changed, is_torn = self._settings_files.reread_files_returning_whether_changed_or_torn()
        if has_changed:
            self._suite = self._settings_files.make_suite_config()
        if is_torn:
            self._walk_at = now + GRACE
        self._places = {(it.folder, it.name): it.path for it in scripts}
        files = reread_changed_watched_files(scripts, self.files, closed)
        is_first, self._is_first = self._is_first, False
        if is_first:
            self.files = files
        is_other = self._apply_seen_files_returning_whether_changed(files, now)
        self._report_unused_tables()
        return is_other or has_changed or is_first

    def _find_and_watch_scripts(self) -> list[ScriptFile]:
        """Finds all scripts, and has their folders watched before any of them is read."""
        for _ in range(_TRIES):
            finding = find_scripts_and_folders(self._choice.paths, self._choice.only, self._stop)
            folders = finding.folders | self._settings_files.folders_with_files()
            self._report_watch_limit(self._watcher.watch_folders_or_return_limit(folders))
            self._settings_files.read_new_folders(finding.folders)
            is_known = folders <= self._watched
            self._watched = folders
            if is_known:
                break
        return finding.scripts

    def _apply_seen_files_returning_whether_changed(self, seen: WatchedFiles, now: float) -> bool:
        update = update_holding_back_gone_and_torn(self.files, seen, self._gone, now)
        self._gone = update.gone
        self._again.update(dict.fromkeys(update.torn, now + GRACE))
        if any(path not in seen or seen[path].is_gone for path in update.gone):
            self._walk_at = min(self._walk_at, now + GRACE)
        before, self.files = self.files, update.files
        return has_any_script_changed(before, self.files)

    def _report_unused_tables(self) -> None:
        """Reports tables whose scripts aren't there, each once while that is so."""
        held = {(it.folder, it.name) for it in (self.files[path].found for path in self._gone if path in self.files)}
        unused = self._settings_files.unused_table_lines_to_print_unless_held(held)
        for line in unused:
            if line not in self._unused:
                self._note(f"{line}; all else in the file counts")
        self._unused = set(unused)

    def _report_watch_limit(self, limit: str | None) -> None:
        if limit is not None and limit not in self._limits:
            self._limits.add(limit)
            often = f"every {_PERIOD:.0f} seconds, in large folders more rarely"
            self._note(f"pdsuite: {limit} is reached: what isn't watched is looked at {often}")
