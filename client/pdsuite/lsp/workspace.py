"""The scripts of a workspace, those in files and those that are open, and what came of them."""

import os
from collections.abc import Callable, Mapping, Sequence
from dataclasses import dataclass, replace
from pathlib import Path

from pdsuite.lsp.documents import Document, path_of_uri
from pdsuite.lsp.open_settings import OpenSettings
from pdsuite.programs.protocol import Cause
from pdsuite.programs.verdict import Row, Verdict
from pdsuite.run.outcomes import ScriptOutcome, end_warning_of_passing_row
from pdsuite.scripts.config import CONFIG_FILE, ScriptRules
from pdsuite.scripts.discover import ScriptFile
from pdsuite.scripts.text import ScriptText
from pdsuite.watch.folders import Folders
from pdsuite.watch.live_pool import LivePool
from pdsuite.watch.plan_changes import WantedScript
from pdsuite.watch.watcher import FileEvent, FileEventKind

# A run gives way to a new one when its history has so many acts at most, and nothing else is to be done; and always
# when it has so many. It holds 65,536.
WORN = 40_000
SPENT = 60_000


@dataclass(frozen=True)
class Result:
    """The outcome of a script, its explanation, and the text that they are of; `version` is that of an open text."""

    file: ScriptFile
    outcome: ScriptOutcome
    text: ScriptText | None
    cause: Cause | None = None
    version: int | None = None
    steps: int | None = None

    @property
    def has_diagnostics(self) -> bool:
        """Whether there is anything to report of it."""
        return not self.outcome.lets_run_pass or bool(self.outcome.warnings) or self.outcome.is_known_failure


@dataclass(frozen=True)
class OpenScript:
    """A script that is open: which file it is, and its text, or why that can't be run."""

    document: Document
    file: ScriptFile
    text: ScriptText | str


class Workspace:
    """The scripts in folders, those that are open, and their results by paths, as `pdsuite run` has these."""

    def __init__(
        self,
        folders: Folders,
        settings: OpenSettings,
        pool: LivePool,
        home: Path,
        check: Callable[[], None] = lambda: None,
    ) -> None:
        self.results: Mapping[str, Result] = {}
        self._folders = folders
        self._settings = settings
        self._pool = pool
        self._home = home
        self._check = check  # raises SenderChangedError where what was printed isn't surely of the program that ran
        self._documents: dict[str, Document] = {}
        self._open: dict[str, OpenScript] = {}
        self._paths: dict[str, str] = {}
        self._uris: dict[str, str] = {}
        self._settings_uris: dict[Path, str] = {}
        self._events: list[FileEvent] = []
        self._seen: tuple[Mapping[str, WantedScript], Mapping[str, str]] = ({}, {})
        self._is_dirty = True

    @property
    def are_results_outdated(self) -> bool:
        """Whether a text has changed since the results were worked out."""
        return self._is_dirty

    @property
    def uris_of_open_settings(self) -> Mapping[Path, str]:
        """The settings files that are open, each with its URI."""
        return self._settings_uris

    def settings_faults(self) -> Mapping[Path, list[str]]:
        """The faults of settings files."""
        return self._settings.faults_by_file()

    def put_document(self, document: Document) -> None:
        """Takes a text that was opened or changed."""
        known = self._open.get(document.uri)
        self._documents[document.uri] = document
        if path := path_if_settings_uri(document.uri):
            self._settings.set_open_text(path, document.octets)
            self._settings_uris[path] = document.uri
            self._events.append(FileEvent(FileEventKind.CLOSED, str(path.parent), CONFIG_FILE))
        else:
            file = self._script_file_of_any_uri(document.uri) if known is None else known.file
            self._open[document.uri] = OpenScript(document, file, document.script_text_or_reason())
            if known is None:
                self._tell_settings_open_scripts()
        self._is_dirty = True

    def close_document(self, uri: str) -> None:
        """Takes a text's file again."""
        if self._documents.pop(uri, None) is None:
            return
        self._open.pop(uri, None)
        self._tell_settings_open_scripts()
        if path := path_if_settings_uri(uri):
            self._settings.set_open_text(path, None)
            self._settings_uris.pop(path, None)
            self._events.append(FileEvent(FileEventKind.CLOSED, str(path.parent), CONFIG_FILE))
        self._is_dirty = True

    def find_results_key_of_open_uri(self, uri: str) -> str | None:
        """The path under which an open script stands among the results."""
        return self._paths.get(uri)

    def open_uri_of(self, path: str) -> str | None:
        """The URI under which a script is open that stands under this path."""
        return self._uris.get(path)

    def find_result_if_up_to_date(self, uri: str) -> Result | None:
        """The result of an open script, where it is of the present text."""
        found = self.results.get(self._paths.get(uri, ""))
        document = self._documents.get(uri)
        return found if document is not None and found is not None and found.version == document.version else None

    def rerun_changes_and_list_changed_results(
        self, events: Sequence[FileEvent], now: float, is_at_rest: bool = True
    ) -> list[str]:
        """Looks at what is reported or, at rest, due, and has run again what that changes: the paths whose results are
        others."""
        reported = [*events, *self._events]
        self._events = []
        has_changed = bool(is_at_rest or reported) and self._folders.take_in_events_and_report_change(reported, now)
        if has_changed:
            self._seen = self._folders.wanted_scripts_and_unfit_reasons()
        has_ended = self._pool.restart_ended_runs()
        if not (has_changed or has_ended or self._is_dirty):
            return []
        self._is_dirty = False
        files = {path: it.found for path, it in self._folders.files.items()}
        wanted, unfit = dict(self._seen[0]), dict(self._seen[1])
        versions = self._overlay_open_scripts_and_get_versions(files, wanted, unfit)
        self._pool.renew_long_runs(SPENT)
        self._pool.update_runs_to_wanted_scripts(wanted)
        return self._update_results_and_list_changed(files, wanted, unfit, versions)

    def restart_runs_with_long_histories(self) -> None:
        """Does what can wait: starts new runs in place of those whose histories are long."""
        self._pool.renew_long_runs(WORN)

    def next_look_moment(self) -> float:
        """The moment at which something has to be looked at, whatever is reported."""
        return self._folders.next_look_moment()

    def filenos_of_running_programs(self) -> list[int]:
        """The descriptors of the programs; one can be read once its program has ended by itself."""
        return [it.program.fileno() for it in self._pool.runs]

    def _tell_settings_open_scripts(self) -> None:
        """Says which scripts tables may be about though no file is there."""
        self._settings.scripts = {(it.file.folder, it.file.name) for it in self._open.values()}

    def _overlay_open_scripts_and_get_versions(
        self, files: dict[str, ScriptFile], wanted: dict[str, WantedScript], unfit: dict[str, str]
    ) -> dict[str, int]:
        """Puts what is open in place of files; the versions of open scripts, by their paths."""
        places = {(it.folder, it.name): path for path, it in files.items()}
        self._paths = {}
        self._uris = {}
        versions: dict[str, int] = {}
        for uri, it in self._open.items():
            path = places.setdefault((it.file.folder, it.file.name), it.file.path)
            self._paths[uri] = path
            self._uris[path] = uri
            files.setdefault(path, it.file)
            versions[path] = it.document.version
            wanted.pop(path, None)
            unfit.pop(path, None)
            if isinstance(it.text, str):
                unfit[path] = it.text
            else:
                wanted[path] = WantedScript(self._rules_of_file(files[path]).settings, it.text)
        return versions

    def _script_file_of_any_uri(self, uri: str) -> ScriptFile:
        path = path_of_uri(uri)
        if path is None:
            return ScriptFile(uri, str(self._home), uri.rpartition("/")[2])
        folder, name = os.path.split(os.path.realpath(path))
        return ScriptFile(path, folder, name)

    def _rules_of_file(self, file: ScriptFile) -> ScriptRules:
        return self._folders.current_suite_config.rules_of_script(file)

    def _update_results_and_list_changed(
        self,
        files: Mapping[str, ScriptFile],
        wanted: Mapping[str, WantedScript],
        unfit: Mapping[str, str],
        versions: Mapping[str, int],
    ) -> list[str]:
        rows, causes, steps = (
            dict(self._pool.rows()),
            self._pool.causes_by_path(),
            self._pool.step_counts_at_last_change_of_each_run(),
        )
        before, results, changed = self.results, {}, []
        for path, file in files.items():
            row = rows.get(path) if path in wanted else Row(Verdict.ERROR, word=unfit.get(path, ""))
            if row is None:
                continue
            new_result = self._make_result(file, row, wanted.get(path), causes.get(path))
            result = replace(new_result, version=versions.get(path), steps=steps.get(path))
            old = before.get(path)
            results[path] = kept = _keep_old_if_same(old, result)
            if kept is not old:
                changed.append(path)
        self._check()
        self.results = results
        return [*changed, *(path for path in before if path not in results)]

    def _make_result(self, file: ScriptFile, row: Row, wanted: WantedScript | None, cause: Cause | None) -> Result:
        rules = self._rules_of_file(file)
        text = None if wanted is None else wanted.text
        line = None if text is None or row.line is None else text.find_line_by_number(row.line)
        settings = () if wanted is None else wanted.settings
        outcome = ScriptOutcome(file.path, settings, row, line, is_strict=rules.is_strict, expected=rules.expected)
        if row.line is None:
            outcome.at_end = end_warning_of_passing_row(row, cause)
        return Result(file, outcome, text, cause if row.line is not None else None)


def path_if_settings_uri(uri: str) -> Path | None:
    """The file pdsuite.toml that a URI names, without links; None where it names another."""
    path = path_of_uri(uri)
    if path is None or os.path.basename(path) != CONFIG_FILE:
        return None
    return Path(os.path.realpath(os.path.dirname(path)), CONFIG_FILE)


def _keep_old_if_same(old: Result | None, new: Result) -> Result:
    """The old result where the new one says the same."""
    if old is None or old.text is not new.text and old.text != new.text:
        return new
    if old.outcome != new.outcome or old.cause is not new.cause and old.cause != new.cause:
        return new
    steps = old.steps if new.steps is None else new.steps
    if (old.version, old.steps) == (new.version, steps):
        return old
    return replace(new, steps=steps)
