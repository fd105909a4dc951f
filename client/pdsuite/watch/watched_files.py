"""Scripts' files as they were seen last, and what is taken of what is seen now."""

import os
from collections.abc import Iterable, Mapping, Set
from dataclasses import dataclass, replace

from pdsuite.file_stamps import Stamp, StampedValue, is_unchanged_since_read, read_value_and_file_stamp
from pdsuite.run.batches import SuiteScript
from pdsuite.run.run_batches import load_script_text_or_fault
from pdsuite.scripts.discover import ScriptFile
from pdsuite.scripts.text import ScriptText

# So many seconds after it went, a path that is there again was only saved.
GRACE = 0.05


@dataclass(frozen=True, slots=True)
class WatchedFile:
    """A script's file, and what was read of it: its text, or why it can't be run."""

    found: ScriptFile
    file: StampedValue[ScriptText | str]

    @property
    def device_and_inode(self) -> Stamp:
        """Which file it was, whatever its path."""
        return self.file.stamp[:2]

    @property
    def is_gone(self) -> bool:
        """Whether nothing is there that could be read."""
        return len(self.file.stamp) < 2


# By their paths, in the order of these.
WatchedFiles = Mapping[str, WatchedFile]


@dataclass(frozen=True)
class Update:
    """The files taken of those seen; since when paths are gone that it keeps; and which are to be read again."""

    files: WatchedFiles
    gone: Mapping[str, float]
    torn: frozenset[str]


def read_watched_file_marking_unclosed_as_torn(
    found: ScriptFile, before: WatchedFile | None, is_closed: bool
) -> WatchedFile:
    """Reads a script's file. If nobody says that it was closed, who wrote it a moment ago may still be writing."""
    script = SuiteScript(0, found.path, (), found.fault)
    file = read_value_and_file_stamp(found.path, lambda: load_script_text_or_fault(script))
    if file.is_fresh and not is_closed and (before is None or before.file.value != file.value):
        file = replace(file, is_torn=True)
    return WatchedFile(found, file)


def reread_changed_watched_files(
    scripts: Iterable[ScriptFile], before: WatchedFiles, closed: Set[tuple[str, str]]
) -> WatchedFiles:
    """Reads all scripts but those that are surely as they were."""
    files: dict[str, WatchedFile] = {}
    for it in scripts:
        known = before.get(it.path)
        is_closed = (it.folder, it.name) in closed
        files[it.path] = _known_if_unchanged(it, known) or read_watched_file_marking_unclosed_as_torn(
            it, known, is_closed
        )
    return files


def update_holding_back_gone_and_torn(
    before: WatchedFiles, now: WatchedFiles, gone: Mapping[str, float], time: float
) -> Update:
    """Takes what is seen now, but neither that something went a moment ago, unless it moved, nor what is torn."""
    files: dict[str, WatchedFile] = {}
    still = {path: since for path, since in gone.items() if time < since + GRACE}
    torn: set[str] = set()
    missing = sorted(before.keys() - now.keys(), key=os.fsencode)
    moved = {it.device_and_inode for path, it in now.items() if path not in before and not it.file.is_torn}
    for path in (*now, *missing):
        old, new = before.get(path), now.get(path)
        chosen = new
        if new is not None and new is not old and new.file.is_torn:
            torn.add(path)
            chosen = old
        elif not _is_newly_gone(old, new):
            if new is not old:
                still.pop(path, None)
        elif time < gone.get(path, time) + GRACE and (old is None or old.device_and_inode not in moved):
            still[path] = gone.get(path, time)
            chosen = old
        if chosen is not None:
            files[path] = chosen
    return Update(_sort_by_path(files) if missing else files, still, frozenset(torn))


def has_any_script_changed(before: WatchedFiles, now: WatchedFiles) -> bool:
    """Whether a script came, went, or reads otherwise."""
    return before.keys() != now.keys() or any(
        old is not new and (old.found != new.found or old.file.value != new.file.value)
        for old, new in ((before[path], it) for path, it in now.items())
    )


def _known_if_unchanged(found: ScriptFile, known: WatchedFile | None) -> WatchedFile | None:
    is_same = known is not None and known.found == found and is_unchanged_since_read(known.file, found.path)
    return known if is_same else None


def _is_newly_gone(old: WatchedFile | None, new: WatchedFile | None) -> bool:
    """Whether something went, or a path can suddenly not be looked at."""
    return (new is None or new.is_gone) and (old is None or not old.is_gone)


def _sort_by_path(files: WatchedFiles) -> WatchedFiles:
    return dict(sorted(files.items(), key=lambda it: os.fsencode(it[0])))
