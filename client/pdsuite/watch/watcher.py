"""Reports which names in folders change. It decides nothing, and what it loses the walks find.

It uses watchdog's reader of inotify. watchdog's observer holds back for half a second what comes after a name that
moved away, and watches hidden folders too.
"""

import errno
import os
from collections.abc import Iterable
from dataclasses import dataclass
from enum import Enum

from watchdog.observers.inotify_c import Inotify, InotifyConstants, InotifyEvent

_MASK = (
    InotifyConstants.IN_CLOSE_WRITE
    | InotifyConstants.IN_MOVE
    | InotifyConstants.IN_CREATE
    | InotifyConstants.IN_DELETE
    | InotifyConstants.IN_ATTRIB
    | InotifyConstants.IN_DELETE_SELF
    | InotifyConstants.IN_MOVE_SELF
)
_LIMITS = {errno.ENOSPC: "fs.inotify.max_user_watches", errno.EMFILE: "fs.inotify.max_user_instances"}
# So many blocks of events are read before they are looked at.
_BLOCKS = 16


class FileEventKind(Enum):
    """The kind of an event that happened to a name."""

    CLOSED = "its file was closed after writing, or moved there"
    GONE = "its file went"
    FOLDER = "a folder came, went or moved, or a watch was lost"
    OTHER = "anything else"


@dataclass(frozen=True, slots=True)
class FileEvent:
    """An event that happened to a name in a folder."""

    kind: FileEventKind
    folder: str = ""
    name: str = ""


class Watcher:
    """Watches folders, each by itself, as far as the system lets it."""

    def __init__(self) -> None:
        self._inotify: Inotify | None = None
        self._is_refused = False

    def __enter__(self) -> "Watcher":
        return self

    def __exit__(self, *error: object) -> None:
        self._close_inotify()

    def fileno(self) -> int | None:
        """The descriptor that can be read once there are events, if there can be any."""
        return None if self._inotify is None else self._inotify.fd

    def watch_folders_or_return_limit(self, folders: Iterable[str]) -> str | None:
        """Has these folders watched, whatever lay at their paths before; the limit of the system that prevents it."""
        for folder in sorted(folders):
            if self._is_refused:
                return None
            try:
                self._watch_folder(os.fsencode(folder))
            except OSError as error:
                if error.errno in _LIMITS:
                    self._is_refused = self._inotify is None
                    return _LIMITS[error.errno]
        return None

    def read_events(self) -> list[FileEvent]:
        """The events that came since they were read last."""
        events: list[FileEvent] = []
        if self._inotify is None:
            return events
        try:
            for _ in range(_BLOCKS):
                events += [_file_event_of(it) for it in self._inotify.read_events()]
        except BlockingIOError:
            pass
        except (KeyError, OSError):
            # watchdog has lost sight of a folder: all are watched anew.
            self._close_inotify()
            events.append(FileEvent(FileEventKind.FOLDER))
        if self._inotify is not None:
            self._inotify.clear_move_records()
        return events

    def _watch_folder(self, folder: bytes) -> None:
        if self._inotify is None:
            self._inotify = Inotify(folder, recursive=False, event_mask=_MASK)
            os.set_blocking(self._inotify.fd, False)
        else:
            self._inotify.add_watch(folder)

    def _close_inotify(self) -> None:
        if self._inotify is not None:
            self._inotify.close()
            self._inotify = None


def _file_event_of(it: InotifyEvent) -> FileEvent:
    folder, name = os.path.split(os.fsdecode(it.src_path))
    if it.is_directory or it.is_ignored:
        return FileEvent(FileEventKind.FOLDER, folder, name)
    if it.is_close_write or it.is_moved_to:
        return FileEvent(FileEventKind.CLOSED, folder, name)
    if it.is_delete or it.is_moved_from:
        return FileEvent(FileEventKind.GONE, folder, name)
    return FileEvent(FileEventKind.OTHER, folder, name)
