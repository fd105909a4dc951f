"""The scripts in files and folders."""

import os
from collections.abc import Iterable, Iterator, Sequence
from dataclasses import dataclass
from fnmatch import fnmatchcase
from pathlib import Path

from pdsuite.faults import error_reason
from pdsuite.signals import Stop

SUFFIX = ".pkt"


# There may be a hundred thousand of these and of what comes of them: so a text is no Path, and nothing is frozen, which
# makes it take three times as long to make.
@dataclass(slots=True)
class ScriptFile:
    """A script's file, or something that can't be looked at."""

    path: str  # as people see it
    folder: str  # where the file really lies, without links
    name: str
    fault: str = ""  # why it can't be looked at


@dataclass(frozen=True)
class FoundScripts:
    """The scripts that were found, and the folders that were looked through, without links."""

    scripts: list[ScriptFile]
    folders: set[str]


def find_scripts(paths: Iterable[Path], only: Sequence[str], stop: Stop) -> list[ScriptFile]:
    """All scripts in the order of their paths, each file once, under the first of its paths.

    Where there are patterns, only those that fit one of them.
    """
    return find_scripts_and_folders(paths, only, stop).scripts


def find_scripts_and_folders(paths: Iterable[Path], only: Sequence[str], stop: Stop) -> FoundScripts:
    """The same scripts, and the folders in which one that comes would be found."""
    folders: set[str] = set()
    found = sorted(_find_scripts_or_faults_noting_folders(paths, folders, stop), key=lambda it: os.fsencode(it.path))
    first: dict[tuple[str, str], ScriptFile] = {}
    for it in found:
        if it.fault or not only or any(does_path_or_name_fit_pattern(it.path, pattern) for pattern in only):
            first.setdefault((it.folder, it.name), it)
    return FoundScripts(list(first.values()), folders)


def does_path_or_name_fit_pattern(path: str, pattern: str) -> bool:
    """Whether a pattern fits a path, or the last name in it."""
    return fnmatchcase(path, pattern) or fnmatchcase(os.path.basename(path), pattern)


def _find_scripts_or_faults_noting_folders(paths: Iterable[Path], looked: set[str], stop: Stop) -> Iterator[ScriptFile]:
    for path in paths:
        try:
            is_folder = path.is_dir()
            path.stat()
        except (OSError, ValueError) as error:
            yield _unreadable_script(str(path), error)
            continue
        if is_folder:
            yield from _find_unsorted_scripts_noting_folders(path, looked, stop)
        else:
            found = _make_script_file_at_real_path(str(path))
            looked.add(found.folder)
            yield found


def _find_unsorted_scripts_noting_folders(top: Path, looked: set[str], stop: Stop) -> Iterator[ScriptFile]:
    """The scripts in a folder and below it; links to folders and hidden names are left out."""
    before = "" if str(top) == os.curdir else os.path.join(top, "")
    folders = [(before, os.path.realpath(top))]
    while folders:
        stop.raise_if_stopped()
        before, real = folders.pop()
        looked.add(real)
        try:
            with os.scandir(before or os.curdir) as entries:
                for entry in entries:
                    name = entry.name
                    if name.startswith("."):
                        continue
                    if entry.is_dir(follow_symlinks=False):
                        folders.append((f"{before}{name}/", os.path.join(real, name)))
                    elif name.endswith(SUFFIX) and not entry.is_symlink():
                        yield ScriptFile(before + name, real, name)
                    elif name.endswith(SUFFIX) and not os.path.isdir(entry.path):
                        yield _make_script_file_at_real_path(before + name)
        except OSError as error:
            yield _unreadable_script(before.rstrip("/") or before, error)


def _make_script_file_at_real_path(path: str) -> ScriptFile:
    folder, name = os.path.split(os.path.realpath(path))
    return ScriptFile(path, folder, name)


def _unreadable_script(path: str, error: OSError | ValueError) -> ScriptFile:
    return ScriptFile(path, os.path.abspath(path), "", error_reason(error))
