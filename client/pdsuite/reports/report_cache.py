"""The user's cache: each run leaves its report there as JSON, by the absolute paths of what was run."""

import fcntl
import json
import os
import re
import time
import zlib
from collections.abc import Iterable, Iterator, Mapping, Sequence
from contextlib import contextmanager, suppress
from itertools import islice
from pathlib import Path

from pdsuite.faults import Fault, error_reason
from pdsuite.output.octets import make_absolute_printable_path_function, printable_path
from pdsuite.programs.verdict import Verdict
from pdsuite.reports.as_json import script_json
from pdsuite.reports.saved_reports import SavedReport, join_reports, parse_reports
from pdsuite.run.outcomes import ScriptOutcome

# Of so many groups of paths the last reports are kept.
MOST = 64
# Only who holds this file's lock writes, and waits so many seconds for it.
_LOCK = "lock"
_PATIENCE = 5.0
_PAUSE = 0.02
_NEW = "new"
_REPORTS = "*.json"
# Completes the first line of a report, so that it can be read by itself.
_END = b"]}"
_LONGEST = 80
_NOT_RUN = Verdict.NOT_RUN
# So many lines are written at once.
_AT_ONCE = 1_024
_OTHER = re.compile(r"[^A-Za-z0-9.-]+")


def cache_folder() -> Path:
    """Where reports are kept, by the XDG Base Directory Specification, which counts no relative path."""
    cache_home = os.environ.get("XDG_CACHE_HOME", "")
    if os.path.isabs(cache_home):
        return Path(cache_home, "pdsuite")
    try:
        return Path.home() / ".cache/pdsuite"
    except RuntimeError as error:
        raise Fault("there is no home folder, and XDG_CACHE_HOME names none") from error


class LastReport:
    """The report of the last run of these paths. Rows of scripts that a later run left out stay in it."""

    def __init__(self, paths: Iterable[Path]) -> None:
        self.of = sorted({printable_path(os.path.abspath(it)) for it in paths})
        self._folder = cache_folder()
        self._file = self._folder / _cache_file_name(self.of)

    def load_if_kept(self) -> SavedReport | None:
        """The report that is kept, if one is."""
        octets = self._read_file_if_of_these_paths()
        return None if octets is None else _parse_cached_report_or_fault(self._file, octets)

    def save_run_keeping_rows_of_unrun(self, outcomes: Sequence[ScriptOutcome], is_part: bool) -> None:
        """Keeps the rows of a run. Earlier rows of scripts that it didn't run stay, if `is_part` or it found these."""
        absolute = make_absolute_printable_path_function()
        with _folder_lock(self._folder):
            if is_part or any(it.row.verdict is _NOT_RUN for it in outcomes):
                lines = self._merge_run_into_kept_lines({absolute(it.path): it for it in outcomes}, is_part)
            else:
                lines = (script_json(it, absolute(it.path)) for it in outcomes)
            self._replace_report_file_with_lines(lines)
            _remove_oldest_reports(self._folder)

    def _merge_run_into_kept_lines(self, outcomes: Mapping[str, ScriptOutcome], is_part: bool) -> Iterator[str]:
        lines = self._kept_lines_by_path_if_intact()
        for path, it in outcomes.items():
            if it.row.verdict is not _NOT_RUN:
                lines[path] = script_json(it, path)
        return (line for path, line in lines.items() if is_part or path in outcomes)

    def _kept_lines_by_path_if_intact(self) -> dict[str, str]:
        """The lines that are kept, by the paths of their scripts; none where the file has been damaged."""
        try:
            octets = self._read_file_if_of_these_paths()
            if octets is None:
                return {}
            paths = _parse_cached_report_or_fault(self._file, octets).rows
            lines = octets.decode().split("\n")[1:-2]
        except (Fault, ValueError):
            return {}
        return {path: line.removesuffix(",") for path, line in zip(paths, lines)} if len(paths) == len(lines) else {}

    def _read_file_if_of_these_paths(self) -> bytes | None:
        """The file, if it is there and of these paths."""
        try:
            octets = self._file.read_bytes()
        except FileNotFoundError:
            return None
        except OSError as error:
            raise Fault(f"{printable_path(self._file)}: {error_reason(error)}") from error
        return octets if _paths_in_head(octets.split(b"\n", 1)[0]) == self.of else None

    def _replace_report_file_with_lines(self, lines: Iterator[str]) -> None:
        beside = self._folder / _NEW
        with beside.open("w", encoding="utf-8") as file:
            file.write(f'{{"of": {json.dumps(self.of, ensure_ascii=False)}, "scripts": [')
            before = "\n"
            while several := ",\n".join(islice(lines, _AT_ONCE)):
                file.write(before + several)
                before = ",\n"
            file.write("\n]}\n")
        beside.replace(self._file)


def newest_report_covering(paths: Iterable[str]) -> SavedReport | None:
    """The report that was left last of runs whose paths hold all of these scripts."""
    each = list(paths)
    for file in sorted(cache_folder().glob(_REPORTS), key=_newest_first_key):
        with suppress(FileNotFoundError), file.open("rb") as opened:
            of = _paths_in_head(opened.readline())
            if of and all(any(it == top or it.startswith(f"{top.rstrip('/')}/") for top in of) for it in each):
                opened.seek(0)
                return _parse_cached_report_or_fault(file, opened.read())
    return None


def _parse_cached_report_or_fault(file: Path, octets: bytes) -> SavedReport:
    return join_reports(printable_path(file), parse_reports(printable_path(file), octets))


def _paths_in_head(head: bytes) -> list[str]:
    """The paths of what was run, as the first line of a report that is kept has them."""
    try:
        match json.loads(head + _END):
            case {"of": list(paths)}:
                return [it for it in paths if isinstance(it, str)]
    except (ValueError, RecursionError):
        pass
    return []


def _cache_file_name(of: Sequence[str]) -> str:
    """The name of the file for these paths: two groups of paths can have one, so the file says whose it is."""
    words = _OTHER.sub("_", of[0])[-_LONGEST:].strip("._-") or "root"
    return f"{words}-{zlib.crc32(json.dumps(of).encode()):08x}.json"


@contextmanager
def _folder_lock(folder: Path) -> Iterator[None]:
    """Lets nobody else write into the folder; it is made where it isn't there."""
    folder.mkdir(mode=0o700, parents=True, exist_ok=True)
    with (folder / _LOCK).open("a") as lock:
        until = time.monotonic() + _PATIENCE
        while not _try_lock(lock.fileno()):
            if time.monotonic() > until:
                raise Fault(f"{printable_path(folder)}: another run is writing there")
            time.sleep(_PAUSE)
        yield


def _try_lock(descriptor: int) -> bool:
    """Locks a file, if nobody else has: whether it is locked now, until it is closed."""
    try:
        fcntl.flock(descriptor, fcntl.LOCK_EX | fcntl.LOCK_NB)
    except BlockingIOError:
        return False
    return True


def _remove_oldest_reports(folder: Path) -> None:
    """Takes the oldest reports away, so that no more than so many stay."""
    for file in sorted(folder.glob(_REPORTS), key=_newest_first_key)[MOST:]:
        file.unlink(missing_ok=True)


def _newest_first_key(file: Path) -> tuple[float, str]:
    """The key that sorts the newest file first, and one that is gone last."""
    try:
        return -file.stat().st_mtime, file.name
    except FileNotFoundError:
        return 0.0, file.name
