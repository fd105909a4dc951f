"""The files pdsuite.toml of a workspace: an open text counts in place of its file, and faults are kept, not printed."""

import re
from collections.abc import Callable, Iterable, Mapping, Set
from pathlib import Path

from pdsuite.scripts.config import LONGEST, Claim, Layer, printable_path_from_working_folder
from pdsuite.watch.settings_files import SettingsFiles


class OpenSettings(SettingsFiles):
    """The content of each file, or its open text in place of that. Faults are kept by the files that they are about."""

    def __init__(self, option: Layer, refused: Callable[[Iterable[Claim]], list[str]]) -> None:
        super().__init__(option, refused, self._ignore_fault_line)
        self.scripts: Set[tuple[str, str]] = frozenset()  # by folder and name, those that are open
        self._texts: dict[Path, bytes] = {}
        self._others: set[Path] = set()
        self._faults: dict[Path, list[str]] = {}
        self._unused: dict[Path, list[str]] = {}

    def set_open_text(self, path: Path, octets: bytes | None) -> None:
        """Takes a text in place of a file, or the file again."""
        if octets is None:
            self._texts.pop(path, None)
        else:
            self._texts[path] = octets
        self._others.add(path)
        self.last_good_layer_of_file(path)

    def faults_by_file(self) -> Mapping[Path, list[str]]:
        """The faults of each file, in the words of a run, without the file's place."""
        known = {path: list(lines) for path, lines in self._faults.items()}
        for path, lines in self._unused.items():
            known.setdefault(path, []).extend(lines)
        return {path: lines for path, lines in known.items() if lines}

    def unused_table_lines_to_print_unless_held(self, held: Set[tuple[str, str]]) -> list[str]:
        """No line: tables whose scripts aren't there are among the faults."""
        self._unused = {}
        for line in super().unused_table_lines_to_print_unless_held(held | self.scripts):
            for path in self._good:
                if found := _file_prefix_pattern(path).match(line):
                    self._unused.setdefault(path, []).append(line[found.end() :])
                    break
        return []

    def reread_files_returning_whether_changed_or_torn(self) -> tuple[bool, bool]:
        """Reads again what isn't surely as it was, and of what another text counts since it was read."""
        has_changed, is_torn = super().reread_files_returning_whether_changed_or_torn()
        changed = [self._reread_file_returning_whether_taken(path) for path in self._others]
        self._others.clear()
        return has_changed or any(changed), is_torn

    def _octets_or_fault(self, path: Path) -> bytes | str | None:
        text = self._texts.get(path)
        if text is None:
            return super()._octets_or_fault(path)
        return (
            text
            if len(text) <= LONGEST
            else f"{printable_path_from_working_folder(path)}: more than {LONGEST:,} octets"
        )

    def _parse_and_check(self, path: Path, octets: bytes | str | None) -> Layer | None:
        self._faults.pop(path, None)
        return super()._parse_and_check(path, octets)

    def _ignore_fault_line(self, line: str) -> None:
        """Nothing: `_report_fault` keeps it with its file."""

    def _report_fault(self, path: Path, fault: str) -> None:
        place = _file_prefix_pattern(path)
        self._faults[path] = [place.sub("", it, 1) for it in re.split(f"; (?={place.pattern})", fault)]


def _file_prefix_pattern(path: Path) -> "re.Pattern[str]":
    """The pattern of the begin of a line about a file: its path, with the number of a line or without."""
    return re.compile(rf"{re.escape(printable_path_from_working_folder(path))}(?::\d+)?: ")
