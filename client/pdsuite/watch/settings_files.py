"""The files pdsuite.toml while they change: each refusal is reported, and the settings that were good last stay."""

from collections.abc import Callable, Iterable, Set
from pathlib import Path

from pdsuite.faults import Fault
from pdsuite.file_stamps import StampedValue, is_unchanged_since_read, read_value_and_file_stamp
from pdsuite.scripts.config import (
    CONFIG_FILE,
    Claim,
    Layer,
    SuiteConfig,
    every_claim_of_layers,
    parse_layer,
    read_config_octets_if_file_exists,
    printable_path_from_working_folder,
)
from pdsuite.scripts.unused_tables import unused_table_warning_lines

# The lines of the claims that the program refuses.
QueryRefused = Callable[[Iterable[Claim]], list[str]]


class SettingsFiles:
    """The settings files as they were read, and the layer that counts for each."""

    def __init__(self, option: Layer, refused: QueryRefused, note: Callable[[str], None]) -> None:
        self._option = option
        self._refused = refused
        self._note = note
        self._read: dict[Path, StampedValue[bytes | str | None]] = {}
        self._good: dict[Path, Layer | None] = {}

    def make_suite_config(self) -> SuiteConfig:
        """The settings of scripts by the files as they are known now."""
        return SuiteConfig(self._option, self.last_good_layer_of_file)

    def folders_with_files(self) -> set[str]:
        """The folders of the files that are there."""
        return {str(path.parent) for path, it in self._read.items() if it.value is not None}

    def read_new_folders(self, folders: Iterable[str]) -> None:
        """Reads the files of these folders that weren't read before, whichever scripts they are about."""
        for folder in folders:
            self.last_good_layer_of_file(Path(folder, CONFIG_FILE))

    def unused_table_lines_to_print_unless_held(self, held: Set[tuple[str, str]]) -> list[str]:
        """The lines of tables whose scripts aren't there; those of `held`, by folder and name, are taken to be."""
        return [
            line
            for path, it in sorted(self._good.items())
            if it is not None and it.tables
            for line in unused_table_warning_lines(
                it, str(path.parent), {name for folder, name in held if folder == str(path.parent)}
            )
        ]

    def last_good_layer_of_file(self, path: Path) -> Layer | None:
        """The layer that counts for a file."""
        if path not in self._read:
            self._reread_file_returning_whether_taken(path)
        return self._good[path]

    def reread_files_returning_whether_changed_or_torn(self) -> tuple[bool, bool]:
        """Reads again what isn't surely as it was: whether a layer changed, and whether a file is still written."""
        known = [path for path, it in self._read.items() if not is_unchanged_since_read(it, path)]
        changed = [self._reread_file_returning_whether_taken(path) for path in known]
        return any(changed), any(self._read[path].is_torn for path in known)

    def recheck_all_files(self) -> None:
        """Has each file checked anew, since another sender may take what the one before refused, and refuse others."""
        for path, it in self._read.items():
            self._take_layer_if_good_else_report(path, it.value)

    def _reread_file_returning_whether_taken(self, path: Path) -> bool:
        """Reads a file, and takes it if it is good; whether it was taken."""
        before = self._read.get(path)
        now = read_value_and_file_stamp(path, lambda: self._octets_or_fault(path))
        self._read[path] = now
        if before is not None and (now.is_torn or before.value == now.value):
            if now.is_torn:
                self._read[path] = StampedValue(before.value, now.stamp, True, True)
            return False
        return self._take_layer_if_good_else_report(path, now.value)

    def _take_layer_if_good_else_report(self, path: Path, octets: bytes | str | None) -> bool:
        """Takes what a file holds if it is good; whether it was taken."""
        try:
            layer = self._parse_and_check(path, octets)
        except Fault as fault:
            self._report_fault(path, str(fault))
            self._good.setdefault(path, None)
            return False
        self._good[path] = layer
        return True

    def _report_fault(self, path: Path, fault: str) -> None:
        """Reports a fault, and what counts in spite of it."""
        stays = "its last good settings stay" if self._good.get(path) else "the file counts for nothing"
        self._note(f"{fault}; {stays}")

    def _octets_or_fault(self, path: Path) -> bytes | str | None:
        """The octets of a file if it is there, or the line that says why it can't be read."""
        try:
            return read_config_octets_if_file_exists(path)
        except Fault as fault:
            return str(fault)

    def _parse_and_check(self, path: Path, octets: bytes | str | None) -> Layer | None:
        if octets is None:
            return None
        if isinstance(octets, str):
            raise Fault(octets)
        layer = parse_layer(printable_path_from_working_folder(path), octets)
        if lines := self._refused(every_claim_of_layers([layer])):
            raise Fault("; ".join(lines))
        return layer
