"""pdsuite.toml: which settings a script has."""

import os
import re
import tomllib
from collections.abc import Callable, Iterable, Iterator, Mapping
from dataclasses import dataclass
from pathlib import Path

from pdsuite.faults import Fault, PlacedFault
from pdsuite.output.octets import printable_path, printable_text
from pdsuite.scripts.defaults import refusal_help
from pdsuite.scripts.discover import SUFFIX, ScriptFile
from pdsuite.scripts.expectation import Expectation, can_begin_failing_row
from pdsuite.scripts.renamed import refusal_reason_if_renamed
from pdsuite.scripts.settings import Settings, Value, sorted_settings
from pdsuite.scripts.text import UnfitTextError, read_regular_file_up_to_limit
from pdsuite.scripts.toml_places import TomlPlaces, find_toml_places

CONFIG_FILE = "pdsuite.toml"
OPTION = "--settings"
# Those of each side, where two senders are compared.
BASE_OPTION = "--base-settings"
WITH_OPTION = "--with-settings"
_OPTIONS = (OPTION, BASE_OPTION, WITH_OPTION)
_ROOT = "root"
_STRICT = "strict"
EXPECT = "expect"
REASON = "reason"
# The last part of a script's name in a table without quotes: [a.pkt] is the table pkt in the table a.
_PART = SUFFIX.removeprefix(".")
_DEEPEST = 16
# Where Python says that a text is no TOML.
_AT = re.compile(r"\(at line (\d+), column (\d+)\)")
_AT_END = "(at end of document)"
# A word without quotes, as the value of a key.
_BARE = re.compile(r"(?<==)\s*[A-Za-z]|(?<== )[A-Za-z]")
_MARK = b"\xef\xbb\xbf"
LONGEST = 1 << 20

Table = Mapping[str, Value]


@dataclass(frozen=True)
class Layer:
    """One file: settings for all scripts below it, and tables for single ones beside it."""

    places: TomlPlaces  # where it and its keys stand, as people see it
    is_root: bool
    keys: Table
    tables: Mapping[str, Table]
    strict: Mapping[str, bool]  # whether warnings make scripts fail, by their names; of all scripts below it by ""
    expected: Mapping[str, Expectation]  # the rows of scripts that are known not to pass, by their names

    @property
    def file_or_option_name(self) -> str:
        """Where it stands."""
        return self.places.file


_EMPTY = Layer(TomlPlaces("", {}), False, {}, {}, {}, {})


@dataclass(frozen=True)
class Claim:
    """That a key has a value, and where that stands."""

    place: str
    table: str
    key: str
    value: Value

    def refusal_line(self, reason: str) -> str:
        """The line that says why it is refused."""
        beside = f' (["{_printable(self.table)}"])' if self.table else ""
        own = () if self.place in _OPTIONS else (_STRICT, EXPECT, REASON) if self.table else (_ROOT, _STRICT)
        helps = refusal_help(self.key, self.value, reason, own)
        return f"{self.place}: {_printable(self.key)}: {reason}{beside}" + (f": {helps}" if helps else "")


@dataclass(frozen=True, slots=True)
class ScriptRules:
    """The rules of a script: its settings, whether a warning makes it fail, and the row that it is known to have."""

    settings: Settings
    is_strict: bool
    expected: Expectation | None


class SuiteConfig:
    """The rules of scripts, from `--settings` and from the files above them, each read once."""

    def __init__(self, option: Layer, read: Callable[[Path], Layer | None] | None = None) -> None:
        self._option = option
        self._read = read or read_layer_if_file_exists
        self._layers: dict[str, Layer | None] = {}
        self._known: dict[str, tuple[ScriptRules, Layer]] = {}

    def rules_of_script(self, script: ScriptFile) -> ScriptRules:
        """The rules of a script."""
        common, beside = self._known.get(script.folder) or self._compute_and_cache_folder_rules(script.folder)
        own = beside.tables.get(script.name)
        if own is None:
            return common
        settings = self._merge_layers_script_table_and_option(script.folder, own) if own else common.settings
        is_strict = beside.strict.get(script.name, common.is_strict)
        return ScriptRules(settings, is_strict, beside.expected.get(script.name))

    def settings_of_script(self, script: ScriptFile) -> Settings:
        """The settings of a script."""
        return self.rules_of_script(script).settings

    def is_script_strict(self, script: ScriptFile) -> bool:
        """Whether a warning makes a script fail."""
        return self.rules_of_script(script).is_strict

    def expectation_of_script(self, script: ScriptFile) -> Expectation | None:
        """The row that a script is known to have, if one is given."""
        return self.rules_of_script(script).expected

    def read_own_config_files_of_folders(self, folders: Iterable[str]) -> None:
        """Reads the files of these folders, whichever scripts they are about."""
        for folder in folders:
            self._cached_or_read_layer_of_folder(folder)

    def sorted_read_layers_with_folders(self) -> list[tuple[str, Layer]]:
        """The files that were read, by their folders, in the order of their places."""
        files = [(folder, it) for folder, it in self._layers.items() if it is not None]
        return sorted(files, key=lambda it: it[1].file_or_option_name)

    def has_config_file_in_or_above_folder(self, script: ScriptFile) -> bool:
        """Whether some file is there for a script, whatever it says."""
        return bool(self._layers_from_folder_up_to_root(script.folder))

    def all_claims(self) -> Iterator[Claim]:
        """The claims of `--settings` and of the files that were read, whichever scripts they are about."""
        yield from every_claim_of_layers(
            [self._option, *(layer for _, layer in self.sorted_read_layers_with_folders())]
        )

    def _compute_and_cache_folder_rules(self, folder: str) -> tuple[ScriptRules, Layer]:
        """The rules of the scripts in a folder that the file beside them doesn't name, and the layer of that file."""
        is_strict = next(
            (it.strict[""] for it in self._layers_from_folder_up_to_root(folder) if "" in it.strict), False
        )
        known = (
            ScriptRules(self._merge_layers_script_table_and_option(folder, {}), is_strict, None),
            self._cached_or_read_layer_of_folder(folder) or _EMPTY,
        )
        self._known[folder] = known
        return known

    def _merge_layers_script_table_and_option(self, folder: str, own: Table) -> Settings:
        merged: dict[str, Value] = {}
        for layer in reversed(self._layers_from_folder_up_to_root(folder)):
            merged.update(layer.keys)
        return sorted_settings({**merged, **own, **self._option.keys})

    def _layers_from_folder_up_to_root(self, folder: str) -> list[Layer]:
        """The layers of a folder, the nearest first."""
        chain: list[Layer] = []
        while True:
            layer = self._cached_or_read_layer_of_folder(folder)
            if layer is not None:
                chain.append(layer)
            above = os.path.dirname(folder)
            if above == folder or (layer is not None and layer.is_root):
                return chain
            folder = above

    def _cached_or_read_layer_of_folder(self, folder: str) -> Layer | None:
        if folder not in self._layers:
            self._layers[folder] = self._read(Path(folder, CONFIG_FILE))
        return self._layers[folder]


def parse_layer(place: str, octets: bytes) -> Layer:
    """The layer that a file holds, or a fault where it isn't TOML, or a key of the client's own has another value."""
    table = _parse_toml(place, octets)
    places = find_toml_places(place, octets.decode())
    _refuse_unquoted_names(places, table)
    root = _pop_optional_truth_value(table, _ROOT, places)
    tables = {name: dict(it) for name, it in table.items() if name.endswith(SUFFIX) and isinstance(it, Mapping)}
    keys = {name: it for name, it in table.items() if name not in tables}
    strict_values = {
        name: _pop_optional_truth_value(it, _STRICT, places, name) for name, it in {"": keys, **tables}.items()
    }
    strict = {name: it for name, it in strict_values.items() if it is not None}
    _refuse_expectation_outside_tables(places, keys)
    rows = {
        name: it
        for name, table in tables.items()
        if (it := _pop_expectation_with_reason(places, name, table)) is not None
    }
    return Layer(places, root or False, keys, tables, strict, rows)


def _pop_optional_truth_value(table: dict[str, Value], key: str, places: TomlPlaces, name: str = "") -> bool | None:
    """A truth value that is the client's own, taken out of a table; a fault where it is something else."""
    value = table.pop(key, None)
    if value is None or isinstance(value, bool):
        return value
    beside = f' (["{_printable(name)}"])' if name else ""
    raise PlacedFault(f"{places.file_and_line_of_key(name, key)}: {key}: BadValue{beside}: it takes true or false")


def _pop_expectation_with_reason(places: TomlPlaces, name: str, table: dict[str, Value]) -> Expectation | None:
    """The row that is expected of a script, with its reason, taken out of its table; neither stands alone."""
    row, reason = table.pop(EXPECT, None), table.pop(REASON, None)
    beside = f'(["{_printable(name)}"])'
    if row is None and reason is None:
        return None
    if reason is None:
        raise PlacedFault(f"{places.file_and_line_of_key(name, EXPECT)}: {EXPECT}: needs a {REASON} beside it {beside}")
    if row is None:
        raise PlacedFault(f"{places.file_and_line_of_key(name, REASON)}: {REASON}: needs {EXPECT} beside it {beside}")
    if not isinstance(row, str) or not can_begin_failing_row(row):
        takes = 'it takes a row that doesn\'t pass, as "fail 12 seq", or its first words'
        raise PlacedFault(f"{places.file_and_line_of_key(name, EXPECT)}: {EXPECT}: BadValue {beside}: {takes}")
    if not isinstance(reason, str) or not reason.strip():
        raise PlacedFault(
            f"{places.file_and_line_of_key(name, REASON)}: {REASON}: BadValue {beside}: "
            "it takes a text that isn't empty"
        )
    return Expectation(row, _printable(reason))


def _refuse_expectation_outside_tables(places: TomlPlaces, keys: Table) -> None:
    """Raises a fault where a row is expected of no script."""
    for key in (EXPECT, REASON):
        if key in keys:
            raise PlacedFault(
                f'{places.file_and_line_of_key("", key)}: {key}: stands in no script\'s table, as ["NAME{SUFFIX}"] is'
            )


def _refuse_unquoted_names(places: TomlPlaces, table: Table) -> None:
    """Raises a fault where a script's name stands without quotes: its parts are then tables in tables."""
    for name in _script_names_written_without_quotes(table):
        shown = _printable(name)
        raise PlacedFault(
            f'{places.file_and_line_of_key(name)}: [{shown}]: a script\'s name stands in quotes: ["{shown}"]'
        )


def _script_names_written_without_quotes(table: Table, before: str = "", deepest: int = _DEEPEST) -> Iterator[str]:
    """The names that aren't quoted, of so many parts at most."""
    for key, value in table.items():
        if isinstance(value, Mapping):
            if before and key == _PART:
                yield f"{before}{key}"
            elif deepest > 1 and not key.endswith(SUFFIX):
                yield from _script_names_written_without_quotes(value, f"{before}{key}.", deepest - 1)


def layer_of_option(text: str, option: str = OPTION) -> Layer:
    """The layer of `--settings`, or of such an option, which has neither tables nor keys of the client's own."""
    octets = text.encode("utf-8", "surrogateescape")
    return Layer(TomlPlaces(option, {}), False, _parse_toml(option, octets), {}, {}, {})


def _parse_toml(place: str, octets: bytes) -> dict[str, Value]:
    try:
        return tomllib.loads(octets.decode())
    except (ValueError, RecursionError) as error:
        words = f"no TOML: {_toml_error_reason_for_people(error, octets)}"
        if place in _OPTIONS:
            raise Fault(f"{place}: {words}") from error
        raise PlacedFault(f"{place}:{_line_of_toml_error(error, octets)}: {words}") from error


def _line_of_toml_error(error: ValueError | RecursionError, octets: bytes) -> int:
    """The line at which octets are no TOML: their last one where they break off, and 1 where no line is known."""
    if isinstance(error, UnicodeDecodeError):
        return octets.count(b"\n", 0, error.start) + 1
    if _AT_END in str(error):
        return octets.rstrip().count(b"\n") + 1
    found = _AT.search(str(error))
    return 1 if found is None else int(found[1])


def _toml_error_reason_for_people(error: ValueError | RecursionError, octets: bytes) -> str:
    """Why octets are no TOML, in the words of Python where it has any for people."""
    if isinstance(error, UnicodeDecodeError):
        return f"octet 0x{octets[error.start]:02x} is no UTF-8"
    if octets.startswith(_MARK):
        return "a byte order mark; a file of settings begins without one"
    found = _AT.search(str(error))
    if found is not None and _BARE.match(octets.decode().split("\n")[int(found[1]) - 1], int(found[2]) - 1):
        return f"{_printable(str(error))}: a word stands in quotes"
    return _printable(str(error))


def every_claim_of_layers(layers: Iterable[Layer]) -> Iterator[Claim]:
    """The claims of layers, one layer after another."""
    for layer in layers:
        for key, value in layer.keys.items():
            yield Claim(layer.places.file_and_line_of_key("", key), "", key, value)
        for name, table in layer.tables.items():
            for key, value in table.items():
                yield Claim(layer.places.file_and_line_of_key(name, key), name, key, value)


def old_name_refusals(claims: Iterable[Claim]) -> Iterator[str]:
    """The lines of claims by keys or words that have another name now, as where a program refuses them."""
    for claim in claims:
        if (reason := refusal_reason_if_renamed(claim.key, claim.value)) is not None:
            yield claim.refusal_line(reason)


def read_layer_if_file_exists(path: Path) -> Layer | None:
    """The layer that a file holds, if it is there."""
    octets = read_config_octets_if_file_exists(path)
    return None if octets is None else parse_layer(printable_path_from_working_folder(path), octets)


def read_config_octets_if_file_exists(path: Path) -> bytes | None:
    """The octets of a file, if it is there."""
    if not os.path.lexists(path):
        return None
    try:
        octets = read_regular_file_up_to_limit(path, LONGEST + 1)
    except UnfitTextError as unfit:
        raise Fault(f"{printable_path_from_working_folder(path)}: {unfit}") from unfit
    if len(octets) > LONGEST:
        raise Fault(f"{printable_path_from_working_folder(path)}: more than {LONGEST:,} octets")
    return octets


def printable_path_from_working_folder(path: Path) -> str:
    """Where a file stands, as people see it."""
    return printable_path(_relative_if_below_here(path))


def _relative_if_below_here(path: Path) -> Path:
    """The path from the working folder, where it lies below that."""
    here = Path.cwd()
    return path.relative_to(here) if path.is_relative_to(here) else path


def _printable(text: str) -> str:
    return printable_text(text)
