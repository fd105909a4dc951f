"""Paths between a sender and its peer: what a table of TOML says of each, in octets, microseconds and shares."""

import os
import re
from collections.abc import Iterator, Mapping, Sequence
from dataclasses import MISSING, dataclass, fields
from fnmatch import fnmatchcase
from pathlib import Path
from typing import Any

from pdsuite.faults import Fault
from pdsuite.output.octets import printable_text
from pdsuite.scripts.config import read_config_octets_if_file_exists, printable_path_from_working_folder
from pdsuite.scripts.defaults import nearest_word
from pdsuite.scripts.toml_places import TomlPlaces, find_toml_places

# The paths that come with the client.
FILE = Path(__file__).with_name("paths.toml")
# The octets of the IP and TCP headers, which count on the link and in the queue.
HEADER = 40
# So many segments fit into a script, with what acknowledges them.
MOST_SEGMENTS = 900
_MOST_SHIFT = 14
_MOST_FIELD = 65_535
_SECONDS = 60_000_000
_NAME_LENGTH = 40
_NAME = re.compile(rf"[A-Za-z0-9_-]{{1,{_NAME_LENGTH}}}")


@dataclass(frozen=True, slots=True)
class NetworkPath:
    """A path: its bottleneck, what is lost or late on it, its peer, and what is written at its near end.

    Times are in microseconds, the rate in bits a second, sizes in octets, and what happens to some packets is a share.
    """

    name: str
    source: str
    rate: int
    delay_us: int
    queue: int
    sizes: tuple[int, ...]
    loss: float = 0.0
    burst_us: int = 0
    burst_gap_us: int = 0
    burst_loss: float = 1.0
    reorder: float = 0.0
    reorder_us: int = 0
    ack_every: int = 2
    ack_delay_us: int = 40_000
    ack_gather_us: int = 0
    ack_loss: float = 0.0
    sack: bool = True
    window: int = 1_048_576
    mss: int = 1_460
    write: int = 0
    write_every_us: int = 0
    idle_us: int = 0

    @property
    def has_chance(self) -> bool:
        """Whether two runs over it may differ."""
        return any((self.loss, self.burst_us, self.reorder, self.ack_loss))

    @property
    def window_shift(self) -> int:
        """By how many bits the peer's window is shifted in its field."""
        return next((it for it in range(_MOST_SHIFT) if self.window >> it <= _MOST_FIELD), _MOST_SHIFT)

    @property
    def window_field(self) -> int:
        """The field of the peer's window in its segments after the SYN."""
        return min(self.window >> self.window_shift, _MOST_FIELD)

    def octets_written_doubled_if_idle(self, size: int) -> int:
        """How much a transfer of this size writes: twice as much where an idle time parts two."""
        return 2 * size if self.idle_us else size


# The least and the most of each key.
_RANGES: Mapping[str, tuple[float, float]] = {
    "rate": (1_000, 1_000_000_000_000),
    "delay_us": (1, 10_000_000),
    "queue": (0, 1_000_000_000),
    "loss": (0, 0.5),
    "burst_us": (0, 10_000_000),
    "burst_gap_us": (0, 3_600_000_000),
    "burst_loss": (0, 1),
    "reorder": (0, 1),
    "reorder_us": (0, 10_000_000),
    "ack_every": (1, 64),
    "ack_delay_us": (0, 500_000),
    "ack_gather_us": (0, 1_000_000),
    "ack_loss": (0, 0.5),
    "window": (1_000, 1_073_725_440),
    "mss": (64, 65_495),
    "write": (0, 1_048_576),
    "write_every_us": (0, _SECONDS),
    "idle_us": (0, 600_000_000),
}
_SIZES = "sizes"
# For a field of each type, the types that its value may have in TOML, and the words for them.
_KINDS: Mapping[object, tuple[tuple[type, ...], str]] = {
    float: ((int, float), "a share"),
    int: ((int,), "a whole number"),
    bool: ((bool,), "true or false"),
    str: ((str,), "a text"),
}
_FIELDS = {it.name: it for it in fields(NetworkPath) if it.name != "name"}


def load_network_paths_matching(file: Path | None, patterns: Sequence[str] = ()) -> list[NetworkPath]:
    """The paths of a file, or those that come with the client: all, or those whose names fit a pattern."""
    place = FILE if file is None else file
    octets = read_config_octets_if_file_exists(place)
    if octets is None:
        raise Fault(f"{printable_path_from_working_folder(place)}: {os.strerror(2)}")
    paths = list(parse_network_paths_toml(printable_path_from_working_folder(place), octets))
    if not paths:
        raise Fault(f"{printable_path_from_working_folder(place)}: there is no path in it; each is a table")
    chosen = [it for it in paths if not patterns or any(fnmatchcase(it.name, pattern) for pattern in patterns)]
    if not chosen:
        names = ", ".join(it.name for it in paths)
        raise Fault(f"{printable_path_from_working_folder(place)}: no path has such a name; there are {names}")
    return chosen


def parse_network_paths_toml(file: str, octets: bytes) -> Iterator[NetworkPath]:
    """The paths of a text, one for each table."""
    import tomllib

    try:
        text = octets.decode()
        tables = tomllib.loads(text)
    except (ValueError, RecursionError) as error:
        raise Fault(f"{file}: no TOML: {printable_text(str(error))}") from error
    places = find_toml_places(file, text)
    for name, table in tables.items():
        if not isinstance(table, dict):
            raise Fault(
                f"{places.file_and_line_of_key('', name)}: {printable_text(name)} stands in no table; each path is one"
            )
        yield _Reading(places, name, table).parse_network_path_or_refuse()


@dataclass(frozen=True)
class _Reading:
    """A table that is read as a path."""

    places: TomlPlaces
    name: str
    table: Mapping[str, object]

    def parse_network_path_or_refuse(self) -> NetworkPath:
        if not self._has_valid_name():
            raise self._fault_at_key("", f"no name of a path: it is 1 to {_NAME_LENGTH} letters, digits, - and _")
        for key in self.table:
            if key not in _FIELDS:
                near = nearest_word(key, _FIELDS)
                raise self._fault_at_key(key, "there is no such key" + (f"; the nearest is {near}" if near else ""))
        values: dict[str, Any] = {key: self._require_valid_value(key) for key in _FIELDS if key in self.table}
        for key, it in _FIELDS.items():
            if key not in values and it.default is MISSING:
                raise self._fault_at_key("", f"it has no {key}")
        path = NetworkPath(name=self.name, **values)
        self._refuse_contradictions(path)
        return path

    def _has_valid_name(self) -> bool:
        return 0 < len(self.name) <= _NAME_LENGTH and all(
            it.isascii() and (it.isalnum() or it in "-_") for it in self.name
        )

    def _require_valid_value(self, key: str) -> object:
        value = self.table[key]
        if key == _SIZES:
            return self._require_valid_sizes(value)
        kind: object = _FIELDS[key].type
        types, words = _KINDS[kind]
        if not isinstance(value, types) or (isinstance(value, bool) and kind is not bool):
            raise self._fault_at_key(key, f"it takes {words}")
        if key in _RANGES and isinstance(value, int | float):
            least, most = _RANGES[key]
            if not least <= value <= most:
                raise self._fault_at_key(key, f"it takes {least:,} to {most:,}")
        return value

    def _require_valid_sizes(self, value: object) -> tuple[int, ...]:
        sizes = value if isinstance(value, list) else []
        if not sizes or any(isinstance(it, bool) or not isinstance(it, int) or it < 1 for it in sizes):
            raise self._fault_at_key(_SIZES, "it takes a list of numbers of octets, [14600, 146000]")
        return tuple(sizes)

    def _refuse_contradictions(self, path: NetworkPath) -> None:
        """Refuses what doesn't go together."""
        for size in path.sizes:
            if path.octets_written_doubled_if_idle(size) > MOST_SEGMENTS * path.mss:
                most = MOST_SEGMENTS * path.mss // path.octets_written_doubled_if_idle(1)
                raise self._fault_at_key(
                    _SIZES, f"a script holds {MOST_SEGMENTS} segments, here {most:,} octets; a larger mss allows more"
                )
        if path.reorder and not path.reorder_us:
            raise self._fault_at_key("reorder", "without reorder_us nothing is late")
        if bool(path.burst_us) is not bool(path.burst_gap_us):
            raise self._fault_at_key(
                "burst_us", "bursts have burst_us and burst_gap_us, how long they last and are apart"
            )
        if path.write_every_us and not path.write:
            raise self._fault_at_key("write_every_us", "without write all is written at once")

    def _fault_at_key(self, key: str, reason: str) -> Fault:
        what = f"{self.name}.{key}" if key else self.name
        return Fault(f"{self.places.file_and_line_of_key(self.name, key)}: {printable_text(what)}: {reason}")
