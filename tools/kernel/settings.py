"""The settings of a script, by its `pdsuite.toml`, and what of this machine's kernel stands for each."""

from __future__ import annotations

import tomllib
from collections.abc import Iterable, Iterator, Mapping
from dataclasses import dataclass, fields, replace
from pathlib import Path
from typing import Any

from kernel.script import TimedEvent
from pdsuite.faults import Fault
from pdsuite.packetdrill.items import Packet
from pdsuite.scripts.config import OPTION, Claim, old_name_refusals
from pdsuite.scripts.toml_places import TomlPlaces, find_toml_places

NO_MSS = 536


@dataclass(frozen=True)
class KernelSettings:
    """The settings of docs/SETTINGS.md for which the kernel has something, with their defaults."""

    mss: int = 1460
    sack: bool = True
    wscale: int = 7
    sndbuf: int = 262144
    rcv_wnd: int = 65535
    initial_window: str = "rfc5681"
    min_rto_us: int = 1_000_000
    max_rto_us: int = 60_000_000
    nagle: bool = True
    slow_start_after_idle: bool | None = None  # where nothing sets it, as the kernel has it


@dataclass(frozen=True)
class Tuning:
    """How the namespace of a run is set up, and what the tool sets at the connection."""

    sysctls: tuple[tuple[str, str], ...]
    route: tuple[str, ...]
    mtu: int
    nodelay: bool

    def __str__(self) -> str:
        switches = [f"{name}={value}" for name, value in self.sysctls]
        parts = [*switches, " ".join(("route", *self.route)), f"mtu {self.mtu}"]
        return ", ".join(parts + ["TCP_NODELAY"] * self.nodelay)


def with_table_settings(settings: KernelSettings, table: Mapping[str, Any]) -> KernelSettings:
    """The settings that a table leads to; keys that the kernel has nothing for are left out.

    >>> with_table_settings(KernelSettings(), {"mss": 1000, "tolerance_us": 0}).mss
    1000
    """
    names = {it.name for it in fields(KernelSettings)}
    return replace(settings, **{key: value for key, value in table.items() if key in names})


def settings_of(path: Path, text: str, option: str = "") -> KernelSettings:
    """The settings of a script: `option` first, then its own comments, then each `pdsuite.toml`, the nearest first.

    A key or a word that has another name now is a fault, with its place and that name.
    """
    settings = KernelSettings()
    for table in reversed(list(settings_tables_for(path.resolve()))):
        settings = with_table_settings(settings, table)
    own = {key: value for _, key, value in set_comments_in(text)}
    refuse_old_names(Claim(f"{path}:{line}", "", key, value) for line, key, value in set_comments_in(text))
    from_option = tomllib.loads(option)
    refuse_old_names(settings_and_places_of_table(TomlPlaces(OPTION, {}), from_option))
    return with_table_settings(with_table_settings(settings, own), from_option)


def refuse_old_names(claims: Iterable[Claim]) -> None:
    """Raises a fault where a key or a word has another name now."""
    for line in old_name_refusals(claims):
        raise Fault(line)


def settings_and_places_of_table(places: TomlPlaces, table: Mapping[str, Any], name: str = "") -> Iterator[Claim]:
    """The keys of a table with their places."""
    return (Claim(places.file_and_line_of_key(name, key), name, key, value) for key, value in table.items())


def set_comments_in(text: str) -> Iterator[tuple[int, str, Any]]:
    """The settings that a script asks for in comments `// set KEY VALUE`, before its first event, with their lines.

    >>> list(set_comments_in("// Why.\\n// set sack false\\n// set mss 700\\n0 close(3) = 0\\n// set mss 9\\n"))
    [(2, 'sack', False), (3, 'mss', 700)]
    """
    for number, line in enumerate(text.splitlines(), 1):
        if not line.startswith("//"):
            return
        words = line[2:].split()
        if len(words) == 3 and words[0] == "set":
            yield number, words[1], parse_value(words[2])


def parse_value(word: str) -> bool | int | str:
    """A word of `set` as a value."""
    if word in ("true", "false"):
        return word == "true"
    return int(word) if word.isdigit() else word


def settings_tables_for(path: Path) -> Iterator[dict[str, Any]]:
    """The tables that hold for a script, the nearest first, up to a file with `root = true`."""
    for folder in path.parents:
        file = folder / "pdsuite.toml"
        if not file.is_file():
            continue
        text = file.read_text()
        whole, places = tomllib.loads(text), find_toml_places(str(file), text)
        if folder == path.parent and isinstance(whole.get(path.name), dict):
            refuse_old_names(settings_and_places_of_table(places, whole[path.name], path.name))
            yield whole[path.name]
        beside = {key: value for key, value in whole.items() if not isinstance(value, dict)}
        refuse_old_names(settings_and_places_of_table(places, beside))
        yield beside
        if whole.get("root") is True:
            return


def lesser_mss_of_syn_and_settings(events: tuple[TimedEvent, ...], settings: KernelSettings) -> int:
    """The longest segment of a connection: the lesser of both sides' MSS."""
    for event in events:
        if isinstance(event.action, Packet) and "S" in event.action.flags and event.action.is_inbound:
            sizes = [it.numbers[0] for it in event.action.options if it.name == "mss"]
            return min(settings.mss, sizes[0] if sizes else NO_MSS)
    return settings.mss


def initial_window_segments(size: int, initial_window: str) -> int:
    """How many segments the first congestion window holds.

    >>> [initial_window_segments(it, "rfc5681") for it in (1000, 1460, 4000)]
    [4, 3, 2]
    >>> [initial_window_segments(it, "rfc6928") for it in (1000, 1460, 4000)]
    [10, 10, 3]
    """
    if initial_window == "rfc6928":
        return min(10, max(2, 14600 // size))
    return 4 if size <= 1095 else 3 if size <= 2190 else 2


def sysctl_file(name: str) -> Path:
    """Where the kernel shows a switch.

    >>> str(sysctl_file("net.ipv4.tcp_sack"))
    '/proc/sys/net/ipv4/tcp_sack'
    """
    return Path("/proc/sys", *name.split("."))


def tuning_of(events: tuple[TimedEvent, ...], settings: KernelSettings, switches: Mapping[str, str]) -> Tuning:
    """The namespace for a script under settings, with further sysctls before all; what the kernel lacks is left out."""
    size = lesser_mss_of_syn_and_settings(events, settings)
    sysctls = {
        "net.ipv4.tcp_congestion_control": "reno",
        "net.ipv4.tcp_timestamps": "0",
        "net.ipv4.tcp_sack": str(int(settings.sack)),
        "net.ipv4.tcp_rmem": f"4096 {2 * settings.rcv_wnd} {2 ** (15 + settings.wscale)}",
        "net.ipv4.tcp_wmem": f"4096 {2 * settings.sndbuf} {max(4194304, 2 * settings.sndbuf)}",
        "net.ipv4.tcp_rto_max_ms": str(min(120_000, settings.max_rto_us // 1000)),
    }
    if settings.slow_start_after_idle is not None:
        sysctls["net.ipv4.tcp_slow_start_after_idle"] = str(int(settings.slow_start_after_idle))
    route = [
        *("initcwnd", str(initial_window_segments(size, settings.initial_window))),
        *("rto_min", f"{settings.min_rto_us // 1000}ms"),
        *("advmss", str(settings.mss)),
    ]
    if settings.wscale < 7:
        route += ["window", str(min(65535 << settings.wscale, 2 ** (15 + settings.wscale)))]
    sysctls = {name: value for name, value in sysctls.items() if sysctl_file(name).exists()}
    sysctls.update(switches)
    return Tuning(tuple(sysctls.items()), tuple(route), settings.mss + 40, not settings.nagle)
