"""Reads the set-up of a script as settings, and never runs it."""

import re
from collections.abc import Callable, Iterable, Iterator, Mapping, Sequence
from dataclasses import dataclass
from enum import Enum, auto

from pdsuite.imports.findings import Reason
from pdsuite.imports.kernel import SwitchMeaning, Use, meaning_of_command, meaning_of_switch
from pdsuite.imports.shell import Defaults, Metric, Other, SetupCommand, Switch, setup_commands_in
from pdsuite.scripts.defaults import KEYS
from pdsuite.scripts.settings import Value
from pdsuite.scripts.text import UnfitTextError

# The text of a `defaults.sh`, by its path from the script's folder, or `UnfitTextError`.
LoadSetup = Callable[[str], str]

# The third number of tcp_rmem where none is written: Linux's usual default.
USUAL_RMEM = 6_291_456
MOST_WSCALE = 14
ABC_LIMIT = "abc_limit"
# The settings of a kernel where no command says anything else.
KERNEL: Mapping[str, Value] = {
    "initial_window": "rfc6928",
    ABC_LIMIT: 8,
    "recovery_algorithm": "rfc9937",
    "slow_start_after_idle": True,
    "min_rto_us": 200_000,
}

# The words for a command in the midst that is about nothing known.
RUN = "commands, which are never run"

_RANGES = {"min_rto_us": range(1_000, 60_000_001), "max_rto_us": range(60_000_000, 3_600_000_001)}
_NUMBER = re.compile(r"[0-9]{1,18}")
_TIME = re.compile(r"([0-9]{1,12})(s|secs?|ms|msecs?)")
_RMEM = "net.ipv4.tcp_rmem"
_RMEM_MAX = "net.core.rmem_max"
# Switches that are 0 or 1, as the settings that they name are false or true.
_TRUTHS = frozenset({"net.ipv4.tcp_sack", "net.ipv4.tcp_slow_start_after_idle"})
_TIMESTAMPS = "net.ipv4.tcp_timestamps"


class CommandPlace(Enum):
    """Where a command stands."""

    SETUP = auto()  # before the first packet or call
    MIDST = auto()


@dataclass(frozen=True, slots=True)
class SetupLine:
    """A command with the line of the script that it belongs to, and whether it stands in a file that scripts share."""

    line: int
    command: SetupCommand
    is_shared: bool = False


@dataclass(frozen=True)
class Setup:
    """The result of a set-up: settings, whether timestamps are agreed, and the reasons against the script."""

    settings: Mapping[str, Value]
    has_timestamps: bool
    reasons: tuple[Reason, ...]


@dataclass(frozen=True)
class SetupWords:
    """The words for commands, each once: settings, features that this sender hasn't, and what it does anyway."""

    settings: tuple[str, ...] = ()
    features: tuple[str, ...] = ()
    alike: tuple[str, ...] = ()


@dataclass(frozen=True)
class ParsedCommand:
    """A command that was looked at: what it says, itself and by a file that scripts share, and why none is imported."""

    lines: tuple[SetupLine, ...]
    own: SetupWords
    shared: SetupWords
    reasons: tuple[Reason, ...]

    @property
    def words_for_parts_without_setting(self) -> tuple[str, ...]:
        """The words for all of it that no setting stands for."""
        own, shared = self.own, self.shared
        return tuple(dict.fromkeys((*own.features, *shared.features, *own.alike, *shared.alike)))


def parse_each_shell_command_in_text(text: str, line: int, place: CommandPlace, load: LoadSetup) -> ParsedCommand:
    """Parses the commands of a text, each by itself."""
    lines = tuple(_setup_lines_with_defaults_file_inlined(text, line, load))
    found = [(it, _meaning_of_setup_command(it.command, place)) for it in lines]
    reasons: list[Reason] = []
    for it, meant in found:
        if meant.use is Use.SETTING and place is CommandPlace.MIDST:
            reasons.append(Reason(line, "a setting in the midst", _shown_command(it.command)))
        elif meant.use is Use.REFUSED and (place is CommandPlace.MIDST or not isinstance(it.command, Switch)):
            reasons.append(Reason(line, meant.words, _shown_command(it.command)))
    own = [meant for it, meant in found if not it.is_shared]
    shared = [meant for it, meant in found if it.is_shared]
    return ParsedCommand(lines, _words_of_meanings(own), _words_of_meanings(shared), tuple(reasons))


def _words_of_meanings(meanings: Sequence[SwitchMeaning]) -> SetupWords:
    """The words of meanings, each once, by their use."""
    words = {use: tuple(dict.fromkeys(it.words for it in meanings if it.use is use)) for use in Use}
    return SetupWords(words[Use.SETTING], words[Use.FEATURE], words[Use.ALIKE])


def union_of_setup_words(each: Iterable[SetupWords]) -> SetupWords:
    """The words of several together, each once."""
    words = list(each)
    return SetupWords(
        tuple(dict.fromkeys(word for it in words for word in it.settings)),
        tuple(dict.fromkeys(word for it in words for word in it.features)),
        tuple(dict.fromkeys(word for it in words for word in it.alike)),
    )


def _meaning_of_setup_command(command: SetupCommand, place: CommandPlace) -> SwitchMeaning:
    """The meaning of a command. A switch of set-up is refused later, since the last one of its name counts."""
    match command:
        case Switch(name, value):
            return meaning_of_switch(name, value)
        case Metric(name):
            return SwitchMeaning(Use.SETTING, "initial_window" if name == "initcwnd" else "min_rto_us")
        case Other(words) if known := meaning_of_command(words):
            return known
    if place is CommandPlace.MIDST:
        return SwitchMeaning(Use.FEATURE, RUN)
    return SwitchMeaning(Use.REFUSED, "a command of set-up")


def _shown_command(command: SetupCommand) -> str:
    match command:
        case Switch(name, value):
            return f"{name}={value}"
        case Metric(name, value):
            return f"{name} {value}"
        case Defaults(path):
            return path
        case Other(words):
            return " ".join(words)


def setup_from_kernel_header_lines_then_own(
    lines: Iterable[SetupLine], smss: int, header: Mapping[str, Value], own: Mapping[str, Value] | None
) -> Setup:
    """The settings that commands lead to, one after another, after those of the header.

    Without settings of its own, which then come last, a script has those of a kernel first.
    """
    switches: dict[str, tuple[str, int]] = {}
    metrics: dict[str, tuple[str, int]] = {}
    for it in lines:
        if isinstance(it.command, Switch):
            switches[it.command.name] = it.command.value, it.line
        elif isinstance(it.command, Metric):
            metrics[it.command.name] = it.command.value, it.line
    settings: dict[str, Value] = {**({} if own is not None else KERNEL), **header}
    reasons: list[Reason] = []
    for found in (*_settings_of_switches(switches, own is None), *_settings_of_metrics(metrics, smss)):
        if isinstance(found, Reason):
            reasons.append(found)
        else:
            settings.update([found])
    has_timestamps = switches.get(_TIMESTAMPS, ("0" if own is not None else "1", 0))[0] != "0"
    return Setup({**settings, **(own or {})}, has_timestamps, tuple(reasons))


def _setup_lines_with_defaults_file_inlined(text: str, line: int, load: LoadSetup) -> Iterator[SetupLine]:
    """The commands of a text, those of a `defaults.sh` in the place of its name."""
    for command in setup_commands_in(text):
        if not isinstance(command, Defaults):
            yield SetupLine(line, command)
            continue
        try:
            inside = load(command.path)
        except UnfitTextError as unfit:
            yield SetupLine(line, Other((command.path, f"({unfit})")))
            continue
        for other in setup_commands_in(_text_with_hash_comment_lines_blanked(inside)):
            yield SetupLine(line, other, is_shared=True)


def _text_with_hash_comment_lines_blanked(text: str) -> str:
    return "\n".join("" if line.lstrip().startswith("#") else line for line in text.splitlines())


Setting = tuple[str, Value]


def _settings_of_switches(switches: Mapping[str, tuple[str, int]], is_kernel: bool) -> Iterator[Setting | Reason]:
    """The settings of the switches by their last values, or the reasons against these."""
    for name, (value, line) in switches.items():
        found = meaning_of_switch(name, value)
        if found.use is Use.REFUSED:
            yield Reason(line, found.words, f"{name}={value}")
        elif name in _TRUTHS:
            yield (found.words, value == "1") if value in ("0", "1") else _unread_value_reason(name, value, line)
        elif found.use is Use.SETTING and found.words != "wscale":
            factor = 1_000 if name.endswith("_ms") else 1
            yield _setting_or_reason_if_out_of_range(
                found.words, _parsed_number_times_factor(value, factor), f"{name}={value}", line
            )
    yield from _wscale_of_kernel_receive_buffers(switches, is_kernel)


def _wscale_of_kernel_receive_buffers(
    switches: Mapping[str, tuple[str, int]], is_kernel: bool
) -> Iterator[Setting | Reason]:
    """The shift count that a kernel's buffers lead to."""
    greatest = [USUAL_RMEM] if _RMEM not in switches else []
    for name, least in ((_RMEM, 3), (_RMEM_MAX, 1)):
        if name in switches:
            value, line = switches[name]
            numbers = value.split()
            if len(numbers) != least or not all(map(_NUMBER.fullmatch, numbers)):
                yield _unread_value_reason(name, value, line)
                return
            greatest.append(int(numbers[-1]))
    if is_kernel or _RMEM in switches or _RMEM_MAX in switches:
        yield "wscale", shift_count_for_buffer(max(greatest))


def shift_count_for_buffer(octets: int) -> int:
    """The shift count of a kernel whose greatest buffer has so many octets."""
    return min(MOST_WSCALE, max(0, octets.bit_length() - 1 - 15))


def _settings_of_metrics(metrics: Mapping[str, tuple[str, int]], smss: int) -> Iterator[Setting | Reason]:
    """The settings of a route's metrics, for segments of so many octets, or the reasons against these."""
    for name, (value, line) in metrics.items():
        if name == "initcwnd":
            word = _initial_window_rfc_or_none(value, smss)
            yield Reason(line, "another initial window", f"{name} {value}") if word is None else (
                "initial_window",
                word,
            )
        elif found := _TIME.fullmatch(value):
            factor = 1_000 if found[2].startswith("m") else 1_000_000
            yield _setting_or_reason_if_out_of_range("min_rto_us", int(found[1]) * factor, f"{name} {value}", line)
        else:
            yield _unread_value_reason(name, value, line)


def _initial_window_rfc_or_none(value: str, smss: int) -> str | None:
    """The initial window that has so many segments (RFC 6928, section 2; RFC 5681, section 3.1)."""
    segments = int(value) if _NUMBER.fullmatch(value) else 0
    if segments == min(10, max(2, 14_600 // smss)):
        return "rfc6928"
    return "rfc5681" if segments == (2 if smss > 2_190 else 3 if smss > 1_095 else 4) else None


def _parsed_number_times_factor(value: str, factor: int) -> int | None:
    return int(value) * factor if _NUMBER.fullmatch(value) else None


def _setting_or_reason_if_out_of_range(key: str, number: int | None, what: str, line: int) -> Setting | Reason:
    if number is None or number not in _RANGES[key]:
        return Reason(line, f"no value of {key}, which takes {KEYS[key].accepted_values_text}", what)
    return key, number


def _unread_value_reason(name: str, value: str, line: int) -> Reason:
    return Reason(line, "a value that isn't read", f"{name}={value}")
