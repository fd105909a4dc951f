"""The settings that there are: what each takes, and what holds where none is given."""

from collections.abc import Iterable, Iterator, Mapping
from dataclasses import dataclass

from pdsuite.output.octets import printable_text
from pdsuite.scripts.discover import SUFFIX
from pdsuite.scripts.renamed import BAD_VALUE, UNKNOWN_KEY, new_name_hint
from pdsuite.scripts.settings import Settings, Value, value_as_toml


@dataclass(frozen=True, slots=True)
class Number:
    """A setting that takes whole numbers of a range."""

    default: int
    least: int
    most: int
    unit: str

    @property
    def accepted_values_text(self) -> str:
        """The values that it takes, for people."""
        return f"{self.least:,} to {self.most:,} {self.unit}"


@dataclass(frozen=True, slots=True)
class Word:
    """A setting that takes one of some words, or a truth value."""

    default: Value
    words: tuple[Value, ...] = (True, False)

    @property
    def accepted_values_text(self) -> str:
        """The values that it takes, for people."""
        return " or ".join(map(value_as_toml, self.words))


# made by tools/settings_table.py client
KEYS: dict[str, Number | Word] = {
    "mss": Number(1_460, 64, 65_495, "octets"),
    "sack": Word(True),
    "wscale": Number(7, 0, 14, "bits"),
    "sndbuf": Number(262_144, 1_024, 1_048_576, "octets"),
    "rcv_wnd": Number(65_535, 1, 1_073_725_440, "octets"),
    "initial_ssthresh": Number(1_073_741_824, 128, 1_073_741_824, "octets"),
    "initial_window": Word("rfc5681", ("rfc5681", "rfc6928")),
    "min_rto_us": Number(1_000_000, 1_000, 60_000_000, "microseconds"),
    "max_rto_us": Number(60_000_000, 60_000_000, 3_600_000_000, "microseconds"),
    "granularity_us": Number(1_000, 1, 1_000_000, "microseconds"),
    "nagle": Word(True),
    "limited_transmit": Word(True),
    "abc_limit": Number(1, 1, 8, "segments"),
    "slow_start_after_idle": Word(False),
    "recovery_algorithm": Word("rfc6675", ("rfc6675", "rfc9937")),
    "tolerance_us": Number(4_000, 0, 1_000_000, "microseconds"),
}
# end
DEFAULTS: dict[str, Value] = {key: it.default for key, it in KEYS.items()}


def has_default_for_each_old_key_not_in_new(old: Settings, new: Settings) -> bool:
    """Whether a run with the old settings can be given the new ones: of each key that goes the default is known."""
    after = dict(new)
    return all(key in after or key in DEFAULTS for key, _ in old)


def changed_settings_with_new_values(old: Settings, new: Settings) -> Iterator[tuple[str, Value]]:
    """The keys whose value changes, each with its new one: the default for a key that goes."""
    before, after = {**DEFAULTS, **dict(old)}, {**DEFAULTS, **dict(new)}
    for key in sorted(after):
        if key not in before or before[key] != after[key]:
            yield key, after[key]


def nearest_word(word: str, words: Iterable[str]) -> str | None:
    """The word that a misspelt one may have been meant to be, if one is near; small and capital letters are alike."""
    from difflib import get_close_matches  # only who mistypes pays for what compares

    alike = {it.lower(): it for it in words}
    near = get_close_matches(word.lower(), alike, 1)
    return alike[near[0]] if near else None


def _is_needlessly_quoted(key: str, value: Value) -> bool:
    """Whether a text stands where the same without quotes may be taken."""
    takes = KEYS[key]
    if not isinstance(value, str):
        return False
    return value.isdecimal() if isinstance(takes, Number) else value in map(value_as_toml, takes.words)


def refusal_help(key: str, value: Value, reason: str, others: Iterable[str] = ()) -> str | None:
    """Help with a refusal of a key or its value, if there is any; `others` are the client's own keys in that place."""
    name = new_name_hint(key, value)
    if reason == BAD_VALUE and key in KEYS:
        takes = f"it takes {KEYS[key].accepted_values_text}"
        return f"{takes}; {name}" if name else takes + (", without quotes" if _is_needlessly_quoted(key, value) else "")
    if reason != UNKNOWN_KEY or key in KEYS:
        return None
    if name is not None:
        return name
    if isinstance(value, Mapping) and not key.endswith(SUFFIX):
        return f'a table is of a script, by its whole name: ["{printable_text(key)}{SUFFIX}"]'
    near = nearest_word(key, [*KEYS, *others])
    return f"the nearest is {near}" if near else None
