"""Settings as values: how they stand in a settings text, and in a `set` command."""

import re
from collections.abc import Mapping

# Any value that TOML can hold; the program says which ones a key takes.
Value = object
# Keys with their values, in the order of keys.
Settings = tuple[tuple[str, Value], ...]

_KEY = re.compile(r"[A-Za-z0-9_.-]{1,64}")
_WORD = re.compile(r"[a-z][a-z0-9_]{0,63}")
_TRUTH = {"true", "false"}
_DIGITS = 20
# A word that is no key, and a value that no key takes.
_NONE = "?"


def sorted_settings(table: Mapping[str, Value]) -> Settings:
    """The settings of a table."""
    return tuple(sorted(table.items()))


def set_command_words_or_placeholders(key: str, value: Value) -> tuple[str, str]:
    """Key and value as words of a `set` command.

    Where no word can hold them, a word stands for them that the program refuses too.
    """
    return (key if _KEY.fullmatch(key) else _NONE, _set_command_value_word_or_placeholder(value))


def settings_as_toml(settings: Settings) -> str:
    """The settings as a TOML text for `--settings`; each of them was accepted."""
    return "\n".join(f"{key} = {value_as_toml(value)}" for key, value in settings)


def value_as_toml(value: Value) -> str:
    """A value as TOML has it, where it is a number, a truth value or a word."""
    if isinstance(value, bool):
        return "true" if value else "false"
    if isinstance(value, str):
        return f'"{value}"'
    return str(value)


def _set_command_value_word_or_placeholder(value: Value) -> str:
    if isinstance(value, bool):
        return "true" if value else "false"
    if isinstance(value, int):
        digits = str(value)
        return digits if len(digits) <= _DIGITS else _NONE
    # A word in quotes that is digits or a truth value is neither a number nor one.
    if isinstance(value, str) and _WORD.fullmatch(value) and value not in _TRUTH:
        return value
    return _NONE
