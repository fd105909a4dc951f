"""Settings, and words that they take, that have another name now: an old one is refused with the new one."""

from collections.abc import Mapping

from pdsuite.scripts.settings import Value

UNKNOWN_KEY = "UnknownKey"
BAD_VALUE = "BadValue"

# The old name of a setting, and its name.
KEYS: Mapping[str, str] = {
    "byte_counting": "abc_limit",
    "restart_after_idle": "slow_start_after_idle",
    "recovery_rate": "recovery_algorithm",
}
# The name of such a setting, and its old name.
OLD_KEYS: Mapping[str, str] = {name: old for old, name in KEYS.items()}
# By setting: the old word for a value, and its word.
WORDS: Mapping[str, Mapping[str, str]] = {
    "recovery_algorithm": {"pipe": "rfc6675", "prr": "rfc9937", "prr_crb": "rfc9937"},
}


def refusal_reason_if_renamed(key: str, value: Value) -> str | None:
    """Why the program refuses a key or a value that has another name now; None of all others."""
    if key in KEYS:
        return UNKNOWN_KEY
    return BAD_VALUE if _find_new_word(key, value) else None


def new_name_hint(key: str, value: Value) -> str | None:
    """The new name of a key, of its value or of both, in words; None where neither has one."""
    name, word = KEYS.get(key), _find_new_word(KEYS.get(key, key), value)
    parts = [f"its name is {name}"] if name else []
    return " and ".join([*parts, *([f'the word for "{value}" is "{word}"'] if word else [])]) or None


def _find_new_word(key: str, value: Value) -> str | None:
    """The word for an old one."""
    return WORDS.get(key, {}).get(value) if isinstance(value, str) else None


def old_setting_name_and_words_text(key: str) -> str:
    """The old name of a setting, with the old word for each word that it takes."""
    words = {word: old_word_or_same_value(key, word) for word in WORDS.get(key, {}).values()}
    return "".join([OLD_KEYS[key], *(f', with "{old}" for "{word}"' for word, old in words.items())])


def old_word_or_same_value(key: str, value: Value) -> Value:
    """The old word for a value of a setting, the first where it had several."""
    return next((old for old, word in WORDS.get(key, {}).items() if word == value), value)
