"""One text becomes another by one edit, and settings become others by the fewest `set`s."""

import random
import re

import pytest

from pdsuite.scripts.defaults import (
    DEFAULTS,
    KEYS,
    has_default_for_each_old_key_not_in_new,
    changed_settings_with_new_values,
)
from pdsuite.scripts.settings import Value
from pdsuite.scripts.text import ScriptText, make_newline_ended_text_within_limits
from pdsuite.scripts.text_edit import Edit, edit_between
from tests.helpers import TOP


@pytest.mark.parametrize(
    ("old", "new", "edit"),
    [
        (b"a\nb\nc\n", b"a\nX\nc\n", Edit(2, 1, ScriptText(b"X\n", 1))),
        (b"a\nc\n", b"a\nb\nc\n", Edit(2, 0, ScriptText(b"b\n", 1))),
        (b"a\nb\nc\n", b"a\nc\n", Edit(2, 1, ScriptText(b"", 0))),
        (b"", b"a\n", Edit(1, 0, ScriptText(b"a\n", 1))),
        (b"a\n", b"", Edit(1, 1, ScriptText(b"", 0))),
        (b"a\n", b"a\nb", Edit(2, 0, ScriptText(b"b\n", 1))),
        (b"a\na\n", b"a\na\na\n", Edit(3, 0, ScriptText(b"a\n", 1))),
        (b"a\na\na\n", b"a\n", Edit(2, 2, ScriptText(b"", 0))),
        (b"a\r\nb\n", b"a\nb\n", Edit(1, 1, ScriptText(b"a\n", 1))),
        (
            b"a\x0bb\x0cc\x1cd\xc2\x85e\ny\n",
            b"a\x0bb\x0cc\x1cd\xc2\x85f\ny\n",
            Edit(1, 1, ScriptText(b"a\x0bb\x0cc\x1cd\xc2\x85f\n", 1)),
        ),
        (b"a\rb\nc\n", b"a\rX\nc\n", Edit(1, 1, ScriptText(b"a\rX\n", 1))),
    ],
    ids=range(11),
)
def test_what_lies_between_equal_first_and_last_lines_is_replaced(old: bytes, new: bytes, edit: Edit) -> None:
    assert edit_between(make_newline_ended_text_within_limits(old), make_newline_ended_text_within_limits(new)) == edit


def test_the_edit_of_two_texts_makes_one_of_the_other_and_touches_no_equal_line() -> None:
    chance = random.Random(1)
    for _ in range(5_000):
        old, new = ([chance.choice(b"abc\r") for _ in range(chance.randrange(6))] for _ in range(2))
        before, after = ([bytes([it]) for it in lines] for lines in (old, new))
        edit = edit_between(_text(before), _text(after))
        put = edit.put.octets.split(b"\n")[: edit.put.lines]
        assert before[: edit.first - 1] + put + before[edit.first - 1 + edit.removed :] == after
        if put and edit.removed:
            assert put[0] != before[edit.first - 1] and put[-1] != before[edit.first - 2 + edit.removed]


def _text(lines: list[bytes]) -> ScriptText:
    return ScriptText(b"".join(it + b"\n" for it in lines), len(lines))


def test_the_defaults_are_those_of_the_page_on_settings() -> None:
    rows = re.findall(
        r"^\| `([a-z_]+)` \|[^|]*\|[^|]*\| `?([a-z0-9,]+)`? \|", (TOP / "docs/SETTINGS.md").read_text(), re.M
    )
    assert {key: _value(word) for key, word in rows} == DEFAULTS
    assert all(isinstance(_value(word), bool) == isinstance(DEFAULTS[key], bool) for key, word in rows)


def test_what_keys_take_is_what_the_page_on_settings_says() -> None:
    pattern = r"^\| `([a-z_]+)` \| ([a-z]*) *\| ([^|]*) \|"
    rows = re.findall(pattern, (TOP / "docs/SETTINGS.md").read_text(), re.M)
    assert {key: _range(unit, words) for key, unit, words in rows} == {
        key: it.accepted_values_text for key, it in KEYS.items()
    }


def _range(unit: str, words: str) -> str:
    """The accepted values in a row of the page, in the words of the client."""
    if unit:
        return f"{words} {unit}"
    return " or ".join(it if it in ("true", "false") else f'"{it}"' for it in re.findall("`([a-z0-9_]+)`", words))


def _value(word: str) -> Value:
    if word in ("true", "false"):
        return word == "true"
    return int(word.replace(",", "")) if word[0].isdigit() else word


def test_a_key_that_goes_has_its_default_and_one_that_stays_is_not_set() -> None:
    old = (("mss", 1_000), ("nagle", False), ("sack", True))
    new = (("initial_window", "rfc5681"), ("min_rto_us", 5_000), ("nagle", False))
    assert list(changed_settings_with_new_values(old, new)) == [("min_rto_us", 5_000), ("mss", 1_460)]


def test_a_key_without_a_known_default_can_be_set_but_not_taken_back() -> None:
    later = (("later", 1),)
    assert list(changed_settings_with_new_values((), later)) == [("later", 1)]
    assert (
        has_default_for_each_old_key_not_in_new((), later)
        and has_default_for_each_old_key_not_in_new(later, (("later", 2),))
        and has_default_for_each_old_key_not_in_new((("mss", 9),), later)
    )
    assert not has_default_for_each_old_key_not_in_new(later, ())
