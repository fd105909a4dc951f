"""A pdsuite.toml as a text: what is expected of scripts is written into it, and all else stays as it stands there."""

import tomllib
from collections.abc import Mapping, Sequence
from enum import Enum

import tomlkit
from tomlkit.items import Comment, InlineTable, Item, Key, Table

from pdsuite.faults import Fault
from pdsuite.output.octets import printable_text
from pdsuite.scripts.config import EXPECT, REASON
from pdsuite.scripts.expectation import Expectation


class TableRemoval(Enum):
    """That the whole table of a script goes."""

    TAKEN = "taken"


# Rows that are expected of scripts from now on, or none any more, or which tables go; by the scripts' names.
TableEdit = Expectation | TableRemoval | None
TableEdits = Mapping[str, TableEdit]
_Body = Sequence[tuple[Key | None, Item]]


def edit_expectations(place: str, text: str, edits: TableEdits) -> str:
    """The text of a file with other rows expected of some scripts. Their tables are edited, and new ones come last."""
    tables = tomllib.loads(text)
    end = "\r\n" if "\r\n" in text else "\n"
    new = _with_final_newline(text, end)
    if not edits.keys().isdisjoint(tables):
        new = _edit_present_tables(new, edits, end)
    for name, expected in edits.items():
        if isinstance(expected, Expectation) and name not in tables:
            new += _render_expectation_table(name, expected, end, is_first=not new)
    _check_edit_result(place, new, tables, edits)
    return new


def _with_final_newline(text: str, end: str) -> str:
    """The text with an end of its last line."""
    return f"{text}{end}" if text and not text.endswith("\n") else text


def _render_expectation_table(name: str, expected: Expectation, end: str, is_first: bool) -> str:
    """A new table, which a blank line parts from what stands before it."""
    text = tomlkit.dumps({name: {EXPECT: expected.row, REASON: expected.reason}})
    return ("" if is_first else end) + text.replace("\n", end)


def _edit_present_tables(text: str, edits: TableEdits, end: str) -> str:
    """The text with its tables edited."""
    document = tomlkit.parse(text)
    body: list[tuple[Key | None, Item]] = []
    for key, item in document.body:
        if key is not None and key.key in edits:
            body += _edited_table_or_its_comments(key, item, edits[key.key], end)
        else:
            body.append((key, item))
    document.body[:] = body
    new = document.as_string()
    while new.endswith(end * 2) and not text.endswith(end * 2):
        new = new.removesuffix(end)  # it parted a table that went
    return "" if new == end else new


def _edited_table_or_its_comments(key: Key, item: Item, expected: TableEdit, end: str) -> _Body:
    """The edited table, or its comments alone where the table goes."""
    if expected is TableRemoval.TAKEN:
        return (
            _body_from_first_comment([it for it in item.value.body if it[0] is None]) if isinstance(item, Table) else []
        )
    if isinstance(item, InlineTable):
        _set_or_drop_inline_expectation(item, expected)
    elif isinstance(item, Table):
        body = item.value.body
        if expected is not None:
            _replace_or_append_expectation_keys(body, expected, end)
        else:
            body[:] = [it for it in body if it[0] is None or it[0].key not in (EXPECT, REASON)]
            if all(it[0] is None for it in body):
                return _body_from_first_comment(body)
    return [(key, item)]


def _replace_or_append_expectation_keys(body: list[tuple[Key | None, Item]], expected: Expectation, end: str) -> None:
    """Puts a row and its reason in the place of others, or after the last key."""
    for name, value in ((EXPECT, expected.row), (REASON, expected.reason)):
        item = tomlkit.string(value)
        item.trivia.trail = end
        place = next((place for place, it in enumerate(body) if it[0] is not None and it[0].key == name), None)
        if place is None:
            last = max((place for place, it in enumerate(body) if it[0] is not None), default=-1)
            body.insert(last + 1, (tomlkit.key(name), item))
        else:
            old = body[place]
            item.trivia.indent, item.trivia.comment_ws = old[1].trivia.indent, old[1].trivia.comment_ws
            item.trivia.comment, item.trivia.trail = old[1].trivia.comment, old[1].trivia.trail
            body[place] = (old[0], item)


def _set_or_drop_inline_expectation(table: InlineTable, expected: Expectation | None) -> None:
    for name in (EXPECT, REASON):
        if expected is None:
            table.pop(name, None)
        else:
            table[name] = expected.row if name == EXPECT else expected.reason


def _body_from_first_comment(body: _Body) -> _Body:
    """The comments of a table and what stands between them."""
    first = next((place for place, it in enumerate(body) if isinstance(it[1], Comment)), len(body))
    return body[first:]


def _check_edit_result(place: str, text: str, before: Mapping[str, object], edits: TableEdits) -> None:
    """Raises a fault where the text doesn't say just what is meant, as where a table's keys stand apart."""
    meant = dict(before)
    for name, expected in edits.items():
        table = before.get(name, {})
        others = (
            {key: it for key, it in table.items() if key not in (EXPECT, REASON)} if isinstance(table, dict) else {}
        )
        if isinstance(expected, Expectation):
            others |= {EXPECT: expected.row, REASON: expected.reason}
        meant[name] = {} if expected is TableRemoval.TAKEN else others
    stated: dict[str, object] = {}
    try:
        stated = {**dict.fromkeys(edits, {}), **tomllib.loads(text)}
    except ValueError:
        pass
    wrong = next((name for name in edits if stated.get(name) != meant[name]), None)
    if wrong is not None:
        raise Fault(f'{place}: what it says of ["{printable_text(wrong)}"] can\'t be edited: do it by hand')
    if stated != meant:
        raise Fault(f"{place}: it can't be edited: do it by hand")
