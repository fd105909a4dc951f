"""A pdsuite.toml that is edited: its comments, its order and all else that it says stay."""

import random
import tomllib

import pytest

from pdsuite.faults import Fault
from pdsuite.scripts.config import parse_layer
from pdsuite.scripts.expectation import Expectation
from pdsuite.scripts.toml_text import edit_expectations

SEQ = Expectation("fail 12 seq", 'the peer\'s "window"')
WRITTEN = 'expect = "fail 12 seq"\nreason = "the peer\'s \\"window\\""\n'
FILE = """\
# The suite of the peer.
root = true   # nothing above counts
mss = 1000

# Late ones.
["a.pkt"]  # since May
mss = 1200 # as there

# Losses.
["b.pkt"]
sack = false
expect = "fail 3"    # flaky
reason = "old"

["c.pkt"]
# Only this.
expect = "fail 4"
reason = "x"

# The end.
"""


def test_a_new_table_comes_last() -> None:
    assert edit_expectations("here", FILE, {"d.pkt": SEQ}) == f'{FILE}\n["d.pkt"]\n{WRITTEN}'


def test_a_row_comes_after_the_last_key_of_its_table() -> None:
    new = FILE.replace("mss = 1200 # as there\n", f"mss = 1200 # as there\n{WRITTEN}")
    assert edit_expectations("here", FILE, {"a.pkt": SEQ}) == new


def test_a_row_takes_the_place_of_another_and_leaves_its_comment() -> None:
    new = FILE.replace(
        'expect = "fail 3"    # flaky\nreason = "old"\n',
        'expect = "fail 12 seq"    # flaky\nreason = "the peer\'s \\"window\\""\n',
    )
    assert edit_expectations("here", FILE, {"b.pkt": SEQ}) == new


def test_a_row_goes_and_the_settings_of_its_table_stay() -> None:
    new = FILE.replace('expect = "fail 3"    # flaky\nreason = "old"\n', "")
    assert edit_expectations("here", FILE, {"b.pkt": None}) == new


def test_a_table_that_says_nothing_more_goes_and_leaves_its_comments() -> None:
    new = FILE.replace('["c.pkt"]\n# Only this.\nexpect = "fail 4"\nreason = "x"\n', "# Only this.\n")
    assert edit_expectations("here", FILE, {"c.pkt": None}) == new


def test_what_was_not_there_is_not_taken_away() -> None:
    assert edit_expectations("here", FILE, {"a.pkt": None, "d.pkt": None}) == FILE


def test_all_at_once() -> None:
    new = edit_expectations("here", FILE, {"a.pkt": SEQ, "b.pkt": None, "c.pkt": None, "d.pkt": SEQ, "e.pkt": SEQ})
    layer = parse_layer("here", new.encode())
    assert layer.expected == dict.fromkeys(("a.pkt", "d.pkt", "e.pkt"), Expectation(SEQ.row, SEQ.reason))
    assert layer.tables == {"a.pkt": {"mss": 1200}, "b.pkt": {"sack": False}, "d.pkt": {}, "e.pkt": {}}
    assert (layer.is_root, layer.keys) == (True, {"mss": 1000})
    for comment in ("# The suite of the peer.", "# nothing above counts", "# Late ones.", "# since May", "# as there"):
        assert new.count(comment) == 1
    for comment in ("# Losses.", "# Only this.", "# The end."):
        assert new.count(comment) == 1


TEXTS = [
    ("", f'["a.pkt"]\n{WRITTEN}'),
    ("mss = 5", f'mss = 5\n\n["a.pkt"]\n{WRITTEN}'),
    ('["a.pkt"]', f'["a.pkt"]\n{WRITTEN}'),
    ("['a.pkt'] # x", f"['a.pkt'] # x\n{WRITTEN}"),
    ('["a.pkt"]\nmss = 5', f'["a.pkt"]\nmss = 5\n{WRITTEN}'),
    ('["a.pkt"]\n\n\n["b.pkt"]\n', f'["a.pkt"]\n{WRITTEN}\n\n["b.pkt"]\n'),
    ('["a.pkt"]\r\nmss = 5\r\n', '["a.pkt"]\r\nmss = 5\r\n' + WRITTEN.replace("\n", "\r\n")),
    ("mss = 5\r\n", 'mss = 5\r\n\r\n["a.pkt"]\r\n' + WRITTEN.replace("\n", "\r\n")),
]


@pytest.mark.parametrize(("text", "new"), TEXTS, ids=range(len(TEXTS)))
def test_a_row_is_written_into_a_text_of_any_layout(text: str, new: str) -> None:
    assert edit_expectations("here", text, {"a.pkt": SEQ}) == new


GOING = [
    ('["a.pkt"]\nexpect = "fail"\nreason = "r"\n', ""),
    ('mss = 5\n\n["a.pkt"]\nexpect = "fail"\nreason = "r"\n', "mss = 5\n"),
    ('["a.pkt"]\nexpect = "fail"\nreason = "r"\n\n["b.pkt"]\nmss = 5\n', '["b.pkt"]\nmss = 5\n'),
    ('["a.pkt"]\nexpect = \'\'\'fail\'\'\'\nreason = """\nr\n"""\nmss = 5\n', '["a.pkt"]\nmss = 5\n'),
    ('"a.pkt" = { mss = 5, expect = "fail", reason = "r" }\n', '"a.pkt" = { mss = 5   }\n'),
]


@pytest.mark.parametrize(("text", "new"), GOING, ids=range(len(GOING)))
def test_a_row_is_taken_away_whatever_the_layout(text: str, new: str) -> None:
    assert edit_expectations("here", text, {"a.pkt": None}) == new


def test_a_table_on_one_line_is_edited_there() -> None:
    new = edit_expectations("here", '"a.pkt" = { mss = 5 } # so\n', {"a.pkt": SEQ})
    assert parse_layer("here", new.encode()).expected == {"a.pkt": SEQ}
    assert new.startswith('"a.pkt" = { mss = 5, expect') and new.endswith("} # so\n") and new.count("\n") == 1


@pytest.mark.parametrize(
    "text", ['"a.pkt".mss = 5\nmss = 6\n"a.pkt".sack = true\n', '"a.pkt".expect = "fail"\n"a.pkt".reason = "x"\n']
)
def test_a_table_that_cannot_be_edited_is_told(text: str) -> None:
    with pytest.raises(Fault) as fault:
        edit_expectations("here", text, {"a.pkt": SEQ})
    assert str(fault.value) == 'here: what it says of ["a.pkt"] can\'t be edited: do it by hand'


NAMES = [
    "a b.pkt",
    "q\"uo'te.pkt",
    "a\nb.pkt",
    "a\\b.pkt",
    "grün.pkt",
    "a\x7fb.pkt",
    "a\x1b[2J.pkt",
    "#.pkt",
    "[a].pkt",
    ".pkt",
]


def test_names_of_any_characters_are_keys() -> None:
    text = edit_expectations("here", "", dict.fromkeys(NAMES, SEQ))
    assert parse_layer("here", text.encode()).expected == dict.fromkeys(NAMES, SEQ)
    assert edit_expectations("here", text, dict.fromkeys(NAMES)) == ""


def random_text(chance: random.Random) -> str:
    """A file with tables, comments and blank lines in any order."""
    lines = ["# top", "mss = 7 # common", ""][: chance.randrange(4)]
    for number, name in enumerate(chance.sample("abcdefgh", chance.randrange(9))):
        body = [f"wscale = {number} # {name} scale", f"# in {name}", "", 'expect = "fail 1" # known\nreason = "old"']
        chance.shuffle(body)
        lines += [f"# before {name}"] * chance.randrange(2) + [
            f'["{name}.pkt"] # head {name}',
            *body[: chance.randrange(5)],
        ]
    return "\n".join(lines) + "\n" * chance.randrange(3)


@pytest.mark.parametrize("seed", range(100))
def test_of_random_files_nothing_is_lost(seed: int) -> None:
    chance = random.Random(seed)
    text = random_text(chance)
    edits = {f"{it}.pkt": chance.choice((SEQ, None)) for it in chance.sample("abcdefghij", chance.randrange(10))}
    new = edit_expectations("here", text, edits)
    before, after = parse_layer("here", text.encode()), parse_layer("here", new.encode())
    expected: dict[str, Expectation | None] = {**before.expected, **edits}
    assert after.expected == {name: it for name, it in expected.items() if it is not None}
    assert {name: it for name, it in after.tables.items() if it} == {
        name: it for name, it in before.tables.items() if it
    }
    assert after.keys == before.keys
    for line in text.split("\n"):
        if line.startswith(("# ", "wscale")):
            assert new.count(line) == text.count(line)
    names = [name for name in tomllib.loads(text) if name in after.tables]
    assert [name for name in after.tables if name in names] == names
    assert edit_expectations("here", new, edits) == new
