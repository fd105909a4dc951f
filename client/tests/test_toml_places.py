"""Where the keys and tables of a pdsuite.toml stand."""

import pytest

from pdsuite.scripts.toml_places import find_toml_places

TEXT = '''# mss = 1
root = true
  mss   = 1000
text = """
sack = true
[late.pkt]
""" # nagle = true
other = \'\'\'
wscale = 1 \'\'\'
"quoted key" = "# no = comment"
[ "a.pkt" ]
mss = 700
[late.pkt]
nagle = true
'b.pkt' = { mss = 9 }
'''
PLACES = [
    ("", "root", 2),
    ("", "mss", 3),
    ("", "sack", None),
    ("", "wscale", None),
    ("", "other", 8),
    ("", "quoted key", 10),
    ("", "no", None),
    ("", "a.pkt", 11),
    ("a.pkt", "", 11),
    ("a.pkt", "mss", 12),
    ("a.pkt", "sack", 11),
    ("late.pkt", "", 13),
    ("late.pkt", "nagle", 14),
    ("late.pkt", "b.pkt", 15),
    ("c.pkt", "mss", None),
]


@pytest.mark.parametrize(("table", "key", "line"), PLACES, ids=[f"{it[0]} {it[1]}" for it in PLACES])
def test_the_line_of_a_key(table: str, key: str, line: int | None) -> None:
    places = find_toml_places("t/pdsuite.toml", TEXT)
    assert places.line_of_key_or_table(table, key) == line
    assert places.file_and_line_of_key(table, key) == ("t/pdsuite.toml" if line is None else f"t/pdsuite.toml:{line}")


def test_a_table_in_a_line_is_where_its_name_stands() -> None:
    places = find_toml_places("p", '"a.pkt" = {mss = 1}\n"b.pkt".mss = 2\n[[c]]\n')
    assert (
        places.file_and_line_of_key("a.pkt", "mss"),
        places.file_and_line_of_key("b.pkt", "mss"),
        places.file_and_line_of_key("", "c"),
    ) == ("p:1", "p:2", "p:3")
