"""Settings as values, and where pdsuite.toml says them."""

import os
import subprocess
from datetime import date
from pathlib import Path

import pytest

from pdsuite.faults import Fault
from pdsuite.scripts.config import Claim, SuiteConfig, layer_of_option, parse_layer
from pdsuite.scripts.discover import find_scripts
from pdsuite.scripts.settings import Settings, Value, set_command_words_or_placeholders, settings_as_toml
from pdsuite.signals import Stop

VALUES: list[tuple[Value, str]] = [
    (1000, "1000"),
    (0, "0"),
    (-5, "-5"),
    (True, "true"),
    (False, "false"),
    ("rfc6928", "rfc6928"),
    ("true", "?"),
    ("1000", "?"),
    ("", "?"),
    ("two words", "?"),
    ("a\nb", "?"),
    ("x" * 300, "?"),
    (10**30, "?"),
    (1.5, "?"),
    (date(2026, 11, 24), "?"),
    ([1], "?"),
    ({"a": 1}, "?"),
]


@pytest.mark.parametrize(("value", "word"), VALUES)
def test_a_value_is_one_word_or_one_that_no_key_takes(value: Value, word: str) -> None:
    assert set_command_words_or_placeholders("mss", value) == ("mss", word)


@pytest.mark.parametrize("key", ["", "a b", "a\nb", "ü", "x" * 65])
def test_a_key_that_is_no_word_becomes_one_that_is_no_key(key: str) -> None:
    assert set_command_words_or_placeholders(key, 1) == ("?", "1")


def test_a_settings_text_is_toml() -> None:
    settings = (("initial_window", "rfc6928"), ("mss", 1000), ("sack", False))
    assert settings_as_toml(settings) == 'initial_window = "rfc6928"\nmss = 1000\nsack = false'
    assert settings_as_toml(()) == ""


def suite_of(top: Path, paths: list[Path], option: str = "") -> dict[str, Settings]:
    """The settings of each script."""
    suite = SuiteConfig(layer_of_option(option))
    with Stop() as stop:
        found = find_scripts(paths, (), stop)
    return {os.path.relpath(it.path, top): suite.settings_of_script(it) for it in found}


def make_suite(top: Path) -> None:
    """Three folders, one in the other, with settings in each."""
    (top / "a/b").mkdir(parents=True)
    for name in ("top.pkt", "a/one.pkt", "a/two.pkt", "a/b/one.pkt"):
        (top / name).touch()
    (top / "pdsuite.toml").write_text(
        'root = true\nmss = 100\nsack = true\n["top.pkt"]\nmss = 99\n["one.pkt"]\nmss = 1\n'
    )
    (top / "a/pdsuite.toml").write_text('mss = 200\n["two.pkt"]\nmss = 201\nnagle = false\n')
    (top / "a/b/pdsuite.toml").write_text("nagle = true\n")


def test_the_nearest_file_wins_key_by_key_and_a_table_before_its_file(tmp_path: Path) -> None:
    make_suite(tmp_path)
    assert suite_of(tmp_path, [tmp_path]) == {
        "top.pkt": (("mss", 99), ("sack", True)),
        "a/one.pkt": (("mss", 200), ("sack", True)),
        "a/two.pkt": (("mss", 201), ("nagle", False), ("sack", True)),
        "a/b/one.pkt": (("mss", 200), ("nagle", True), ("sack", True)),
    }


def test_settings_do_not_depend_on_the_path_that_was_given(tmp_path: Path) -> None:
    make_suite(tmp_path)
    whole = suite_of(tmp_path, [tmp_path])
    for path in whole:
        assert suite_of(tmp_path, [tmp_path / path]) == {path: whole[path]}
    (tmp_path / "link").symlink_to("a/b")
    assert suite_of(tmp_path, [tmp_path / "link"]) == {"link/one.pkt": whole["a/b/one.pkt"]}


def test_the_option_stands_before_all(tmp_path: Path) -> None:
    make_suite(tmp_path)
    assert set(suite_of(tmp_path, [tmp_path], "mss = 5\nsack = false").values()) == {
        (("mss", 5), ("sack", False)),
        (("mss", 5), ("nagle", False), ("sack", False)),
        (("mss", 5), ("nagle", True), ("sack", False)),
    }


def test_a_root_ends_the_search(tmp_path: Path) -> None:
    make_suite(tmp_path)
    (tmp_path / "a/pdsuite.toml").write_text("root = true\nwscale = 3\n")
    assert suite_of(tmp_path, [tmp_path / "a"]) == {
        "a/one.pkt": (("wscale", 3),),
        "a/two.pkt": (("wscale", 3),),
        "a/b/one.pkt": (("nagle", True), ("wscale", 3)),
    }


BROKEN = [
    (b"mss", "a/pdsuite.toml:1: no TOML: Expected '=' after a key"),
    (b"mss = 1\nmss = 2", "a/pdsuite.toml:2: no TOML: Cannot overwrite a value"),
    (b"# a\n\nmss = 1\nwscale = ]\n", "a/pdsuite.toml:4: no TOML: Invalid value (at line 4, column 10)"),
    (b"mss = 1\n\xff = 1", "a/pdsuite.toml:2: no TOML: octet 0xff is no UTF-8"),
    (b"\xef\xbb\xbfmss = 1", "a/pdsuite.toml:1: no TOML: a byte order mark; a file of settings begins without one"),
    (b"a = 1\nb = rfc6928", "a/pdsuite.toml:2: no TOML: Invalid value (at line 2, column 5): a word stands in quotes"),
    (b"mss = 1\na = [1,\n\n", "a/pdsuite.toml:2: no TOML: Invalid value (at end of document)"),
    (b"mss = 1\r\na = [1, \r\n \r\n", "a/pdsuite.toml:2: no TOML: Invalid value (at end of document)"),
    (b"a = " + b"[" * 100_000, "a/pdsuite.toml:1: no TOML: "),
    (b"a = " + b"9" * 5_000, "a/pdsuite.toml:1: no TOML: "),
    (b"root = 1", "a/pdsuite.toml:1: root: BadValue: it takes true or false"),
    (b'mss = 1\n\nstrict = "yes"', "a/pdsuite.toml:3: strict: BadValue: it takes true or false"),
    (b'["a.pkt"]\nstrict = 1', 'a/pdsuite.toml:2: strict: BadValue (["a.pkt"]): it takes true or false'),
    (b"[03_rto.pkt]", 'a/pdsuite.toml:1: [03_rto.pkt]: a script\'s name stands in quotes: ["03_rto.pkt"]'),
    (b"v1.2-a.pkt.mss = 9", 'a/pdsuite.toml: [v1.2-a.pkt]: a script\'s name stands in quotes: ["v1.2-a.pkt"]'),
    (b"a = {pkt = {}}", 'a/pdsuite.toml: [a.pkt]: a script\'s name stands in quotes: ["a.pkt"]'),
]


@pytest.mark.parametrize(("octets", "reason"), BROKEN, ids=range(len(BROKEN)))
def test_a_file_that_is_no_toml_is_a_fault_with_its_path(octets: bytes, reason: str) -> None:
    with pytest.raises(Fault) as fault:
        parse_layer("a/pdsuite.toml", octets)
    assert str(fault.value).startswith(reason)
    assert str(fault.value).isprintable()


def test_a_table_in_tables_of_any_depth_costs_nothing() -> None:
    deep = parse_layer("pdsuite.toml", b"[" + b".".join([b"a"] * 300) + b".pkt]")
    assert list(deep.keys) == ["a"] and not deep.tables


def test_what_is_no_name_of_a_script_stays_a_key() -> None:
    layer = parse_layer("pdsuite.toml", b'pkt = {}\n[a]\nb = 1\n[c."d.pkt"]\n["e.pkt".pkt]\n["f.pkt"]\nmss = 9\n')
    assert list(layer.keys) == ["pkt", "a", "c"]
    assert layer.tables == {"e.pkt": {"pkt": {}}, "f.pkt": {"mss": 9}}


HELPS = [
    ("mss", "BadValue", "mss: BadValue: it takes 64 to 65,495 octets"),
    ("wscale", "BadValue", "wscale: BadValue: it takes 0 to 14 bits"),
    ("max_rto_us", "BadValue", "max_rto_us: BadValue: it takes 60,000,000 to 3,600,000,000 microseconds"),
    ("nagle", "BadValue", "nagle: BadValue: it takes true or false"),
    ("initial_window", "BadValue", 'initial_window: BadValue: it takes "rfc5681" or "rfc6928"'),
    ("min_rto", "UnknownKey", "min_rto: UnknownKey: the nearest is min_rto_us"),
    ("MSS", "UnknownKey", "MSS: UnknownKey: the nearest is mss"),
    ("sacks", "UnknownKey", "sacks: UnknownKey: the nearest is sack"),
    ("Root", "UnknownKey", "Root: UnknownKey: the nearest is root"),
    ("stirct", "UnknownKey", "stirct: UnknownKey: the nearest is strict"),
    ("congestion", "UnknownKey", "congestion: UnknownKey"),
    ("later", "BadValue", "later: BadValue"),
]
# A value that is refused, and what helps.
REFUSED: list[tuple[str, Value, str, str]] = [
    ("mss", "1000", "BadValue", "it takes 64 to 65,495 octets, without quotes"),
    ("mss", "some", "BadValue", "it takes 64 to 65,495 octets"),
    ("nagle", "false", "BadValue", "it takes true or false, without quotes"),
    ("initial_window", "true", "BadValue", 'it takes "rfc5681" or "rfc6928"'),
    ("late", {"mss": 9}, "UnknownKey", 'a table is of a script, by its whole name: ["late.pkt"]'),
]


@pytest.mark.parametrize(("key", "reason", "line"), HELPS, ids=[it[0] for it in HELPS])
def test_a_refused_key_tells_what_it_takes_or_which_key_is_near(key: str, reason: str, line: str) -> None:
    assert Claim("a/pdsuite.toml", "", key, 1).refusal_line(reason) == f"a/pdsuite.toml: {line}"


@pytest.mark.parametrize(("key", "value", "reason", "help_"), REFUSED, ids=[f"{it[0]} {it[1]}" for it in REFUSED])
def test_a_refused_value_tells_what_would_be_taken(key: str, value: Value, reason: str, help_: str) -> None:
    line = Claim("p", "", key, value).refusal_line(reason)
    assert line == f"p: {key}: {reason}: {help_}"


def test_what_helps_stands_after_the_table_and_is_of_its_place() -> None:
    named = Claim("p", "a.pkt", "mss", 1).refusal_line("BadValue")
    assert named == 'p: mss: BadValue (["a.pkt"]): it takes 64 to 65,495 octets'
    assert Claim("p", "a.pkt", "roots", 1).refusal_line("UnknownKey") == 'p: roots: UnknownKey (["a.pkt"])'
    assert Claim("p", "a.pkt", "strick", 1).refusal_line("UnknownKey").endswith(": the nearest is strict")
    assert Claim("--settings", "", "root", 1).refusal_line("UnknownKey") == "--settings: root: UnknownKey"


def test_the_nearest_says_which_scripts_are_strict(tmp_path: Path) -> None:
    make_suite(tmp_path)
    (tmp_path / "pdsuite.toml").write_text('root = true\nstrict = true\n["top.pkt"]\nstrict = false\n')
    (tmp_path / "a/b/pdsuite.toml").write_text("strict = false\nmss = 9\n")
    suite = SuiteConfig(layer_of_option(""))
    with Stop() as stop:
        found = find_scripts([tmp_path], (), stop)
    strict = {os.path.relpath(it.path, tmp_path): suite.is_script_strict(it) for it in found}
    assert strict == {"top.pkt": False, "a/one.pkt": True, "a/two.pkt": True, "a/b/one.pkt": False}
    assert all("strict" not in dict(suite.settings_of_script(it)) for it in found)
    assert all(it.key != "strict" for it in suite.all_claims())


def test_a_file_that_cannot_be_read_is_a_fault(tmp_path: Path) -> None:
    (tmp_path / "a.pkt").touch()
    (tmp_path / "pdsuite.toml").mkdir()
    with pytest.raises(Fault, match="pdsuite.toml: isn't a regular file"):
        suite_of(tmp_path, [tmp_path])


def test_folders_of_any_depth_are_looked_through(tmp_path: Path) -> None:
    deep = tmp_path.joinpath(*["d"] * 1_500)
    current = tmp_path
    for part in deep.relative_to(tmp_path).parts:
        current = current / part
        current.mkdir()
    (deep / "a.pkt").touch()
    (tmp_path / "pdsuite.toml").write_text("root = true\nmss = 77\n")
    try:
        assert list(suite_of(tmp_path, [tmp_path]).values()) == [(("mss", 77),)]
    finally:
        # Python's own way to remove a folder ends at a thousand levels.
        subprocess.run(["rm", "-rf", tmp_path / "d"], check=True)
