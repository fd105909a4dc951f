"""Old names of settings: each is refused in each place where one can stand, with that place and the new name."""

import json
import shutil
import signal
from itertools import cycle, islice, product
from pathlib import Path

import pytest

from pdsuite.lsp.positions import DocumentLines
from pdsuite.lsp.toml_positions import diagnostic_of_fault
from pdsuite.scripts.defaults import KEYS, Word, refusal_help
from pdsuite.scripts.renamed import KEYS as NAMES, WORDS, new_name_hint, refusal_reason_if_renamed
from pdsuite.scripts.settings import Value, value_as_toml
from tests.helpers import PASSES, Call, write
from tests.watch_process import Watching

HERE = Path(__file__).parent
TAKES = 'it takes "rfc6675" or "rfc9937"'
OLD: list[tuple[str, Value, str, str]] = [
    ("byte_counting", 2, "UnknownKey", "its name is abc_limit"),
    ("restart_after_idle", True, "UnknownKey", "its name is slow_start_after_idle"),
    ("recovery_rate", "rfc6675", "UnknownKey", "its name is recovery_algorithm"),
    ("recovery_rate", "prr", "UnknownKey", 'its name is recovery_algorithm and the word for "prr" is "rfc9937"'),
    ("recovery_algorithm", "pipe", "BadValue", f'{TAKES}; the word for "pipe" is "rfc6675"'),
    ("recovery_algorithm", "prr", "BadValue", f'{TAKES}; the word for "prr" is "rfc9937"'),
    ("recovery_algorithm", "prr_crb", "BadValue", f'{TAKES}; the word for "prr_crb" is "rfc9937"'),
]
IDS = [f"{key} {value}" for key, value, _, _ in OLD]
# Where a line of settings can stand in files: the file, its text, and where a fault finds the line, with the script.
FILES = {
    "a file": ("suite/pdsuite.toml", "mss = 1000\n{}\n", "suite/pdsuite.toml:2", ""),
    "a table": ("suite/pdsuite.toml", '# Why.\n["a.pkt"]\nmss = 1000\n{}\n', "suite/pdsuite.toml:4", ' (["a.pkt"])'),
    "a file above": ("pdsuite.toml", "{}\nroot = true\n", "pdsuite.toml:1", ""),
}
COMMANDS = ("run", "list", "expect", "record", "rules")
COMPARED = (("a.pkt",), ("--search", "1"))
SETTINGS_OPTIONS = ("--settings", "--base-settings", "--with-settings")

old = pytest.mark.parametrize(("key", "value", "reason", "helps"), OLD, ids=IDS)


def each_with_an_old_name(*places: object) -> list[object]:
    """The places, and all old names: each place with one of them, and each name at a place, as few as that takes."""
    number = max(len(places), len(OLD))
    return [(place, *name) for place, name in islice(zip(cycle(places), cycle(OLD)), number)]


@pytest.fixture(scope="module")
def both(tmp_path_factory: pytest.TempPathFactory) -> Path:
    """A folder with fakes of both programs."""
    folder = tmp_path_factory.mktemp("both")
    shutil.copy(HERE / "fake_pdregress.py", folder / "pdregress")
    shutil.copy(HERE / "fake_pdrecord.py", folder / "pdrecord")
    return folder


def line_of(key: str, value: Value) -> str:
    return f"{key} = {value_as_toml(value)}"


@pytest.mark.parametrize(
    ("at_place", "key", "value", "reason", "helps"), each_with_an_old_name(*product(COMMANDS, FILES))
)
def test_in_a_file_it_is_refused_with_its_line(
    at_place: tuple[str, str], key: str, value: Value, reason: str, helps: str, both: Path, tmp_path: Path, call: Call
) -> None:
    command, place = at_place
    file, text, at, beside = FILES[place]
    write(tmp_path / "suite", a=PASSES)
    (tmp_path / file).write_text(text.format(line_of(key, value)))
    called = call(both, command, "suite")
    assert (called.status, called.out, called.err) == (2, "", f"{at}: {key}: {reason}{beside}: {helps}\n")


@pytest.mark.parametrize(("command", "key", "value", "reason", "helps"), each_with_an_old_name(*COMMANDS, "watch"))
def test_as_a_word_it_is_refused(
    command: str, key: str, value: Value, reason: str, helps: str, both: Path, tmp_path: Path, call: Call
) -> None:
    write(tmp_path, a=PASSES)
    called = call(both, command, "--settings", line_of(key, value), "a.pkt")
    assert (called.status, called.out, called.err) == (2, "", f"--settings: {key}: {reason}: {helps}\n")


@pytest.mark.parametrize(
    ("asked", "key", "value", "reason", "helps"), each_with_an_old_name(*product(COMPARED, SETTINGS_OPTIONS))
)
def test_where_senders_are_compared_it_is_refused(
    asked: tuple[tuple[str, ...], str],
    key: str,
    value: Value,
    reason: str,
    helps: str,
    both: Path,
    tmp_path: Path,
    call: Call,
) -> None:
    paths, word = asked
    write(tmp_path, a=PASSES)
    shutil.copytree(both, tmp_path / "other")
    senders = ("--base", both, "--with", "other")
    called = call(both, "compare", *senders, word, line_of(key, value), *paths)
    assert (called.status, called.out) == (2, "")
    assert called.err.splitlines()[-1].startswith(f"{word}: {key}: {reason}: {helps} (by ")


@old
def test_while_scripts_are_watched_a_file_with_it_counts_for_nothing(
    key: str, value: Value, reason: str, helps: str, both: Path, tmp_path: Path
) -> None:
    write(tmp_path, a=PASSES)
    with Watching(tmp_path, both, ".") as watching:
        (tmp_path / "pdsuite.toml").write_text(f"mss = 1000\n{line_of(key, value)}\n")
        watching.await_err(f"pdsuite.toml:2: {key}: {reason}: {helps}; the file counts for nothing\n")
        assert watching.ends(signal.SIGINT).status == 0


@old
def test_an_editor_marks_its_line(key: str, value: Value, reason: str, helps: str) -> None:
    lines = DocumentLines(f'mss = 1000\n["a.pkt"]\n{line_of(key, value)}\n')
    extent = diagnostic_of_fault(f'{key}: {reason} (["a.pkt"]): {helps}', lines).extent
    assert lines.text[extent.start : extent.end] == line_of(key, value)


@old
@pytest.mark.parametrize("place", ("a file", "a table"))
def test_what_is_imported_may_not_have_it(
    place: str, key: str, value: Value, reason: str, helps: str, tmp_path: Path, call: Call
) -> None:
    file, text, at, beside = FILES[place]
    write(tmp_path / "suite", a=PASSES)
    (tmp_path / file).write_text(text.format(line_of(key, value)))
    called = call(None, "import", "suite", "to")
    assert (called.status, called.out, called.err) == (2, "", f"{at}: {key}: {reason}{beside}: {helps}\n")
    assert not (tmp_path / "to").exists()


@old
def test_a_report_with_it_is_compared_and_says_what_failed(
    key: str, value: Value, reason: str, helps: str, both: Path, tmp_path: Path, call: Call
) -> None:
    write(tmp_path / "suite", a=b"row fail 1 seq\n", b=PASSES)
    cache = {"XDG_CACHE_HOME": str(tmp_path / "cache")}
    # As version 1 has it.
    settings = f'"settings": {json.dumps({key: value})}'
    out = call(both, "run", "--json", "suite", **cache).out.replace('"version": 2, ', "")
    (tmp_path / "old.json").write_text(out.replace('"settings": {}', settings))
    (kept,) = (tmp_path / "cache/pdsuite").glob("*.json")
    kept.write_text(kept.read_text().replace('"settings": {}', settings))
    assert key in (tmp_path / "old.json").read_text() and key in kept.read_text()
    assert call(both, "run", "--last-failed", "suite", **cache).rows == ["suite/a.pkt:1: fail seq"]
    write(tmp_path / "suite", a=PASSES)
    called = call(both, "run", "--last-failed", "-v", "suite", **cache)
    assert (called.rows, called.totals) == (["suite/a.pkt: pass 1"], {"pass": 1})
    turned = "suite/a.pkt: passes again: pass 1, was fail 1 seq"
    assert call(both, "diff", "old.json", **cache).out.splitlines()[0] == turned


def test_each_new_name_is_a_setting_or_a_word_that_it_takes() -> None:
    assert set(NAMES.values()) <= set(KEYS) and not set(NAMES) & set(KEYS)
    for key, words in WORDS.items():
        takes = KEYS[key]
        assert isinstance(takes, Word)
        assert set(words.values()) <= set(takes.words) and not set(words) & set(takes.words)


def test_all_other_names_are_the_programs_to_refuse() -> None:
    for key in (*KEYS, "byte_count", "recovery"):
        assert refusal_reason_if_renamed(key, 1) is None and new_name_hint(key, 1) is None
    assert refusal_help("abc_limit", 2, "UnknownKey") is None  # by a sender that lacks it
