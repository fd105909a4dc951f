"""Shards: each script in one of them, about as many octets in each, and the same ones on every machine."""

import os
import random
from collections.abc import Mapping
from pathlib import Path

import pytest

from pdsuite.scripts.discover import find_scripts
from pdsuite.scripts.shards import Shard, balance_by_octets, parse_shard_if_valid, scripts_of_shard
from pdsuite.signals import Stop
from tests.helpers import Call, write


def test_the_greatest_come_first_each_into_the_part_with_the_fewest_octets() -> None:
    octets = {"a": 10, "b": 60, "c": 30, "d": 50, "e": 40}
    assert balance_by_octets(octets, 2) == [["b", "c", "a"], ["d", "e"]]
    assert balance_by_octets(octets, 3) == [["b"], ["d", "a"], ["e", "c"]]


def test_equal_ones_are_taken_in_the_order_of_their_octets() -> None:
    assert balance_by_octets({"ü": 1, "z": 1, "a": 1, "B": 1}, 2) == [["B", "z"], ["a", "ü"]]


def test_scripts_without_octets_are_shared_by_their_number() -> None:
    assert balance_by_octets(dict.fromkeys("abcdef", 0), 3) == [["a", "d"], ["b", "e"], ["c", "f"]]


def test_there_are_no_more_parts_than_names() -> None:
    assert balance_by_octets({"a": 1, "b": 2}, 999_999_999) == [["b"], ["a"]]
    assert balance_by_octets({}, 3) == []


def random_suite(chance: random.Random) -> Mapping[str, int]:
    """Names of any octets, with sizes many of which are equal."""
    names = {os.fsdecode(bytes(chance.randrange(1, 256) for _ in range(chance.randrange(1, 4)))) for _ in range(60)}
    return {name: chance.choice((0, 1, 7, 100, chance.randrange(65_536))) for name in sorted(names)}


@pytest.mark.parametrize("seed", range(100))
def test_each_name_is_in_one_part_and_no_part_has_a_script_more_than_another(seed: int) -> None:
    chance = random.Random(seed)
    octets = random_suite(chance)
    count = chance.randrange(1, 12)
    each = balance_by_octets(octets, count)
    assert sorted(name for part in each for name in part) == sorted(octets)
    loads = [sum(octets[name] for name in part) for part in each]
    assert max(loads) - min(loads) <= max(octets.values())
    shuffled = list(octets)
    chance.shuffle(shuffled)
    assert balance_by_octets({name: octets[name] for name in shuffled}, count) == each


@pytest.mark.parametrize("words", ["1/1", "1/3", "3/3", "7/999999999", "01/02"])
def test_a_shard_is_two_numbers(words: str) -> None:
    first, last = map(int, words.split("/"))
    assert parse_shard_if_valid(words) == Shard(first, last)


WRONG = [
    "",
    "1",
    "0/3",
    "4/3",
    "1/0",
    "0/0",
    "-1/3",
    "1/-3",
    "1/3/5",
    "a/b",
    " 1/3",
    "1/3\n",
    "1.0/3",
    "١/٣",
    "1/" + "9" * 5_000,
]


@pytest.mark.parametrize("words", WRONG, ids=range(len(WRONG)))
def test_all_else_is_none(words: str) -> None:
    assert parse_shard_if_valid(words) is None


def shards_of(folder: Path, *paths: str, count: int) -> list[list[str]]:
    """The scripts of each shard, by paths from a folder."""
    with pytest.MonkeyPatch.context() as patch, Stop() as stop:
        patch.chdir(folder)
        found = find_scripts(map(Path, paths), (), stop)
        return [[it.path for it in scripts_of_shard(found, Shard(number, count))] for number in range(1, count + 1)]


def make_suite(top: Path) -> None:
    """Two folders with scripts of some sizes, some of them equal."""
    for number in range(20):
        name = f"s{number * 7 % 20:02}"
        write(top / ("one" if number % 3 else "two"), **{name: b"\n" * (number // 2 * 10)})


def test_a_shard_is_the_same_wherever_the_suite_lies_and_however_it_is_named(tmp_path: Path) -> None:
    here, there = tmp_path / "a/here", tmp_path / "z/deeper/there"
    make_suite(here)
    make_suite(there)
    each = shards_of(here, ".", count=3)
    assert sorted(path for shard in each for path in shard) == sorted(
        str(it.relative_to(here)) for it in here.rglob("*.pkt")
    )
    assert shards_of(here, "two", "./one", count=3) == each
    assert shards_of(tmp_path, "z/deeper/there", count=3) == [[f"z/deeper/there/{it}" for it in one] for one in each]
    absolute = shards_of(here, str(there), count=3)
    assert absolute == [[f"{there}/{it}" for it in one] for one in each]


def test_what_cannot_be_looked_at_is_in_one_shard_too(tmp_path: Path) -> None:
    make_suite(tmp_path)
    (tmp_path / "dangling.pkt").symlink_to("nowhere")
    each = [path for shard in shards_of(tmp_path, ".", "lost", count=4) for path in shard]
    assert len(each) == len(set(each)) == 22 and {"lost", "dangling.pkt"} <= set(each)


def test_one_file_alone_is_in_one_shard(tmp_path: Path) -> None:
    write(tmp_path, a=b"\n")
    assert shards_of(tmp_path, "a.pkt", count=2) == [["a.pkt"], []]


def test_run_and_list_take_a_part_of_what_only_leaves(fake_program: Path, tmp_path: Path, call: Call) -> None:
    make_suite(tmp_path)
    listed = [
        call(fake_program, "list", "--only", "one/*", "--shard", f"{it}/2", ".").out.splitlines() for it in (1, 2)
    ]
    assert sorted(listed[0] + listed[1]) == sorted(f"one/{it.name}" for it in (tmp_path / "one").iterdir())
    for number, paths in enumerate(listed, 1):
        called = call(fake_program, "run", "-v", "--only", "one/*", "--shard", f"{number}/2", ".")
        assert called.rows == [f"{path}: pass 1" for path in paths]
        assert called.status == 0


def test_a_shard_without_a_script_passes_and_is_told(fake_program: Path, tmp_path: Path, call: Call) -> None:
    write(tmp_path, a=b"\n")
    called = call(fake_program, "run", "--shard", "2/2", "--junit", "out.xml", ".")
    assert (called.status, called.totals, called.err) == (0, {}, "pdsuite: shard 2/2 has no script\n")
    assert (tmp_path / "out.xml").exists()
    assert call(fake_program, "run", "--tap", "--shard", "2/2", ".").out.splitlines()[1] == "1..0"


def test_another_word_is_refused(fake_program: Path, tmp_path: Path, call: Call) -> None:
    write(tmp_path, a=b"\n")
    called = call(fake_program, "run", "--shard", "4/3", ".")
    message = "Error: Invalid value for '--shard': 4/3 is no K/N, with K from 1 to N."
    assert (called.status, called.err.splitlines()[-1]) == (2, message)
