"""Updates of watched files take neither that a file went a moment ago nor a text that is being written."""

import errno
import os
import random
import time
from collections.abc import Mapping
from pathlib import Path

import pytest

from pdsuite.file_stamps import StampedValue
from pdsuite.scripts.discover import ScriptFile
from pdsuite.scripts.text import ScriptText, make_newline_ended_text_within_limits
from pdsuite.watch.watched_files import (
    GRACE,
    Update,
    WatchedFile,
    WatchedFiles,
    has_any_script_changed,
    read_watched_file_marking_unclosed_as_torn,
    update_holding_back_gone_and_torn,
)
from pdsuite.watch.watched_files import reread_changed_watched_files

ONE, TWO = make_newline_ended_text_within_limits(b"one\n"), make_newline_ended_text_within_limits(b"two\n")


def file_of(path: str, text: ScriptText | str, torn: bool = False, inode: int | None = None) -> WatchedFile:
    stamp = (errno.ENOENT,) if text == "gone" else (1, ord(path[0]) if inode is None else inode, 3, 4, 5)
    return WatchedFile(ScriptFile(path, "/", path), StampedValue(text, stamp, torn, False))


def files(**texts: ScriptText | str) -> WatchedFiles:
    return {path: file_of(path, text) for path, text in texts.items()}


def texts(update: Update) -> dict[str, ScriptText | str]:
    return {path: it.file.value for path, it in update.files.items()}


def test_what_is_saved_comes_and_stays_gone_is_taken() -> None:
    update = update_holding_back_gone_and_torn(files(a=ONE, b=ONE), files(a=TWO, b=ONE, c=ONE), {}, 7.0)
    assert (texts(update), update.gone, update.torn) == ({"a": TWO, "b": ONE, "c": ONE}, {}, frozenset())


@pytest.mark.parametrize("now", [files(b=ONE), files(a="gone", b=ONE)], ids=["not found", "not readable"])
def test_what_went_is_kept_for_a_moment(now: WatchedFiles) -> None:
    before = files(a=ONE, b=ONE)
    first = update_holding_back_gone_and_torn(before, now, {}, 7.0)
    assert (texts(first), first.gone) == ({"a": ONE, "b": ONE}, {"a": 7.0})
    again = update_holding_back_gone_and_torn(first.files, now, first.gone, 7.04)
    assert (texts(again), again.gone) == ({"a": ONE, "b": ONE}, {"a": 7.0})
    last = update_holding_back_gone_and_torn(again.files, now, again.gone, 7.0 + GRACE)
    assert (last.files, last.gone) == (now, {})


def test_what_is_there_again_was_saved() -> None:
    first = update_holding_back_gone_and_torn(files(a=ONE), {}, {}, 7.0)
    then = update_holding_back_gone_and_torn(first.files, files(a=TWO), first.gone, 7.03)
    assert (texts(then), then.gone) == ({"a": TWO}, {})


def test_what_moved_is_gone_at_once() -> None:
    update = update_holding_back_gone_and_torn(files(a=ONE, b=ONE), {"c": file_of("c", ONE, inode=ord("a"))}, {}, 7.0)
    assert (texts(update), update.gone) == ({"b": ONE, "c": ONE}, {"b": 7.0})


def test_a_path_that_can_suddenly_not_be_looked_at_is_held_back_for_a_moment() -> None:
    first = update_holding_back_gone_and_torn(files(b=ONE), files(a="gone", b=ONE), {}, 7.0)
    assert texts(first) == {"b": ONE}
    assert texts(update_holding_back_gone_and_torn(first.files, files(a="gone", b=ONE), first.gone, 7.06)) == {
        "a": "gone",
        "b": ONE,
    }


def test_what_was_written_while_it_was_read_is_read_again() -> None:
    now = {"a": file_of("a", TWO, torn=True), "b": file_of("b", TWO, torn=True)}
    update = update_holding_back_gone_and_torn(files(a=ONE), now, {}, 7.0)
    assert texts(update) == {"a": ONE} and update.torn == {"a", "b"}


def test_the_order_is_that_of_the_paths_octets() -> None:
    now = {path: file_of(path, ONE) for path in ("a", "z", "é")}
    assert list(update_holding_back_gone_and_torn(files(b=ONE, z=ONE), now, {}, 7.0).files) == ["a", "b", "z", "é"]


def test_only_other_texts_make_files_other() -> None:
    assert not has_any_script_changed(
        files(a=ONE), {"a": WatchedFile(ScriptFile("a", "/", "a"), StampedValue(ONE, (9, 9), False, True))}
    )
    assert has_any_script_changed(files(a=ONE), files(a=TWO))
    assert has_any_script_changed(files(a=ONE), files(a=ONE, b=ONE))
    assert has_any_script_changed(files(a=ONE), files(b=ONE))
    assert has_any_script_changed(files(a=ONE), files(a="Permission denied"))


def test_a_file_is_read_again_if_its_inode_size_or_a_time_is_another(tmp_path: Path) -> None:
    path = tmp_path / "a.pkt"
    path.write_bytes(b"one\n")
    found = ScriptFile(str(path), str(tmp_path), "a.pkt")
    _grow_old()
    before: WatchedFiles = {found.path: read_watched_file_marking_unclosed_as_torn(found, None, True)}
    assert reread_changed_watched_files([found], before, set())[found.path] is before[found.path]
    for save in (_same_size_in_place, _another_inode_with_its_time, _other_rights):
        save(path)
        after = reread_changed_watched_files([found], before, set())
        assert after[found.path] is not before[found.path], save.__name__
        _grow_old()
        before = reread_changed_watched_files([found], after, set())


def test_what_was_written_just_before_it_was_read_is_read_again(tmp_path: Path) -> None:
    path = tmp_path / "a.pkt"
    path.write_bytes(b"one\n")
    found = ScriptFile(str(path), str(tmp_path), "a.pkt")
    before = {found.path: read_watched_file_marking_unclosed_as_torn(found, None, True)}
    assert before[found.path].file.is_young
    assert reread_changed_watched_files([found], before, set())[found.path] is not before[found.path]


def test_what_was_changed_just_before_it_was_read_is_read_again_whatever_time_it_was_given(tmp_path: Path) -> None:
    path = tmp_path / "a.pkt"
    path.write_bytes(b"one\n")
    os.utime(path, (0, time.time() - 60))
    found = ScriptFile(str(path), str(tmp_path), "a.pkt")
    assert read_watched_file_marking_unclosed_as_torn(found, None, True).file.is_young
    _grow_old()
    assert not read_watched_file_marking_unclosed_as_torn(found, None, True).file.is_young


@pytest.mark.parametrize("is_known", [True, False])
def test_what_was_written_a_moment_ago_is_only_taken_once_it_is_closed_or_rests(tmp_path: Path, is_known: bool) -> None:
    path = tmp_path / "a.pkt"
    path.write_bytes(b"one\n")
    found = ScriptFile(str(path), str(tmp_path), "a.pkt")
    before: WatchedFiles = (
        {found.path: read_watched_file_marking_unclosed_as_torn(found, None, True)} if is_known else {}
    )
    path.write_bytes(b"two\n")
    update = update_holding_back_gone_and_torn(before, reread_changed_watched_files([found], before, set()), {}, 7.0)
    assert update.files == before and update.torn == {found.path}
    assert texts(
        update_holding_back_gone_and_torn(
            before, reread_changed_watched_files([found], before, {(found.folder, found.name)}), {}, 7.0
        )
    ) == {found.path: TWO}
    for age in (0.6, -60):
        os.utime(path, (0, time.time() - age))
        assert texts(
            update_holding_back_gone_and_torn(before, reread_changed_watched_files([found], before, set()), {}, 7.0)
        ) == {found.path: TWO}


def _grow_old() -> None:
    time.sleep(0.04)


def _same_size_in_place(path: Path) -> None:
    with path.open("r+b") as file:
        file.write(b"two\n")


def _another_inode_with_its_time(path: Path) -> None:
    it = path.stat()
    beside = path.with_name("beside")
    beside.write_bytes(b"six\n")
    os.utime(beside, ns=(it.st_atime_ns, it.st_mtime_ns))
    beside.replace(path)


def _other_rights(path: Path) -> None:
    path.chmod(0o600)


@pytest.mark.parametrize("seed", range(50))
def test_whatever_came_before_the_truth_is_taken_once_the_moment_is_over(seed: int) -> None:
    chance = random.Random(seed)
    state: WatchedFiles = {}
    gone: Mapping[str, float] = {}
    moment = 0.0
    kinds: tuple[ScriptText | str, ...] = (ONE, TWO, "gone")
    for _ in range(30):
        moment += chance.choice((0.01, 0.03, 0.2))
        now = {it: file_of(it, chance.choice(kinds), chance.random() < 0.2) for it in "abc" if chance.random() < 0.7}
        update = update_holding_back_gone_and_torn(state, now, gone, moment)
        state, gone = update.files, update.gone
    truth = files(a=ONE, c=TWO)
    update = update_holding_back_gone_and_torn(state, truth, gone, moment + 1)
    assert update_holding_back_gone_and_torn(update.files, truth, update.gone, moment + 2).files == truth
