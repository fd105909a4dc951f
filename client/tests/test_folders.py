"""Folders that are watched: what is reported, what only a walk finds, and what is refused. No clock has to pass."""

import shutil
from pathlib import Path

import pytest

from pdsuite.watch.watcher import FileEvent, FileEventKind
from tests.watch_fixture import WatchFixture


def test_each_change_is_shown_at_once_and_nothing_twice(watched_folder: WatchFixture) -> None:
    (watched_folder.top / "a.pkt").write_bytes(b"one\n")
    (watched_folder.top / "b.pkt").write_bytes(b"two\n")
    watched_folder.wait(0)
    assert watched_folder.rows == watched_folder.truth() and len(watched_folder.rows) == 2
    (watched_folder.top / "a.pkt").write_bytes(b"three\n")
    (watched_folder.top / "c.pkt").write_bytes(b"four\n")
    watched_folder.wait(0)
    assert watched_folder.rows == watched_folder.truth() and len(watched_folder.rows) == 3
    (watched_folder.top / "beside").write_bytes(b"five\n")
    (watched_folder.top / "beside").replace(watched_folder.top / "a.pkt")
    watched_folder.wait(0)
    assert watched_folder.rows == watched_folder.truth()
    (watched_folder.top / "b.pkt").rename(watched_folder.top / "d.pkt")
    watched_folder.wait(0)
    assert watched_folder.rows == watched_folder.truth() and f"{watched_folder.top}/d.pkt" in watched_folder.rows
    parts = [it for it in watched_folder.paper.parts if it]
    watched_folder.rest()
    assert [it for it in watched_folder.paper.parts if it] == parts
    assert [it.acts for it in watched_folder.models] == [7]


def test_what_is_being_written_is_taken_at_once_when_it_is_closed(
    watched_folder: WatchFixture, monkeypatch: pytest.MonkeyPatch
) -> None:
    monkeypatch.setattr("pdsuite.file_stamps._FRESH", 10**12)
    (watched_folder.top / "a.pkt").write_bytes(b"one\n")
    watched_folder.wait(0)
    (watched_folder.top / "b.pkt").write_bytes(b"two\n")
    watched_folder.wait(0)
    before = watched_folder.rows
    assert before == watched_folder.truth() and len(before) == 2
    with (watched_folder.top / "a.pkt").open("wb") as old, (watched_folder.top / "c.pkt").open("wb") as new:
        for file in (old, new):
            file.write(b"half of ")
            file.flush()
        watched_folder.rest()
        assert watched_folder.rows == before
        for file in (old, new):
            file.write(b"it\n")
    watched_folder.wait(0)
    assert watched_folder.rows == watched_folder.truth() and len(watched_folder.rows) == 3


def test_a_path_that_is_there_again_within_a_moment_is_one_edit(watched_folder: WatchFixture) -> None:
    path = watched_folder.top / "a.pkt"
    path.write_bytes(b"one\ntwo\n")
    watched_folder.wait(0)
    path.rename(watched_folder.top / "a.pkt~")
    watched_folder.wait(0)
    path.write_bytes(b"one\nthree\n")
    (watched_folder.top / "a.pkt~").unlink()
    watched_folder.wait(0.03)
    watched_folder.rest()
    assert watched_folder.rows == watched_folder.truth()
    assert ([it.acts for it in watched_folder.models], "gone" in "".join(watched_folder.paper.parts)) == ([2], False)


def test_a_path_that_stays_away_is_gone(watched_folder: WatchFixture) -> None:
    path = watched_folder.top / "a.pkt"
    path.write_bytes(b"one\n")
    watched_folder.wait(0)
    path.unlink()
    watched_folder.wait(0)
    watched_folder.wait(0.03)
    assert len(watched_folder.rows) == 1
    watched_folder.wait(0.03)
    assert watched_folder.rows == {} and watched_folder.view.last_exit_status_with_outdated_as_fault == 2
    assert watched_folder.paper.notes == ["pdsuite: no script found"]
    path.write_bytes(b"one\n")
    watched_folder.wait(0)
    assert watched_folder.rows == watched_folder.truth() and len(watched_folder.rows) == 1


def test_a_folder_that_went_and_came_back(watched_folder: WatchFixture) -> None:
    shutil.copytree(watched_folder.top, watched_folder.top / "in")
    (watched_folder.top / "in/a.pkt").write_bytes(b"one\n")
    watched_folder.wait(0)
    elsewhere = watched_folder.top.with_name("elsewhere")
    watched_folder.top.rename(elsewhere)
    watched_folder.wait(2.0)
    watched_folder.wait(0.05)
    assert watched_folder.rows == {f"{watched_folder.top}": f"{watched_folder.top}: error: No such file or directory"}
    (elsewhere / "in/a.pkt").write_bytes(b"two\n")
    elsewhere.rename(watched_folder.top)
    watched_folder.wait(2.0)
    assert watched_folder.rows == watched_folder.truth() and len(watched_folder.rows) == 1
    (watched_folder.top / "in/a.pkt").write_bytes(b"three\n")
    watched_folder.wait(0)
    assert watched_folder.rows == watched_folder.truth()


def test_a_folder_that_is_new_or_made_anew_is_watched_at_once(watched_folder: WatchFixture) -> None:
    watched_folder.wait(0)
    for _ in range(2):
        (watched_folder.top / "in").mkdir()
        watched_folder.wait(0)
        (watched_folder.top / "in/a.pkt").write_bytes(b"one\n")
        watched_folder.wait(0)
        assert watched_folder.rows == watched_folder.truth() and len(watched_folder.rows) == 1
        shutil.rmtree(watched_folder.top / "in")
        watched_folder.wait(0.1)
        watched_folder.wait(0.1)


def test_what_no_event_reports_the_next_walk_finds(watched_folder: WatchFixture) -> None:
    (watched_folder.top / "a.pkt").write_bytes(b"one\n")
    watched_folder.wait(0)
    for change in _SILENT:
        change(watched_folder.top)
        watched_folder.watcher.read_events()
        watched_folder.wait(1.9, [])
        watched_folder.wait(0.1, [])
        watched_folder.wait(0.05, [])
        assert watched_folder.rows == watched_folder.truth(), change.__name__


def test_half_a_second_after_the_last_event_all_is_looked_at(watched_folder: WatchFixture) -> None:
    (watched_folder.top / "a.pkt").write_bytes(b"one\n")
    watched_folder.wait(0)
    (watched_folder.top / "b.pkt").write_bytes(b"two\n")
    watched_folder.watcher.read_events()
    (watched_folder.top / "notes.txt").write_bytes(b"")
    watched_folder.wait(0.1)
    watched_folder.wait(0.3, [])
    assert watched_folder.rows != watched_folder.truth()
    watched_folder.wait(0.2, [])
    assert watched_folder.rows == watched_folder.truth()


def _save(top: Path) -> None:
    (top / "a.pkt").write_bytes(b"two\n")


def _add(top: Path) -> None:
    (top / "in").mkdir()
    (top / "in/b.pkt").write_bytes(b"three\n")


def _link(top: Path) -> None:
    (top.parent / "far.txt").write_bytes(b"four\n")
    (top / "c.pkt").symlink_to("../far.txt")


def _save_far(top: Path) -> None:
    (top.parent / "far.txt").write_bytes(b"five\n")


def _settings(top: Path) -> None:
    (top / "pdsuite.toml").write_text("root = true\nmss = 99\n")


def _other_settings(top: Path) -> None:
    (top / "in/pdsuite.toml").write_text('mss = 98\n["b.pkt"]\nsack = false\n')


def _remove(top: Path) -> None:
    (top / "a.pkt").unlink()
    shutil.rmtree(top / "in")


_SILENT = (_save, _add, _link, _save_far, _settings, _other_settings, _remove)


def test_settings_that_are_refused_leave_the_good_ones_and_are_mended(watched_folder: WatchFixture) -> None:
    (watched_folder.top / "a.pkt").write_bytes(b"one\n")
    file = watched_folder.top / "pdsuite.toml"
    file.write_text("root = true\nmss = 99\n")
    watched_folder.wait(0)
    good = watched_folder.rows
    for text, message in (
        ("root = true\nmss = 7\nsack = false\n", ":2: mss: BadValue: it takes 64 to 65,495 octets"),
        ("root = true\nmss =\n", ":2: no TOML: Invalid value (at line 2, column 6)"),
        ("root = 1\n", ":1: root: BadValue: it takes true or false"),
    ):
        file.write_text(text)
        watched_folder.wait(0)
        watched_folder.rest()
        assert watched_folder.rows == good
        assert watched_folder.paper.notes == [f"{file}{message}; its last good settings stay"]
        watched_folder.paper.notes.clear()
    (watched_folder.top / "b.pkt").write_bytes(b"one\n")
    watched_folder.wait(0)
    assert len(watched_folder.rows) == 2 and [it.settings["mss"] for it in watched_folder.models] == ["99"]
    file.write_text("root = true\nmss = 98\n")
    watched_folder.wait(0)
    assert (watched_folder.rows, watched_folder.paper.notes) == (watched_folder.truth(), [])
    assert [it.settings["mss"] for it in watched_folder.models] == ["98"]


def test_settings_that_are_refused_at_first_are_as_if_they_were_not_there(watched_folder: WatchFixture) -> None:
    (watched_folder.top / "a.pkt").write_bytes(b"one\n")
    file = watched_folder.top / "pdsuite.toml"
    file.write_text("mss = 7\n")
    watched_folder.wait(0)
    message = f"{file}:1: mss: BadValue: it takes 64 to 65,495 octets; the file counts for nothing"
    assert watched_folder.paper.notes == [message]
    file.write_text("root = true\nmss = 98\n")
    watched_folder.wait(0)
    assert watched_folder.rows == watched_folder.truth()


def test_a_full_history_begins_a_new_run_with_all_files(watched_folder: WatchFixture) -> None:
    watched_folder.most_acts = 10
    for name in "abc":
        (watched_folder.top / f"{name}.pkt").write_bytes(b"one\n")
    for number in range(20):
        (watched_folder.top / "a.pkt").write_bytes(b"%d\n" % number)
        watched_folder.wait(0)
        assert watched_folder.rows == watched_folder.truth()
    assert (
        watched_folder.paper.notes
        == ["pdsuite: pdregress: refused 11 HistoryFull; a new run begins with 3 scripts"] * 2
    )
    assert [it.is_closed for it in watched_folder.models] == [True, True, False]


def test_the_more_a_look_takes_the_more_rarely_it_is_done(
    watched_folder: WatchFixture, monkeypatch: pytest.MonkeyPatch
) -> None:
    processor, costs = [0.0], iter([8.0, 0.5, 0.001, 3.0, 0.6])
    monkeypatch.setattr("pdsuite.watch.folders.process_time", lambda: processor[0])
    walk = watched_folder.folders._reread_all_returning_whether_changed

    def costly(closed: set[tuple[str, str]], now: float) -> bool:
        processor[0] += next(costs)
        return walk(closed, now)

    monkeypatch.setattr(watched_folder.folders, "_reread_all_returning_whether_changed", costly)
    (watched_folder.top / "a.pkt").write_bytes(b"one\n")
    periods = []
    for _ in range(3):
        watched_folder.wait(1_000.0, [])
        periods.append(watched_folder.folders.next_look_moment() - watched_folder.now)
    assert periods == [2.0, pytest.approx(55.0), 2.0]
    (watched_folder.top / "b.pkt").write_bytes(b"one\n")
    watched_folder.wait(1_000.0, [])  # what it takes to read what is new counts for nothing
    assert watched_folder.folders.next_look_moment() - watched_folder.now == 2.0
    watched_folder.wait(3.0, [])
    assert watched_folder.folders.next_look_moment() - watched_folder.now == pytest.approx(66.0)


def test_after_a_report_all_is_looked_at_soon_however_rarely_it_is_else(watched_folder: WatchFixture) -> None:
    (watched_folder.top / "a.pkt").write_bytes(b"one\n")
    watched_folder.rest()
    watched_folder.folders._period = 60.0
    watched_folder.folders._walk_at = watched_folder.now + 60.0
    (watched_folder.top / "far.pkt").write_bytes(b"two\n")  # of which no report comes
    saved = [FileEvent(FileEventKind.CLOSED, str(watched_folder.top), "a.pkt")]
    watched_folder.wait(30.0, saved)
    assert watched_folder.folders.next_look_moment() == watched_folder.now + 0.5
    for _ in range(4):
        watched_folder.wait(0.4, saved)
    assert len(watched_folder.rows) == 1 and watched_folder.folders.next_look_moment() == pytest.approx(
        watched_folder.now + 0.4
    )
    watched_folder.wait(0.4, saved)  # two seconds after the first report, though they go on
    assert len(watched_folder.rows) == 2
