"""Folders that change in every way, at random: what was shown of them last is what a run of them would show."""

import os
import random
import re
import shutil
from collections.abc import Callable
from pathlib import Path

import pytest

from tests.watch_fixture import WatchFixture

Act = Callable[[random.Random, Path], None]
NAMES = ("a.pkt", "b.pkt", "c.pkt", "in/a.pkt", "in/d.pkt", "in/er/a.pkt", "b/a.pkt", ".hidden/a.pkt", "x.txt")
TOMLS = ("pdsuite.toml", "in/pdsuite.toml", "in/er/pdsuite.toml", "b/pdsuite.toml")


def random_text(chance: random.Random) -> bytes:
    if chance.random() < 0.05:
        return b"\n" * 4_097
    return b"".join(
        chance.choice((b"one\n", b"two\n", b"three\n", b"\r\n", b"\xff")) for _ in range(chance.randrange(6))
    )


def save_in_place(chance: random.Random, path: Path) -> None:
    path.write_bytes(random_text(chance))


def save_in_halves(chance: random.Random, path: Path) -> None:
    with path.open("wb") as file:
        file.write(random_text(chance))
        file.flush()
        file.write(random_text(chance))


def save_beside(chance: random.Random, path: Path) -> None:
    beside = path.with_name(".beside")
    beside.write_bytes(random_text(chance))
    beside.replace(path)


def save_as_vim(chance: random.Random, path: Path) -> None:
    path.rename(path.with_name("backup~"))
    path.write_bytes(random_text(chance))
    path.with_name("backup~").unlink()


def remove(chance: random.Random, path: Path) -> None:
    path.unlink()


def move(chance: random.Random, path: Path) -> None:
    path.rename(path.parents[0] / chance.choice(("a.pkt", "e.pkt", "kept.txt")))


def link(chance: random.Random, path: Path) -> None:
    path.unlink(missing_ok=True)
    path.symlink_to(chance.choice(("a.pkt", "../b.pkt", "nowhere", "../x.txt", ".")))


def link_hard(chance: random.Random, path: Path) -> None:
    os.link(path, path.with_name("hard.pkt"))


def move_folder(chance: random.Random, path: Path) -> None:
    path.parent.rename(path.parent.with_name(chance.choice(("b", "in", "f.pkt"))))


def remove_folder(chance: random.Random, path: Path) -> None:
    if path.parent.name != "top":
        shutil.rmtree(path.parent)


SCRIPT_ACTS: tuple[Act, ...] = (save_in_place, save_in_halves, save_beside, save_as_vim, remove, move, link, link_hard)
FOLDER_ACTS: tuple[Act, ...] = (move_folder, remove_folder)


def set_settings(chance: random.Random, path: Path) -> None:
    lines = ["root = true"] if path.parent.name == "top" else []
    lines += chance.sample(["mss = 99", "mss = 1460", "sack = false", "nagle = false", "mss=", "wscale = 7"][:6], 0)
    keys = {"mss": chance.choice(("99", "98", "7")), "sack": chance.choice(("true", "false")), "wscale": "3"}
    lines += [f"{key} = {value}" for key, value in keys.items() if chance.random() < 0.4]
    for name in ("a.pkt", "d.pkt"):
        if chance.random() < 0.3:
            lines += [f'["{name}"]', f"mss = {chance.choice((99, 97))}"]
    path.write_text("\n".join(lines) + "\n")


def act(chance: random.Random, top: Path) -> None:
    """One change of the folder; one that can't be is none."""
    kind = chance.random()
    acts: tuple[Act, ...]
    if kind < 0.15:
        path, acts = top / chance.choice(TOMLS), (set_settings, set_settings, remove)
    elif kind < 0.22:
        path, acts = top / chance.choice(NAMES), FOLDER_ACTS
    else:
        path, acts = top / chance.choice(NAMES), SCRIPT_ACTS
    try:
        if acts is SCRIPT_ACTS:
            path.parent.mkdir(parents=True, exist_ok=True)
        if path.parent.name != "top" or acts is not FOLDER_ACTS:
            chance.choice(acts)(chance, path)
    except OSError:
        pass


@pytest.mark.parametrize("seed", range(200))
def test_after_random_changes_the_last_report_is_that_of_a_run(seed: int, watched_folder: WatchFixture) -> None:
    chance = random.Random(seed)
    for _ in range(8):
        for _ in range(chance.choice((1, 1, 3, 10))):
            act(chance, watched_folder.top)
        if chance.random() < 0.1:
            watched_folder.watcher.read_events()
        watched_folder.wait(chance.choice((0.0, 0.01, 0.05, 0.6)))
    for toml in watched_folder.top.rglob("pdsuite.toml"):
        toml.write_text(re.sub("mss = 7$", "mss = 96", toml.read_text(), flags=re.M))
    (watched_folder.top / "pdsuite.toml").write_text("root = true\nwscale = 4\n")
    watched_folder.rest()
    assert watched_folder.rows == watched_folder.truth()
    open_ones = [it for it in watched_folder.models if not it.is_closed]
    assert sum(len(it.texts) for it in open_ones) == sum("error" not in it for it in watched_folder.rows.values())
