"""Which files are found in folders."""

import os
from pathlib import Path

import pytest

from pdsuite.scripts.discover import find_scripts
from pdsuite.signals import Stop


def found(top: Path, *paths: str, only: tuple[str, ...] = ()) -> list[tuple[str, str]]:
    """The scripts that are found by paths from a folder: the path of each, and its fault."""
    with pytest.MonkeyPatch.context() as patch, Stop() as stop:
        patch.chdir(top)
        return [(it.path, it.fault) for it in find_scripts(map(Path, paths), only, stop)]


def names(top: Path, *paths: str, only: tuple[str, ...] = ()) -> list[str]:
    """The paths of what is found, where nothing is at fault."""
    each = found(top, *paths, only=only)
    assert not any(fault for _, fault in each)
    return [path for path, _ in each]


def test_folders_are_looked_through_in_the_order_of_octets(tmp_path: Path) -> None:
    for name in ("b/x.pkt", "a/x.pkt", "a/y/z.pkt", "a-x.pkt", "a.pkt", "B.pkt", "ü.pkt", "a/x.txt", "a/xpkt"):
        (tmp_path / name).parent.mkdir(parents=True, exist_ok=True)
        (tmp_path / name).touch()
    assert names(tmp_path, ".") == ["B.pkt", "a-x.pkt", "a.pkt", "a/x.pkt", "a/y/z.pkt", "b/x.pkt", "ü.pkt"]
    assert names(tmp_path, "b", "a") == ["a/x.pkt", "a/y/z.pkt", "b/x.pkt"]
    assert names(tmp_path, "a/x.txt", "b/x.pkt") == ["a/x.txt", "b/x.pkt"]


def test_hidden_names_are_left_out_unless_they_are_given(tmp_path: Path) -> None:
    for name in (".git/x.pkt", ".x.pkt", "a.pkt/y.pkt"):
        (tmp_path / name).parent.mkdir(exist_ok=True)
        (tmp_path / name).touch()
    assert names(tmp_path, ".") == ["a.pkt/y.pkt"]
    assert names(tmp_path, ".git", ".x.pkt") == [".git/x.pkt", ".x.pkt"]


def test_links_to_folders_are_followed_only_where_they_are_given(tmp_path: Path) -> None:
    (tmp_path / "real/in").mkdir(parents=True)
    (tmp_path / "real/a.pkt").touch()
    (tmp_path / "real/in/round").symlink_to("../..")
    (tmp_path / "real/in/round.pkt").symlink_to("..")
    (tmp_path / "link").symlink_to("real")
    assert names(tmp_path, ".") == ["real/a.pkt"]
    assert names(tmp_path, "link") == ["link/a.pkt"]


def test_a_file_found_twice_counts_once(tmp_path: Path) -> None:
    (tmp_path / "a").mkdir()
    (tmp_path / "a/x.pkt").touch()
    (tmp_path / "a/y.pkt").symlink_to("x.pkt")
    (tmp_path / "link").symlink_to("a")
    assert names(tmp_path, "a", "./a", "a/x.pkt", "link", "a/../a", str(tmp_path)) == [f"{tmp_path}/a/x.pkt"]
    assert names(tmp_path, "link", "a") == ["a/x.pkt"]


def test_links_to_files_are_scripts(tmp_path: Path) -> None:
    (tmp_path / "a").mkdir()
    (tmp_path / "x.txt").touch()
    (tmp_path / "a/x.pkt").symlink_to("../x.txt")
    (tmp_path / "a/dangling.pkt").symlink_to("nowhere")
    assert names(tmp_path, "a") == ["a/dangling.pkt", "a/x.pkt"]


def test_what_cannot_be_looked_at_has_its_reason(tmp_path: Path) -> None:
    (tmp_path / "a.pkt").touch()
    (tmp_path / "round").symlink_to("round")
    assert found(tmp_path, "a.pkt", "nowhere", "round", "nowhere", "a.pkt/b", "x" * 300) == [
        ("a.pkt", ""),
        ("a.pkt/b", "Not a directory"),
        ("nowhere", "No such file or directory"),
        ("round", "Too many levels of symbolic links"),
        ("x" * 300, "File name too long"),
    ]


def test_hard_names_are_found_as_they_are(tmp_path: Path) -> None:
    hard = [b" .pkt", b"a b.pkt", b"a\nb.pkt", b"\xff\xfe.pkt", b"$\\frac{$.pkt", b"a\x1b[2J.pkt", b"# SKIP.pkt"]
    hard += [b"-v.pkt", b"x" * 200 + b".pkt", "日本.pkt".encode()]
    for name in hard:
        (tmp_path / os.fsdecode(name)).touch()
    assert [os.fsencode(it) for it in names(tmp_path, ".")] == sorted(hard)


def test_a_pattern_fits_the_path_or_the_name(tmp_path: Path) -> None:
    for name in ("sack/a.pkt", "rto/sack.pkt", "rto/b.pkt"):
        (tmp_path / name).parent.mkdir(exist_ok=True)
        (tmp_path / name).touch()
    assert names(tmp_path, ".", only=("sack*",)) == ["rto/sack.pkt", "sack/a.pkt"]
    assert names(tmp_path, ".", only=("rto/*",)) == ["rto/b.pkt", "rto/sack.pkt"]
    assert names(tmp_path, ".", only=("b.pkt",)) == ["rto/b.pkt"]
    assert names(tmp_path, ".", only=("b",)) == []


def test_of_several_patterns_each_counts(tmp_path: Path) -> None:
    for name in ("rto/b.pkt", "rto/sack.pkt", "sack/a.pkt", "z.pkt"):
        (tmp_path / name).parent.mkdir(exist_ok=True)
        (tmp_path / name).touch()
    assert names(tmp_path, ".", only=("b.pkt", "sack/*")) == ["rto/b.pkt", "sack/a.pkt"]
    assert names(tmp_path, ".", only=("sack/*", "nothing", "b.pkt", "*/b*")) == ["rto/b.pkt", "sack/a.pkt"]
