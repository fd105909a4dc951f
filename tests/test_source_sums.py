"""Tests of tools/source_sums.py and kit.py: what the proof of a crate reads, and which kit it is that proves."""

import hashlib
import os
import sys
from collections.abc import Callable
from pathlib import Path

import pytest

TOP = Path(__file__).resolve().parents[1]
sys.path.insert(0, str(TOP / "tools"))

from kit import kit_id_on_path_or_none_without_rt  # noqa: E402
from source_sums import Unreadable, sources_of_proof, proof_source_sums_by_path  # noqa: E402

READ = [
    "HANDLES",
    "crates.txt",
    "crates/high/src/lib.rt",
    "crates/low/proofs/f/Answers.antt",
    "crates/low/specs/Rule.antt",
    "crates/low/src/lib.rt",
]


@pytest.fixture
def tree(tmp_path: Path) -> Path:
    """A tree of three crates, one of which stands on one other; what no proof of `high` reads is in it, too."""
    unread = ("crates/other/src/lib.rt", "crates/low/src/lib.rt~", "crates/low/must-fail/a.rt", "crates/low/out/a.rt")
    for path in (*READ, *unread):
        (tmp_path / path).parent.mkdir(parents=True, exist_ok=True)
        (tmp_path / path).write_text(path)
    (tmp_path / "crates.txt").write_text("low:\nother: low\nhigh may_wait=1: low,toml # above\n")
    return tmp_path


def test_a_proof_reads_the_sources_of_its_crate_and_of_those_below(tree: Path) -> None:
    assert sources_of_proof(str(tree), "high") == READ
    assert sources_of_proof(str(tree), "low") == [it for it in READ if "high" not in it]
    found = proof_source_sums_by_path(str(tree), "high")
    assert list(found) == READ
    assert found["crates/low/src/lib.rt"] == hashlib.sha256(b"crates/low/src/lib.rt").hexdigest()


def replace_by_link(path: Path) -> None:
    """Puts a link in the place of a file or a folder."""
    path.rename(path.with_name("elsewhere"))
    path.symlink_to("elsewhere")


def replace_by_pipe(path: Path) -> None:
    path.unlink()
    os.mkfifo(path)


def move_elsewhere(path: Path) -> None:
    path.rename(path.with_name("elsewhere"))


@pytest.mark.parametrize(
    ("change", "path", "why"),
    [
        (replace_by_link, "crates/low", "crates/low is a link: put the file or folder itself there"),
        (replace_by_link, "crates/low/src", "crates/low/src is a link: put the file or folder itself there"),
        (replace_by_link, "crates/low/proofs/f", "crates/low/proofs/f is a link: put the file or folder itself there"),
        (
            replace_by_link,
            "crates/low/src/lib.rt",
            "crates/low/src/lib.rt is a link: put the file or folder itself there",
        ),
        (replace_by_pipe, "crates/low/src/lib.rt", "crates/low/src/lib.rt is no plain file"),
        (move_elsewhere, "crates/low", "crates/low is no folder"),
        (move_elsewhere, "crates.txt", "crates.txt: No such file or directory"),
    ],
)
def test_what_no_proof_reads_is_refused_by_name(
    tree: Path, change: Callable[[Path], None], path: str, why: str
) -> None:
    change(tree / path)
    with pytest.raises(Unreadable) as refused:
        proof_source_sums_by_path(str(tree), "high")
    assert str(refused.value) == why


def test_a_crate_that_is_not_named_is_refused(tree: Path) -> None:
    with pytest.raises(Unreadable, match="crates.txt names no crate higher"):
        sources_of_proof(str(tree), "higher")


def test_a_link_of_an_editor_that_leads_nowhere_is_not_read(tree: Path) -> None:
    (tree / "crates/low/src/.#lib.rt").symlink_to("me@here.123")
    assert sources_of_proof(str(tree), "high") == READ


def test_a_kit_is_named_by_the_file_beside_the_folder_of_its_command(
    tmp_path: Path, monkeypatch: pytest.MonkeyPatch
) -> None:
    for folder in ("empty", "kit/bin", "links", "own"):
        (tmp_path / folder).mkdir(parents=True)
    (tmp_path / "kit/KIT-ID").write_text("kit-1  logic 2\n")
    for command in ("kit/bin/rt", "own/rt"):
        (tmp_path / command).touch(mode=0o755)
    (tmp_path / "links/rt").symlink_to(tmp_path / "kit/bin/rt")
    (tmp_path / "empty/rt").touch(mode=0o644)
    (tmp_path / "folder/rt").mkdir(parents=True)
    for folders, named in (
        (["empty", "folder"], None),
        (["empty", "folder", "links", "own"], "kit-1 logic 2"),
        (["own", "links"], ""),
    ):
        monkeypatch.setenv("PATH", ":".join(str(tmp_path / it) for it in folders))
        assert kit_id_on_path_or_none_without_rt() == named
