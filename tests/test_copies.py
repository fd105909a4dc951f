"""Tests of tools/copies.py: copies in which crates are proved, and what changes of them show."""

import hashlib
import shutil
import sys
from collections.abc import Callable
from pathlib import Path

import pytest

TOP = Path(__file__).resolve().parents[1]
sys.path.insert(0, str(TOP / "tools"))

import copies  # noqa: E402
from copies import Copy, record_stamps_once_later_changes_show, copy_to_trees_returning_checksums  # noqa: E402
from source_sums import Unreadable  # noqa: E402

CRATES = ("low", "top")
CODE = "crates/low/src/lib.rt"
TABLE = b"# all\nlow:\nother: low\ntop: low,other\n"


@pytest.fixture
def tree(tmp_path: Path) -> Path:
    top = tmp_path / "tree"
    for path in (
        CODE,
        "crates/top/src/main.rt",
        "crates/top/src/notes",
        "crates/other/src/lib.rt",
        "crates/low/out/a.rt",
    ):
        (top / path).parent.mkdir(parents=True, exist_ok=True)
        (top / path).write_text(path)
    (top / "crates.txt").write_bytes(TABLE)
    return top


def test_a_copy_has_what_is_read_and_no_more(tree: Path, tmp_path: Path) -> None:
    trees = [tmp_path / "one", tmp_path / "two"]
    sums, made = copy_to_trees_returning_checksums(tree, CRATES, trees)
    assert [it.tree for it in made] == trees
    for it in trees:
        found = {str(path.relative_to(it)): path.read_text() for path in it.rglob("*") if path.is_file()}
        main = "crates/top/src/main.rt"
        assert found == {"crates.txt": "low:\ntop: low,other\n", CODE: CODE, main: main}
    assert sorted(sums) == ["crates.txt", CODE, "crates/top/src/main.rt"]
    # Of crates.txt it is the checksum of the whole file.
    assert (sums["crates.txt"], sums[CODE]) == tuple(hashlib.sha256(it).hexdigest() for it in (TABLE, CODE.encode()))


def edit_code(tree: Path) -> None:
    (tree / CODE).write_text("another text")


def edit_code_and_take_back(tree: Path) -> None:
    edit_code(tree)
    (tree / CODE).write_text(CODE)


def add_source(tree: Path) -> None:
    (tree / "crates/low/src/more.rt").touch()


def replace_code(tree: Path) -> None:
    shutil.copy2(tree / CODE, tree / "more.rt")
    (tree / "more.rt").replace(tree / CODE)


def write_to_out_folder(tree: Path) -> None:
    (tree / "crates/low/out").mkdir()
    (tree / "crates/low/out/low.rt").touch()


@pytest.mark.parametrize(
    ("change", "changed"),
    [
        (edit_code, {CODE}),
        (edit_code_and_take_back, {CODE}),
        (add_source, {"crates/low/src", "crates/low/src/more.rt"}),
        (replace_code, {CODE, "crates/low/src"}),
        (write_to_out_folder, {None}),
    ],
)
def test_each_change_of_a_copy_shows(
    tree: Path, tmp_path: Path, change: Callable[[Path], None], changed: set[str | None]
) -> None:
    _, (copy,) = copy_to_trees_returning_checksums(tree, CRATES, [tmp_path / "copy"])
    assert copy.find_first_path_changed_since_copied() is None
    change(copy.tree)
    assert copy.find_first_path_changed_since_copied() in changed


@pytest.mark.parametrize("change", [edit_code, add_source])
def test_a_copy_that_changes_while_it_is_made_is_refused(
    tree: Path, tmp_path: Path, change: Callable[[Path], None], monkeypatch: pytest.MonkeyPatch
) -> None:
    def late(top: Path, crates: tuple[str, ...]) -> Copy:
        change(top)
        return record_stamps_once_later_changes_show(top, crates)

    monkeypatch.setattr(copies, "record_stamps_once_later_changes_show", late)
    with pytest.raises(Unreadable, match="copy has changed while it was made"):
        copy_to_trees_returning_checksums(tree, CRATES, [tmp_path / "copy"])
