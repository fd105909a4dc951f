"""Tables of pdsuite.toml whose scripts aren't there: a fault of the file, reported with the nearest name."""

import os
from pathlib import Path

import pytest

from tests.helpers import PASSES, Call, write
from tests.watch_fixture import WatchFixture
from tests.watch_process import Watching

LOST = "no script of this name is beside the file"
PRUNE = "; `pdsuite expect --prune` takes the table away"


def lines_of(names: list[str]) -> bytes:
    return "".join(f'["{name}"]\nmss = 1000\n' for name in names).encode()


@pytest.mark.parametrize("command", ["run", "list"])
def test_a_table_without_its_script_is_a_fault_with_the_nearest_name(
    command: str, fake_program: Path, tmp_path: Path, call: Call
) -> None:
    write(tmp_path / "t", **{"03_rto": PASSES, "04_backoff": PASSES})
    (tmp_path / "t/05.pkt").mkdir()
    write(tmp_path / "t/in", x=PASSES)
    (tmp_path / "t/link.pkt").symlink_to("03_rto.pkt")
    names = ["03_rto.pkt", "3_RTO.pkt", "in/x.pkt", "05.pkt", "link.pkt", "~~~.pkt"]
    (tmp_path / "t/pdsuite.toml").write_bytes(lines_of(names))
    called = call(fake_program, command, "t")
    assert (called.status, called.out) == (2, "")
    assert called.err.splitlines() == [
        f't/pdsuite.toml:3: ["3_RTO.pkt"]: {LOST}; the nearest is 03_rto.pkt{PRUNE}',
        f't/pdsuite.toml:5: ["in/x.pkt"]: {LOST}{PRUNE}',
        f't/pdsuite.toml:7: ["05.pkt"]: {LOST}{PRUNE}',
        't/pdsuite.toml:9: ["link.pkt"]: this is a link, and settings go by the name of the file that it leads to',
        f't/pdsuite.toml:11: ["~~~.pkt"]: {LOST}{PRUNE}',
    ]


def test_a_table_counts_for_a_script_that_is_there_and_not_meant(
    fake_program: Path, tmp_path: Path, call: Call
) -> None:
    write(tmp_path, a=PASSES, b=PASSES, **{".hidden": PASSES})
    (tmp_path / "pdsuite.toml").write_bytes(lines_of(["a.pkt", "b.pkt", ".hidden.pkt"]))
    for words in (["b.pkt"], ["--only", "a*", "."]):
        called = call(fake_program, "run", *words)
        assert (called.status, called.err, called.totals) == (0, "", {"pass": 1})


@pytest.mark.parametrize("command", ["run", "list"])
def test_a_file_is_looked_at_where_its_folder_is_meant(
    command: str, fake_program: Path, tmp_path: Path, call: Call
) -> None:
    write(tmp_path / "t/in", a=PASSES)
    write(tmp_path / "t", c=PASSES)
    (tmp_path / "t/out").mkdir()
    (tmp_path / "t/out/pdsuite.toml").write_bytes(lines_of(["a.pkt"]))
    (tmp_path / "t/pdsuite.toml").write_bytes(b"root = true\n" + lines_of(["b.pkt"]))
    (tmp_path / "link").symlink_to("t")
    for path in ("t/in", "t/c.pkt", "link/in"):
        called = call(fake_program, command, path)
        assert (called.status, called.err) == (0, "")
    for path in ("t", "link"):
        called = call(fake_program, command, path)
        assert called.err.splitlines() == [
            f't/out/pdsuite.toml:1: ["a.pkt"]: {LOST}{PRUNE}',
            f't/pdsuite.toml:2: ["b.pkt"]: {LOST}{PRUNE}',
        ]
        assert called.status == 2


def test_it_is_told_beside_what_the_program_refuses(fake_program: Path, tmp_path: Path, call: Call) -> None:
    (tmp_path / "pdregress").write_text(
        "#!/bin/sh\nwhile read -r word more; do case $word in\n"
        "    set) echo refused 4 BadValue ;;\n"
        "    show) echo total 0 pass 0 fail 0 syntax 0 unsupported 0 limit 0 pending 0 ;;\nesac; done\n"
    )
    (tmp_path / "pdregress").chmod(0o755)
    write(tmp_path / "t", a=PASSES)
    (tmp_path / "t/pdsuite.toml").write_text('["b.pkt"]\nmss = 1\n')
    called = call(tmp_path, "run", "t")
    assert called.err.splitlines() == [
        f't/pdsuite.toml:1: ["b.pkt"]: {LOST}{PRUNE}',
        't/pdsuite.toml:2: mss: BadValue (["b.pkt"]): it takes 64 to 65,495 octets',
    ]


def test_of_many_tables_ten_are_told(fake_program: Path, tmp_path: Path, call: Call) -> None:
    write(tmp_path / "t", **{f"s{number:04}": PASSES for number in range(1_500)})
    (tmp_path / "t/pdsuite.toml").write_bytes(lines_of([f"s{number:04}x.pkt" for number in range(1_400)]))
    message = call(fake_program, "list", "t").err.splitlines()
    assert len(message) == 11
    assert message[9] == f't/pdsuite.toml:19: ["s0009x.pkt"]: {LOST}; the nearest is s0009.pkt{PRUNE}'
    assert message[10] == "t/pdsuite.toml: and 1,390 more tables of scripts that aren't there"


def test_names_that_no_file_can_have_are_told_too(fake_program: Path, tmp_path: Path, call: Call) -> None:
    write(tmp_path / "t", a=PASSES)
    (tmp_path / "t/pdsuite.toml").write_text('["a\\u0000.pkt"]\n["\\u001b[2J.pkt"]\n')
    called = call(fake_program, "list", "t")
    assert called.status == 2
    assert called.err.splitlines()[0] == rf't/pdsuite.toml: ["a\x00.pkt"]: {LOST}; the nearest is a.pkt{PRUNE}'
    assert called.err.splitlines()[1].startswith(r't/pdsuite.toml: ["\x1b[2J.pkt"]: ')


def test_an_import_refuses_such_a_table(tmp_path: Path, call: Call) -> None:
    write(tmp_path / "from", a=PASSES)
    (tmp_path / "from/pdsuite.toml").write_bytes(lines_of(["b.pkt"]))
    called = call(None, "import", "from", "to")
    assert (called.status, called.out) == (2, "")
    assert called.err == f'from/pdsuite.toml:1: ["b.pkt"]: {LOST}{PRUNE}\n'
    assert not (tmp_path / "to").exists()


def test_while_scripts_are_watched_it_is_told_once_and_all_else_counts(fake_program: Path, tmp_path: Path) -> None:
    write(tmp_path, a=b"told mss\n", b=PASSES)
    (tmp_path / "pdsuite.toml").write_bytes(b"root = true\nmss = 70\n" + lines_of(["c.pkt"]))
    line = f'pdsuite.toml:3: ["c.pkt"]: {LOST}{PRUNE}; all else in the file counts\n'
    with Watching(tmp_path, fake_program, "-v", ".") as watching:
        watching.await_out("a.pkt: pass 70\n")
        assert watching.err == line
        write(tmp_path, c=b"told mss\n")
        watching.await_out("c.pkt: pass 1000\n")
        (tmp_path / "c.pkt").unlink()
        watching.await_err(line * 2)


def test_a_script_that_is_saved_as_editors_do_is_not_missed(watched_folder: WatchFixture) -> None:
    path = watched_folder.top / "a.pkt"
    path.write_bytes(b"one\n")
    (watched_folder.top / "pdsuite.toml").write_bytes(b"root = true\n" + lines_of(["a.pkt"]))
    watched_folder.rest()
    path.rename(watched_folder.top / "a.pkt~")
    watched_folder.wait(3.0)  # the folders are looked through in this moment
    path.write_bytes(b"two\n")
    watched_folder.rest()
    assert watched_folder.paper.notes == []
    os.unlink(path)
    watched_folder.rest()
    line = f'{watched_folder.top}/pdsuite.toml:2: ["a.pkt"]: {LOST}{PRUNE}; all else in the file counts'
    assert watched_folder.paper.notes == [line, "pdsuite: no script found"]
