"""The blocks that `pdsuite watch` prints below the rows that don't pass."""

import os
import signal
import time
from pathlib import Path

import pytest

from tests.helpers import PASSES, Call, is_alive, wait_for, wrapped, write
from tests.watch_process import Watching

BLOCK = b"script packet: x\nactual packet: y\n"
BELOW = ["  script packet: x", "  actual packet: y"]
FAILS = b"row fail 2 seq\n" + BLOCK


def without_totals(out: str) -> list[str]:
    """The lines that were printed, of the totals only the word."""
    return [line.split()[0] if line.startswith("total ") else line for line in out.splitlines()]


@pytest.fixture
def counting(fake_program: Path, tmp_path: Path) -> Path:
    """A folder with a fake program that notes in `calls` by which words it is started."""
    noted = 'printf "%s\\n" "$*" >>calls'
    return wrapped(tmp_path / "programs", fake_program, runs=noted, explains=noted)


def test_the_first_report_is_that_of_a_run(fake_program: Path, tmp_path: Path, call: Call) -> None:
    write(tmp_path, a=FAILS, b=PASSES, c=b"row limit 1\nrule: why\n")
    with Watching(tmp_path, fake_program, ".") as watching:
        assert without_totals(watching.out) == without_totals(call(fake_program, "run", ".").out)


def test_rows_come_first_then_their_blocks_and_then_the_totals(fake_program: Path, tmp_path: Path) -> None:
    write(tmp_path, a=PASSES, b=FAILS, c=PASSES)
    with Watching(tmp_path, fake_program, ".") as watching:
        (tmp_path / "pdsuite.toml").write_text("root = true\n")
        os.kill(watching.process, signal.SIGSTOP)
        write(tmp_path, a=FAILS, b=PASSES, c=b"row limit 1\nrule: why\n")
        time.sleep(0.1)
        os.kill(watching.process, signal.SIGCONT)
        watching.await_out("total ", 2)
        lines = without_totals(watching.out)
    assert lines[4:] == [
        *("a.pkt:2: fail seq", "c.pkt:1: limit", "b.pkt: pass 1"),
        *("a.pkt:2: fail seq: so it is", *BELOW),
        *("c.pkt:1: limit: so it is", "  rule: why"),
        "total",
    ]


def test_a_save_starts_no_program(counting: Path, tmp_path: Path) -> None:
    write(tmp_path / "suite", a=FAILS, b=PASSES)
    write(tmp_path / "suite/in", c=FAILS, d=FAILS)
    (tmp_path / "suite/in/pdsuite.toml").write_text("mss = 1000\n")
    calls = tmp_path / "calls"
    with Watching(tmp_path, counting, "suite") as watching:
        requested, *runs = [it for it in calls.read_text().splitlines() if it]
        begin = "--explain --leftovers --json --cache 1024"
        assert [requested, *runs] == [begin, f"{begin} --settings mss = 1000"]
        write(tmp_path / "suite", b=b"row pass 1\nends 1 packet stands untaken at its end\n", a=PASSES)
        watching.await_out("b.pkt: passes, but 1 packet stands untaken at its end\n")
        watching.await_out("total ", 2)
        write(tmp_path / "suite/in", d=b"row fail 2 ack\n" + BLOCK)
        watching.await_out("d.pkt:2: fail ack: so it is\n")
        watching.await_out("total ", 3)
        assert [it for it in calls.read_text().splitlines() if it] == [requested, *runs]


def test_another_block_of_the_same_row_is_shown_alone_and_an_equal_one_is_not(
    fake_program: Path, tmp_path: Path
) -> None:
    write(tmp_path / "suite", a=b"row fail 3 seq\n" + BLOCK)
    with Watching(tmp_path, fake_program, "suite") as watching:
        write(tmp_path / "suite", a=b"row fail 3 seq\n" + BLOCK.replace(b"x", b"z"))
        watching.await_out("total ", 2)
        write(tmp_path / "suite", a=b"row  fail 3 seq\n" + BLOCK.replace(b"x", b"z"))
        write(tmp_path / "suite", b=PASSES)
        watching.await_out("total ", 3)
        lines = without_totals(watching.out)
    assert lines[4:] == [
        *("suite/a.pkt:3: fail seq: so it is", "  script packet: z", BELOW[1], "total"),
        *("suite/b.pkt: pass 1", "total"),
    ]


def test_a_signal_ends_what_tells_of_a_script(fake_program: Path, tmp_path: Path) -> None:
    write(tmp_path, a=PASSES)
    with Watching(tmp_path, fake_program, ".") as watching:
        write(tmp_path, a=b"row fail 1 seq\nstall\n")
        wait_for(tmp_path / "mark")
        ended = watching.ends(signal.SIGTERM)
    assert (without_totals(ended.out), ended.status, ended.err) == (["total"], 0, "")
    assert not is_alive(int((tmp_path / "mark").read_text()))


def test_a_row_that_stays_is_not_shown_without_its_block(fake_program: Path, tmp_path: Path) -> None:
    write(tmp_path, a=b"row fail 1 seq\nreason: why\n")
    with Watching(tmp_path, fake_program, ".") as watching:
        write(tmp_path, a=b"row fail 1 seq\nstall\n")
        wait_for(tmp_path / "mark")
        ended = watching.ends(signal.SIGTERM)
    assert without_totals(ended.out) == ["a.pkt:1: fail seq: so it is", "  reason: why", "total"]
    assert (ended.status, ended.err) == (1, "")


def test_where_it_ends_the_script_s_line_stands_below_until_the_next_save(fake_program: Path, tmp_path: Path) -> None:
    write(tmp_path, a=PASSES)
    with Watching(tmp_path, fake_program, ".") as watching:
        write(tmp_path, a=b"row fail 1 seq\ncrash\n")
        watching.await_out("total ", 2)
        write(tmp_path, a=b"row fail 1 seq\nreason: why\n")
        watching.await_out("total ", 3)
        lines = without_totals(watching.out)
    row = "a.pkt:1: fail seq"
    assert lines[1:5] == [row, row, "  row fail 1 seq", "total"]
    assert lines[5:] == [f"{row}: so it is", "  reason: why", "total"]
    ended = "pdsuite: pdregress was ended by SIGSEGV; {} a.pkt\n"
    assert watching.err == ended.format("a new run begins with") + ended.format("nothing is told of")


def test_a_setting_that_the_client_does_not_know_comes_changes_and_goes(fake_program: Path, tmp_path: Path) -> None:
    write(tmp_path, a=b"told later\n", b=b"told later\n")
    toml = tmp_path / "pdsuite.toml"
    with Watching(tmp_path, fake_program, "-v", ".") as watching:
        (first,) = watching.programs()
        for value in (7, 8):
            toml.write_text(f"later = {value}\n")
            watching.await_out(f"a.pkt: pass {value}\nb.pkt: pass {value}\n")
            assert watching.programs() == [first]
        toml.write_text("mss = 100\n")
        watching.await_out("a.pkt: pass 1\nb.pkt: pass 1\n", 2)
        toml.write_text('later = 9\n["b.pkt"]\nlater = 10\n')
        watching.await_out("a.pkt: pass 9\nb.pkt: pass 10\n")
        toml.write_text("")
        watching.await_out("a.pkt: pass 1\nb.pkt: pass 1\n", 3)
        assert watching.err == ""
