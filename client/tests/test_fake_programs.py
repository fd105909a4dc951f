"""Programs that end, refuse, stall or answer short: each ends in a clear line, and no other script's row is lost."""

import os
import signal
import subprocess
import time
from pathlib import Path

import pytest

from tests.helpers import HANGS, PASSES, TOP, Call, ends, is_alive, wait_for, wrapped, write
from tests.watch_process import Watching

REASONS = {
    b"crash": "pdregress was ended by SIGSEGV",
    b"exit": "pdregress ended with status 3",
    b"close": "pdregress closed its output",
    b"babble": "y",
    b"fault 11 HistoryFull": "pdregress: 11 HistoryFull",
    b"fault 12 NoWorkers": "pdregress: 12 NoWorkers",
    b"fault 17 Read": "pdregress: 17 Read",
    b"refuse 2 TooLarge": "pdregress: refused 2 TooLarge",
    b"refuse 11 HistoryFull": "pdregress: refused 11 HistoryFull",
    b"short": 'pdregress: answered "',
    b"other": 'pdregress: answered "s999 pass 1", which isn\'t the row that is due',
    b"twice": 'pdregress: answered "s',
    b"pending": 'pdregress: answered "s',
    b"row fail 1": 'pdregress: answered "s',
    b"flood": "pdregress answered more than was asked",
}


@pytest.mark.parametrize("text", REASONS, ids=[text.decode() for text in REASONS])
def test_a_script_whose_program_ends_twice_is_an_error_and_the_others_are_run(
    text: bytes, tmp_path: Path, fake_program: Path, call: Call
) -> None:
    write(tmp_path, a=PASSES, b=text, c=PASSES)
    called = call(fake_program, "run", ".")
    (row,) = called.rows
    assert row.startswith(f"b.pkt: error: {REASONS[text]}")
    assert called.totals == {"pass": 2, "error": 1}
    assert called.status == 2
    assert called.err.startswith(f"pdsuite: {REASONS[text]}")
    assert called.err.count("a new run begins at") == 1
    assert "Traceback" not in called.err


def test_a_program_that_ends_once_is_begun_again_and_that_is_said(
    tmp_path: Path, fake_program: Path, call: Call
) -> None:
    write(tmp_path, a=PASSES, b=b"once mark", c=PASSES)
    called = call(fake_program, "run", ".")
    assert (called.status, called.totals) == (0, {"pass": 3})
    assert called.err == "pdsuite: pdregress was ended by SIGKILL; a new run begins at a.pkt\n"


def test_the_only_script_of_a_program_that_ends_once_is_run_again(
    tmp_path: Path, fake_program: Path, call: Call
) -> None:
    write(tmp_path, a=b"once mark")
    called = call(fake_program, "run", ".")
    assert (called.status, called.totals) == (0, {"pass": 1})
    assert called.err == "pdsuite: pdregress was ended by SIGKILL; a new run begins at a.pkt\n"


def test_one_script_in_a_later_piece_costs_no_other_its_row(tmp_path: Path, fake_program: Path, call: Call) -> None:
    for number in range(150):
        write(tmp_path, **{f"s{number:03}": b"crash\n" if number in (70, 71, 149) else PASSES})
    called = call(fake_program, "run", ".")
    assert called.rows == [f"s{it}.pkt: error: pdregress was ended by SIGSEGV" for it in ("070", "071", "149")]
    assert (called.status, called.totals) == (2, {"pass": 147, "error": 3})


def test_a_program_that_never_answers_is_a_fault_in_its_words(tmp_path: Path, fake_program: Path, call: Call) -> None:
    write(tmp_path / "suite", a=PASSES)
    dead = tmp_path / "dead"
    dead.mkdir()
    (dead / "pdregress").write_bytes((fake_program / "pdregress").read_bytes())
    (dead / "pdregress").chmod(0o755)
    (dead / "dead").touch()
    called = call(dead, "run", "suite")
    assert (called.status, called.out, called.err) == (2, "", "pdsuite: pdregress: 19 OutOfMemory\n")


@pytest.mark.parametrize(
    ("octets", "reason"),
    [(b"\x7fELF", "Exec format error"), (b"#!/nowhere/at/all\n", "No such file or directory")],
)
def test_a_program_that_cannot_be_started_is_a_fault(
    octets: bytes, reason: str, tmp_path: Path, fake_program: Path, call: Call
) -> None:
    write(tmp_path / "suite", a=PASSES)
    (tmp_path / "pdregress").write_bytes(octets)
    (tmp_path / "pdregress").chmod(0o755)
    called = call(tmp_path, "run", "suite")
    assert (called.status, called.err) == (2, f"pdsuite: {tmp_path}/pdregress: {reason}\n")


def test_a_program_that_says_much_blocks_nobody(tmp_path: Path, fake_program: Path, call: Call) -> None:
    long = b"x" * 60_000
    for number in range(64):
        write(tmp_path, **{f"s{number}": PASSES + long})
    write(tmp_path, noise=b"noise\n")
    called = call(fake_program, "run", ".")
    assert (called.status, called.totals) == (0, {"pass": 65})


def test_words_of_a_program_are_shown_escaped(tmp_path: Path, fake_program: Path, call: Call) -> None:
    write(tmp_path, a=b"fault \x1b[2J\\")
    called = call(fake_program, "run", ".")
    assert called.rows == [r"a.pkt: error: pdregress: \x1b[2J\\"]


def test_error_rows_stop_a_run_that_is_to_fail_fast(tmp_path: Path, fake_program: Path, call: Call) -> None:
    for number in range(130):
        write(tmp_path, **{f"s{number:03}": PASSES})
    (tmp_path / "s070.pkt").unlink()
    (tmp_path / "s070.pkt").symlink_to("nowhere")
    called = call(fake_program, "run", "--fail-fast", ".")
    assert (called.status, called.totals) == (2, {"pass": 127, "error": 1, "not run": 2})


def start(fake_program: Path, folder: Path, *words: str) -> "subprocess.Popen[bytes]":
    """A call of pdsuite whose program stalls, once it does."""
    environment = {**os.environ, "PDSUITE_PROGRAMS": str(fake_program)}
    process = subprocess.Popen(
        [TOP / "pdsuite", "run", *words, "."],
        cwd=folder,
        env=environment,
        stdout=subprocess.PIPE,
        stderr=subprocess.PIPE,
    )
    wait_for(folder / "mark", process)
    return process


@pytest.mark.parametrize(("number", "status"), [(signal.SIGINT, 130), (signal.SIGTERM, 143), (signal.SIGHUP, 129)])
def test_a_signal_ends_the_program_and_shows_what_is_settled(
    number: signal.Signals, status: int, tmp_path: Path, fake_program: Path
) -> None:
    for script in range(70):
        write(tmp_path, **{f"s{script:02}": b"row fail 1 seq\n" if script == 3 else PASSES})
    write(tmp_path, t=b"stall mark\n")
    got, out, err = ends(start(fake_program, tmp_path, "--junit", "out.xml"), number)
    assert (got, err) == (status, "")
    assert out.startswith("s03.pkt:1: fail seq\n  row fail 1 seq\ntotal 71 pass 63 fail 1 ")
    assert " not run 7 in " in out
    assert not is_alive(int((tmp_path / "mark").read_text()))
    assert (tmp_path / "out.xml").read_bytes().count(b"<testcase ") == 71


def test_a_reader_that_goes_away_ends_it_without_a_traceback(tmp_path: Path, fake_program: Path) -> None:
    for script in range(70):
        write(tmp_path, **{f"s{script:02}": b"row fail 1 seq\n"})
    write(tmp_path, t=b"stall mark\n")
    process = start(fake_program, tmp_path, "--workers", "1")
    assert process.stdout is not None
    process.stdout.close()
    process.stdout = None
    process.send_signal(signal.SIGTERM)
    _, err = process.communicate(timeout=HANGS)
    assert (process.returncode, err) == (2, b"")
    assert not is_alive(int((tmp_path / "mark").read_text()))


def test_a_program_stands_in_a_process_group_of_its_own(tmp_path: Path, fake_program: Path) -> None:
    write(tmp_path, t=b"stall mark\n")
    process = start(fake_program, tmp_path)
    number = int((tmp_path / "mark").read_text())
    assert os.getpgid(number) == number
    assert ends(process, signal.SIGINT)[0] == 130
    assert not is_alive(number)


def test_programs_end_where_the_client_is_killed(tmp_path: Path, fake_program: Path) -> None:
    write(tmp_path, a=PASSES)
    with Watching(tmp_path, fake_program, ".") as watching:
        started = watching.programs()
        os.kill(watching.process, signal.SIGKILL)
        until = time.monotonic() + HANGS
        while any(map(is_alive, started)):
            assert time.monotonic() < until
            time.sleep(0.01)
    assert started


@pytest.mark.parametrize("words", [(), ("--workers", "3")])
def test_each_group_of_settings_is_one_run_with_its_words(
    words: tuple[str, ...], tmp_path: Path, fake_program: Path, call: Call
) -> None:
    folder = wrapped(tmp_path / "programs", fake_program, runs='echo "$*" >>words', explains='echo "$*" >>words')
    write(tmp_path / "suite", a=PASSES, c=PASSES)
    write(tmp_path / "suite/in", b=PASSES)
    (tmp_path / "suite/pdsuite.toml").write_text("root = true\n")
    (tmp_path / "suite/in/pdsuite.toml").write_text("mss = 1000\n")
    assert call(folder, "run", *words, "suite").totals == {"pass": 3}
    run = "--explain --leftovers --json --cache 1"
    assert sorted((tmp_path / "words").read_text().splitlines()) == ["", run, f"{run} --settings mss = 1000"]


@pytest.mark.parametrize(("workers", "most"), [(0, 1), (1, 1), (3, 3)])
def test_so_many_programs_run_side_by_side(
    workers: int, most: int, tmp_path: Path, fake_program: Path, call: Call
) -> None:
    """Each notes how many there are when it ends: after it has waited for as many as may be there."""
    waits = f'touch "on.$$"; for it in $(seq 100); do [ "$(ls on.* | wc -l)" -ge {most} ] && break; sleep 0.05; done'
    notes = f'{waits}; ls on.* | wc -l >>counts; "$0.py" "$@"; status=$?; rm "on.$$"; exit $status'
    folder = wrapped(tmp_path / "programs", fake_program, explains=notes)
    for number in range(most):
        write(tmp_path / f"suite/in{number}", a=PASSES, b=b"row fail 1 seq\n")
        (tmp_path / f"suite/in{number}/pdsuite.toml").write_text(f"mss = {1_000 + number}\n")
    called = call(folder, "run", "--workers", str(workers), "suite")
    assert called.totals == {"pass": most, "fail": most}
    assert called.rows == [f"suite/in{number}/b.pkt:1: fail seq" for number in range(most)]
    assert max(map(int, (tmp_path / "counts").read_text().split())) == most


def test_it_reads_while_it_writes(tmp_path: Path, fake_program: Path, call: Call) -> None:
    loud = "head -c 3000000 /dev/zero | tr '\\0' y >&2; echo >&2"
    folder = wrapped(tmp_path / "programs", fake_program, runs=loud, explains=loud)
    for number in range(64):
        write(tmp_path / "suite", **{f"s{number}": PASSES + b"x" * 60_000})
    called = call(folder, "run", "suite")
    assert (called.status, called.totals) == (0, {"pass": 64})


def test_a_program_that_ends_once_while_it_is_asked_for_settings(
    fake_program: Path, tmp_path: Path, call: Call
) -> None:
    once = "[ -e once ] || { touch once; kill -9 $$; }"
    folder = wrapped(tmp_path / "programs", fake_program, runs=once)
    write(tmp_path / "suite", a=PASSES)
    called = call(folder, "run", "suite")
    assert (called.status, called.totals) == (0, {"pass": 1})


ANSWERS = [
    ("refused 11 HistoryFull", "refused 11 HistoryFull"),
    ("hello", 'answered "hello", which isn\'t the row that is due'),
]


@pytest.mark.parametrize(("answer", "reason"), ANSWERS, ids=[it[0] for it in ANSWERS])
def test_another_answer_to_a_setting_says_nothing_of_it(
    answer: str, reason: str, fake_program: Path, tmp_path: Path, call: Call
) -> None:
    (tmp_path / "pdregress").write_text(
        "#!/bin/sh\nwhile read -r word more; do case $word in\n"
        f'    set) echo "{answer}" ;;\n    add) exit 3 ;;\n'
        "    show) echo total 0 pass 0 fail 0 syntax 0 unsupported 0 limit 0 pending 0 ;;\nesac; done\n"
    )
    (tmp_path / "pdregress").chmod(0o755)
    write(tmp_path / "suite", a=PASSES)
    called = call(tmp_path, "run", "--settings", "mss = 1000", "suite")
    assert (called.status, called.out, called.err) == (2, "", f"pdsuite: pdregress: {reason}\n")


def test_a_signal_that_was_ignored_stays_ignored(tmp_path: Path, fake_program: Path) -> None:
    write(tmp_path, t=b"stall mark\n")
    before = signal.signal(signal.SIGINT, signal.SIG_IGN)  # as a shell has it for what runs in the background
    try:
        process = start(fake_program, tmp_path)
    finally:
        signal.signal(signal.SIGINT, before)
    process.send_signal(signal.SIGINT)
    assert ends(process, signal.SIGTERM)[0] == 143
    assert not is_alive(int((tmp_path / "mark").read_text()))


@pytest.mark.parametrize("words", [["run", "-v", "."], ["run", "--tap", "."], ["list", "."], ["--version"]])
def test_without_a_reader_it_ends_in_silence(words: list[str], fake_program: Path, tmp_path: Path) -> None:
    for number in range(130):
        write(tmp_path, **{f"s{number:03}": PASSES})
    environment = {**os.environ, "PDSUITE_PROGRAMS": str(fake_program)}
    reader, writer = os.pipe()
    os.close(reader)
    done = subprocess.run(
        [TOP / "pdsuite", *words], cwd=tmp_path, env=environment, stdout=writer, stderr=subprocess.PIPE, text=True
    )
    os.close(writer)
    assert done.returncode == 2
    lost = f"pdsuite: {fake_program}/pdrecord: no program (PDSUITE_PROGRAMS names the folder); nothing is recorded\n"
    assert done.stderr in ("", lost)
