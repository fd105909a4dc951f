"""`pdsuite run --scheduler`, with schedulers and workers on 127.0.0.1: what is printed is what is printed without."""

import os
import re
import shutil
import signal
import socket
import subprocess
import sys
import time
from collections.abc import Callable, Iterator
from pathlib import Path

import pytest

from pdsuite.faults import Fault
from pdsuite.packages import raise_if_module_missing
from tests.cluster_fixture import LocalCluster, number_of
from tests.helpers import FAILS, HANGS, PASSES, TOP, Call, ends, wait_for, write

pytest.importorskip("distributed", reason="python3-distributed isn't installed")

_SECONDS = re.compile(r' in [0-9.]+ s$|"seconds": [0-9.]+|time="[0-9.]+"|timestamp="[0-9T:-]+"', re.MULTILINE)
Add = Callable[..., LocalCluster]

# pdsuite, but for how long it waits for a worker: on a busy machine a nanny takes its time.
_PATIENT = f"""
import sys
sys.path.insert(0, {str(TOP / "client")!r})
from pdsuite import main
from pdsuite.run import cluster
cluster._PATIENCE = {HANGS}
sys.exit(main.main())
"""


@pytest.fixture
def started(tmp_path: Path) -> Iterator[Add]:
    """Starts a scheduler with a worker for each folder of programs."""
    clusters: list[LocalCluster] = []

    def start(*folders: Path, more: tuple[str, ...] = ()) -> LocalCluster:
        clusters.append(LocalCluster(tmp_path / f"cluster{len(clusters)}"))
        for folder in folders:
            clusters[-1].add(folder, *more)
        clusters[-1].wait()
        return clusters[-1]

    yield start
    for cluster in clusters:
        cluster.close()


@pytest.fixture(scope="module")
def pair(programs: Path, tmp_path_factory: pytest.TempPathFactory) -> Iterator[LocalCluster]:
    """Two workers with the built programs, which no test ends."""
    cluster = LocalCluster(tmp_path_factory.mktemp("pair") / "cluster")
    try:
        for _ in range(2):
            cluster.add(programs)
        cluster.wait()
        yield cluster
    finally:
        cluster.close()


def popen(address: str, programs: Path, folder: Path, *words: str) -> "subprocess.Popen[bytes]":
    """A call of pdsuite beside a scheduler that isn't waited for."""
    command = [str(TOP / "pdsuite"), "run", "--scheduler", address, *words]
    environment = {**os.environ, "PDSUITE_PROGRAMS": str(programs)}
    return subprocess.Popen(command, 0, cwd=folder, env=environment, stdout=subprocess.PIPE, stderr=subprocess.PIPE)


def first_row(process: "subprocess.Popen[bytes]") -> bytes:
    """The first line that is printed: the answer of the run that holds it is here."""
    assert process.stdout is not None
    return process.stdout.readline()


@pytest.mark.parametrize("form", ["-v", "--json"])
def test_reports_are_those_without_a_cluster(
    form: str, pair: LocalCluster, programs: Path, tmp_path: Path, call: Call
) -> None:
    (tmp_path / "scripts").symlink_to(TOP / "examples/scripts")
    (tmp_path / "linux").symlink_to(TOP / "examples/linux")
    write(tmp_path / "more", wide=b"x" * 70_000, empty=b"")
    (tmp_path / "more/dangling.pkt").symlink_to("nowhere")
    (tmp_path / "more" / os.fsdecode(b"\xff a.pkt")).write_bytes(FAILS)
    words = ["run", form, "--junit", "out.xml", "scripts", "linux", "more"]
    here = call(programs, *words)
    file = (tmp_path / "out.xml").read_text()
    there = call(programs, *words, "--scheduler", pair.address)
    assert (there.status, there.err) == (here.status, here.err) == (2, "")
    assert _SECONDS.sub("", there.out) == _SECONDS.sub("", here.out)
    assert _SECONDS.sub("", (tmp_path / "out.xml").read_text()) == _SECONDS.sub("", file)


def test_many_scripts_come_in_the_order_of_paths_with_their_settings(
    pair: LocalCluster, programs: Path, tmp_path: Path, call: Call
) -> None:
    for number in range(700):
        write(tmp_path / f"f{number % 7}", **{f"s{number}": FAILS if number % 5 == 0 else PASSES})
    for number in range(7):
        (tmp_path / f"f{number}/pdsuite.toml").write_text(f"root = true\nmss = {1_000 + number % 3}\n")
    here = call(programs, "run", "-v", ".")
    there = call(programs, "run", "-v", "--scheduler", pair.address, ".")
    assert (there.rows, there.totals, there.status) == (here.rows, here.totals, here.status)
    assert there.totals == {"pass": 560, "fail": 140}


def test_fail_fast_leaves_out_what_it_does_on_one_machine(
    pair: LocalCluster, programs: Path, tmp_path: Path, call: Call
) -> None:
    for number in range(1_500):
        write(tmp_path, **{f"s{number:04}": FAILS if number in (700, 800) else PASSES})
    there = call(programs, "run", "--fail-fast", "--scheduler", pair.address, ".")
    assert (there.status, there.rows) == (1, ["s0700.pkt:1: fail result"])
    assert there.totals == {"pass": 703, "fail": 1, "not run": 796}


def test_programs_that_end_are_told_of_as_on_one_machine(
    started: Add, fake_program: Path, tmp_path: Path, call: Call
) -> None:
    for number in range(130):
        write(tmp_path, **{f"s{number:03}": b"crash\n" if number == 70 else PASSES})
    write(tmp_path, t=b"row fail 1 seq\ncrash\n", u=b"row syntax 1\n below\n")
    here = call(fake_program, "run", ".")
    there = call(fake_program, "run", "--scheduler", started(fake_program).address, ".")
    assert (there.status, there.err, there.rows) == (here.status, here.err, here.rows)
    assert there.totals == {"pass": 129, "fail": 1, "syntax": 1, "error": 1}


def test_explanations_are_those_of_one_machine(started: Add, fake_program: Path, tmp_path: Path, call: Call) -> None:
    write(tmp_path, a=b"row fail 2 seq\n+0 > . 1:2(1) ack 1\n", b=PASSES, c=b"row limit 1\n+\n")
    here = call(fake_program, "run", "--json", ".")
    there = call(fake_program, "run", "--json", "--scheduler", started(fake_program).address, ".")
    assert there.out.count('"explanation": ') == 2 and (there.status, there.err) == (1, "")
    assert _SECONDS.sub("", there.out) == _SECONDS.sub("", here.out)


def test_a_worker_that_ends_in_the_midst_has_its_runs_done_elsewhere(
    started: Add, fake_program: Path, tmp_path: Path, call: Call
) -> None:
    for number in range(1_200):
        write(tmp_path, **{f"s{number:04}": f"row fail {number + 1} seq\n".encode() if number % 100 == 9 else PASSES})
    here = call(fake_program, "run", "-v", ".")
    write(tmp_path, s0003=f"orphan {tmp_path}/mark".encode())
    cluster = started(fake_program, fake_program)
    there = call(fake_program, "run", "-v", "--scheduler", cluster.address, ".")
    assert (tmp_path / "mark").exists()
    assert sorted(it.is_alive() for it in cluster.workers) == [False, True]
    assert (there.status, there.err, there.rows) == (here.status, here.err, here.rows)
    assert there.totals == {"pass": 1_188, "fail": 12}


def test_a_worker_that_its_nanny_starts_again_is_used_again(started: Add, fake_program: Path, tmp_path: Path) -> None:
    write(tmp_path, a=f"orphan {tmp_path}/mark".encode(), b=PASSES)
    cluster = started(fake_program, more=("--nanny",))
    words = [sys.executable, "-I", "-c", _PATIENT, "run", "--scheduler", cluster.address, "."]
    environment = {**os.environ, "PDSUITE_PROGRAMS": str(fake_program)}
    there = subprocess.run(words, cwd=tmp_path, env=environment, capture_output=True, text=True, timeout=HANGS)
    assert (there.returncode, there.stderr) == (0, "")
    assert there.stdout.startswith("total 2 pass 2 ")
    assert (tmp_path / "mark").exists()


def test_a_run_that_ends_three_workers_is_an_error(
    started: Add, fake_program: Path, tmp_path: Path, call: Call
) -> None:
    write(tmp_path, a=PASSES, b=b"orphan\n")
    cluster = started(fake_program, fake_program, fake_program, fake_program)
    there = call(fake_program, "run", "--scheduler", cluster.address, ".")
    assert (there.status, there.err) == (2, "")
    assert there.rows == [f"{it}.pkt: error: 3 workers ended that had it" for it in "ab"]
    assert sum(it.is_alive() for it in cluster.workers) == 1


def test_without_a_worker_left_runs_are_errors(started: Add, fake_program: Path, tmp_path: Path, call: Call) -> None:
    write(tmp_path, a=b"orphan\n", b=PASSES)
    begin = time.monotonic()
    there = call(fake_program, "run", "--scheduler", started(fake_program).address, ".")
    assert (there.status, there.err) == (2, "")
    assert there.rows == [f"{it}.pkt: error: no worker is left" for it in "ab"]
    assert time.monotonic() - begin > 10


def test_a_worker_with_other_programs_is_named_and_not_used(
    started: Add, fake_program: Path, tmp_path: Path, call: Call
) -> None:
    for number in range(1_200):
        write(tmp_path / "suite", **{f"s{number:04}": PASSES})
    other = tmp_path / "other"
    shutil.copytree(fake_program, other)
    (other / "pdregress").write_text(f"#!/bin/sh\ntouch {tmp_path}/used\n")
    cluster = started(other, fake_program)
    address, _ = cluster.wait()
    there = call(fake_program, "run", "--scheduler", cluster.address, "suite")
    assert (there.status, there.totals) == (0, {"pass": 1_200})
    assert there.err == f"pdsuite: worker {address} isn't used: {other}/pdregress has another SHA-256\n"
    assert not (tmp_path / "used").exists()


def test_a_cluster_of_other_programs_alone_is_a_fault(
    started: Add, fake_program: Path, tmp_path: Path, call: Call
) -> None:
    write(tmp_path / "suite", a=PASSES)
    cluster = started(tmp_path / "nowhere")
    there = call(fake_program, "run", "--scheduler", cluster.address, "suite")
    assert (there.status, there.out) == (2, "")
    first, second = there.err.splitlines()
    assert first.endswith(f" isn't used: no program {tmp_path}/nowhere/pdregress")
    assert second == f"pdsuite: {cluster.address}: no worker that can be used"


@pytest.mark.parametrize("number", [signal.SIGKILL, signal.SIGTERM])
def test_a_scheduler_that_goes_away_is_said_with_what_is_settled(
    number: signal.Signals, started: Add, fake_program: Path, tmp_path: Path
) -> None:
    suite = tmp_path / "suite"
    for script in range(512):
        write(suite, **{f"s{script:04}": b"row fail 1 seq\n" if script == 3 else PASSES})
    write(suite, t=f"stall {tmp_path}/mark".encode())
    cluster = started(fake_program)
    process = popen(cluster.address, fake_program, suite, "--junit", "out.xml", ".")
    wait_for(tmp_path / "mark")
    assert first_row(process) == b"s0003.pkt:1: fail seq\n"
    os.kill(number_of(cluster.scheduler), number)
    out, err = process.communicate(timeout=HANGS)
    assert (process.returncode, err.decode()) == (2, f"pdsuite: {cluster.address}: the scheduler went away\n")
    assert b"total 513 pass 511 fail 1 syntax 0 unsupported 0 limit 0 error 0 not run 1 in " in out
    assert (suite / "out.xml").read_bytes().count(b"<testcase ") == 513


# A coroutine of the library that is left, and whose end can't be known, as where a scheduler has gone.
LEFT = """
import sys, types
from distributed import utils
from pdsuite.run import cluster

@types.coroutine
def pause():
    yield

async def left():
    with utils.log_errors(unroll_stack=1_000):
        await pause()

if sys.argv[1:]:
    cluster._silence_library()
coroutine = left()
coroutine.send(None)
del coroutine
"""


@pytest.mark.parametrize(("words", "is_quiet"), [(("quiet",), True), ((), False)])
def test_what_the_library_leaves_says_nothing(words: tuple[str, ...], is_quiet: bool) -> None:
    done = subprocess.run([sys.executable, "-c", LEFT, *words], cwd=TOP / "client", capture_output=True, text=True)
    assert done.returncode == 0 and ("IndexError" in done.stderr) is not is_quiet, done.stderr


def test_a_signal_shows_what_is_settled(started: Add, fake_program: Path, tmp_path: Path) -> None:
    suite = tmp_path / "suite"
    for script in range(512):
        write(suite, **{f"s{script:04}": b"row fail 1 seq\n" if script == 3 else PASSES})
    write(suite, t=f"stall {tmp_path}/mark".encode())
    process = popen(started(fake_program).address, fake_program, suite, ".")
    wait_for(tmp_path / "mark")
    assert first_row(process) == b"s0003.pkt:1: fail seq\n"
    status, out, err = ends(process, signal.SIGINT)
    assert (status, err) == (130, "")
    assert "total 513 pass 511 fail 1 " in out and " not run 1 in " in out


def test_a_scheduler_that_is_not_reached_is_a_fault_with_its_address(fake_program: Path, tmp_path: Path) -> None:
    write(tmp_path, a=PASSES)
    silent = socket.create_server(("127.0.0.1", 0))
    closed = socket.create_server(("127.0.0.1", 0))
    places = [f"127.0.0.1:{it.getsockname()[1]}" for it in (silent, closed)]
    closed.close()
    for process, place in [(popen(place, fake_program, tmp_path, "."), place) for place in places]:
        out, err = process.communicate(timeout=HANGS)
        assert (process.returncode, out) == (2, b"")
        assert err.startswith(f"pdsuite: {place}: no scheduler is reached within 10 s: ".encode())
        assert err.count(b"\n") == 1
    silent.close()


@pytest.mark.parametrize("place", ["nowhere", "odd://127.0.0.1:1", "127.0.0.1:x", ""])
def test_what_is_no_address_is_said(place: str, fake_program: Path, tmp_path: Path, call: Call) -> None:
    write(tmp_path, a=PASSES)
    called = call(fake_program, "run", "--scheduler", place, ".")
    assert (called.status, called.out) == (2, "")
    assert called.err.startswith(f"pdsuite: {place}: no address of a scheduler: ")
    assert called.err.count("\n") == 1


def test_workers_of_this_machine_are_not_asked_for_beside_a_scheduler(fake_program: Path, call: Call) -> None:
    called = call(fake_program, "run", "--workers", "2", "--scheduler", "127.0.0.1:1", ".")
    assert called.status == 2
    assert called.err.endswith("Error: --workers is of this machine, and --scheduler runs scripts elsewhere\n")


def test_a_package_that_is_missing_is_named() -> None:
    with pytest.raises(Fault, match="^python3-nowhere isn't installed: apt-get install --no-install-recommends "):
        raise_if_module_missing("nowhere")
    raise_if_module_missing("click")
