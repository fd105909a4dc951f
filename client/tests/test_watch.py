"""`pdsuite watch` by the built program: whatever happens to the files, its last report is that of `pdsuite run`."""

import os
import pty
import random
import re
import select
import shutil
import signal
import subprocess
import time
from pathlib import Path

import pytest

from tests.helpers import FAILS, HANGS, PASSES, TOP, Call, is_alive, wait_for, write
from tests.test_random_changes import act
from tests.watch_process import Watching

ROW = "a.pkt:1: fail result\n"
BLOCK = f"""\
a.pkt:1: fail result: the call has another result
  call: {FAILS.decode().strip()}
  expected result: 4
  actual result: 3
"""
AWAITS_NONE = "passes, but awaits no packet"


def total(warnings: int = 0, **counts: int) -> str:
    """The line of totals, up to its time."""
    each = {"pass": 0, "fail": 0, "syntax": 0, "unsupported": 0, "limit": 0, "error": 0, "not run": 0, **counts}
    message = [f"{verdict} {count}" for verdict, count in each.items()] + [f"warnings {warnings}"] * bool(warnings)
    return f"total {sum(counts.values())} {' '.join(message)} in "


def without_times(out: str) -> list[str]:
    """The lines that were printed, and of the totals what stays the same."""
    return [line.rsplit(" in ")[0] + " in " if line.startswith("total ") else line for line in out.splitlines()]


def heads(lines: list[str]) -> list[str]:
    """The lines that aren't indented."""
    return [line for line in lines if not line.startswith("  ")]


@pytest.mark.parametrize(("number", "last"), [(signal.SIGINT, PASSES), (signal.SIGTERM, FAILS)])
def test_a_save_shows_its_row_and_a_signal_ends_it_with_the_last_status(
    number: signal.Signals, last: bytes, programs: Path, tmp_path: Path
) -> None:
    write(tmp_path, a=PASSES, b=PASSES)
    with Watching(tmp_path, programs, ".") as watching:
        runs = watching.programs()
        assert len(runs) == 1
        write(tmp_path, a=FAILS)
        watching.await_out(ROW + BLOCK)
        watching.await_out(total(1, **{"pass": 1, "fail": 1}))
        write(tmp_path, b=PASSES)
        time.sleep(1)
        write(tmp_path, a=last + b"// and a comment\n")
        watching.await_out("a.pkt: pass 1\n" if last == PASSES else ROW)
        ended = watching.ends(number)
    changed = ["a.pkt: pass 1", f"a.pkt: {AWAITS_NONE}", total(2, **{"pass": 2})] if last == PASSES else []
    assert heads(without_times(ended.out)) == [
        f"a.pkt: {AWAITS_NONE}",
        f"b.pkt: {AWAITS_NONE}",
        total(2, **{"pass": 2}),
        ROW.strip(),
        BLOCK.splitlines()[0],
        total(1, **{"pass": 1, "fail": 1}),
        *changed,
    ]
    assert (ended.status, ended.err) == (0 if last == PASSES else 1, "")
    assert not any(map(is_alive, runs))


def test_what_does_not_pass_comes_first_then_what_passes_and_what_went(programs: Path, tmp_path: Path) -> None:
    write(tmp_path, a=FAILS, b=PASSES, c=PASSES)
    with Watching(tmp_path, programs, ".") as watching:
        (tmp_path / "pdsuite.toml").write_text("root = true\n")
        os.kill(watching.process, signal.SIGSTOP)
        write(tmp_path, a=PASSES, b=b"?\n")
        (tmp_path / "c.pkt").unlink()
        time.sleep(0.1)
        os.kill(watching.process, signal.SIGCONT)
        watching.await_truth(".")
        lines = without_times(watching.out)
    first = lines.index(total(2, **{"pass": 2, "fail": 1}))
    news = lines[first + 1 :]
    reported = news.index("b.pkt:1: syntax: expected an option of the header, a command, a time or the end of the text")
    assert news[reported + 1] == "  ?"
    rows = [it for it in heads([*news[:reported], *news[reported + 1 :]]) if not it.startswith("total ")]
    assert rows == ["b.pkt:1: syntax", "a.pkt: pass 1", f"a.pkt: {AWAITS_NONE}", "c.pkt: gone"]


@pytest.mark.parametrize("seed", range(6))
def test_after_random_changes_the_last_report_is_that_of_a_run(seed: int, programs: Path, tmp_path: Path) -> None:
    chance = random.Random(1_000 + seed)
    top = tmp_path / "top"
    write(top, a=PASSES)
    (top / "pdsuite.toml").write_text("root = true\n")
    with Watching(tmp_path, programs, "-v", "top") as watching:
        for _ in range(60):
            act(chance, top)
            time.sleep(chance.choice((0, 0, 0.01, 0.06)))
        for toml in top.rglob("pdsuite.toml"):
            toml.write_text(toml.read_text().replace("mss = 7", "mss = 70").replace("mss = 9", "mss = 90"))
            for name in re.findall(r'\["(.*)"\]', toml.read_text()):
                if (toml.parent / name).is_symlink():
                    (toml.parent / name).unlink()
                (toml.parent / name).touch()
        (top / "pdsuite.toml").write_text("root = true\nwscale = 4\n")
        watching.await_truth("top")


def test_saves_as_editors_do_them_are_edits(programs: Path, tmp_path: Path) -> None:
    path = tmp_path / "a.pkt"
    write(tmp_path, a=PASSES)
    with Watching(tmp_path, programs, ".") as watching:
        (tmp_path / "a.pkt.new").write_bytes(FAILS)
        (tmp_path / "a.pkt.new").replace(path)
        watching.await_out(ROW)
        begin = time.monotonic()
        path.rename(tmp_path / "a.pkt~")
        path.write_bytes(PASSES)
        was_away = time.monotonic() - begin
        (tmp_path / "a.pkt~").unlink()
        watching.await_out("a.pkt: pass 1\n")
        begin = time.monotonic()
        with path.open("wb") as file:
            file.write(PASSES + b"+0 bind(3, ...")
            file.flush()
            time.sleep(0.2)
            file.write(b", ...) = 0\n")
        was_written = time.monotonic() - begin
        watching.await_out("a.pkt: pass 2\n")
        watching.await_truth(".")
        # A busy machine may hold up whoever saves.
        assert ": gone" not in watching.out or was_away > 0.04
        assert ": syntax" not in watching.out or was_written > 0.4


def test_a_git_checkout_over_three_hundred_files(programs: Path, tmp_path: Path) -> None:
    git = ["git", "-C", str(tmp_path), "-c", "user.name=a", "-c", "user.email=a@b"]
    subprocess.run([*git, "init", "-q", "-b", "one"], check=True)
    write(tmp_path / "in", **{f"s{it}": PASSES for it in range(300)})
    subprocess.run([*git, "add", "."], check=True)
    subprocess.run([*git, "commit", "-qm", "one"], check=True)
    subprocess.run([*git, "checkout", "-qb", "two"], check=True)
    write(tmp_path / "in", **{f"s{it}": FAILS for it in range(0, 300, 2)})
    write(tmp_path / "new", **{f"n{it}": PASSES for it in range(100)})
    for number in range(1, 100, 2):
        (tmp_path / f"in/s{number}.pkt").unlink()
    subprocess.run([*git, "add", "."], check=True)
    subprocess.run([*git, "commit", "-qm", "two"], check=True)
    with Watching(tmp_path, programs, ".") as watching:
        for branch in ("one", "two", "one", "two"):
            subprocess.run([*git, "checkout", "-q", branch], check=True)
            watching.await_truth(".")
        assert watching.err == ""


def test_a_root_folder_that_goes_and_comes_back(programs: Path, tmp_path: Path) -> None:
    write(tmp_path / "suite/in", a=PASSES)
    with Watching(tmp_path, programs, "suite") as watching:
        (tmp_path / "suite").rename(tmp_path / "elsewhere")
        watching.await_out("suite: error: No such file or directory\nsuite/in/a.pkt: gone\n")
        write(tmp_path / "elsewhere/in", a=FAILS)
        (tmp_path / "elsewhere").rename(tmp_path / "suite")
        watching.await_out("suite/in/a.pkt:1: fail result\n")
        watching.await_truth("suite")
        write(tmp_path / "suite/in", a=PASSES)
        watching.await_out("suite/in/a.pkt: pass 1\n")


def test_a_thousand_saves_in_a_second_and_twenty_thousand_while_nobody_listens(programs: Path, tmp_path: Path) -> None:
    texts = (PASSES, FAILS, PASSES.replace(b" 3", b"?3"))
    write(tmp_path, **{f"s{it}": PASSES for it in range(50)})

    def save(number: int, text: bytes) -> None:
        """Saves in place: a file system may take long to close a file that was emptied first."""
        with (tmp_path / f"s{number}.pkt").open("r+b") as file:
            file.write(text)

    with Watching(tmp_path, programs, ".") as watching:
        begin = time.monotonic()
        for number in range(1_000):
            save(number % 50, texts[number % 3])
            time.sleep(max(0.0, begin + number / 1_000 - time.monotonic()))
        watching.await_truth(".")
        os.kill(watching.process, signal.SIGSTOP)
        for number in range(20_000):
            save(number % 49, texts[number % 3])
        save(49, texts[2].upper())
        os.kill(watching.process, signal.SIGCONT)
        watching.await_truth(".")
        assert watching.err == ""


def test_more_acts_than_a_history_holds(programs: Path, tmp_path: Path) -> None:
    write(tmp_path, **{f"s{it:04}": b"" for it in range(1_000)})
    write(tmp_path, s0000=FAILS)
    with Watching(tmp_path, programs, ".") as watching:
        for number in range(34):
            beside = tmp_path / "beside"
            beside.write_text(f"mss = {1_000 + number}\n")
            beside.replace(tmp_path / "pdsuite.toml")
            write(tmp_path, s0000=FAILS if number % 2 else PASSES)
            done = "s0000.pkt:1: fail result\n" if number % 2 else "s0000.pkt: pass 1\n"
            watching.await_out(done, number // 2 + 1)
        watching.await_truth(".")
        message = re.fullmatch("pdsuite: pdregress: (.*); a new run begins with 1,000 scripts\n", watching.err)
        assert message is not None and message[1] in ("refused 11 HistoryFull", "11 HistoryFull", "12 NoWorkers")


def test_a_program_that_is_killed_is_begun_again_with_all_files(programs: Path, tmp_path: Path) -> None:
    write(tmp_path, a=PASSES, b=FAILS)
    message = "pdsuite: pdregress was ended by SIGKILL; a new run begins with 2 scripts\n"
    with Watching(tmp_path, programs, ".") as watching:
        (first,) = watching.programs()
        os.kill(first, signal.SIGKILL)
        watching.await_err(message)
        write(tmp_path, b=PASSES)
        watching.await_out("b.pkt: pass 1\n")
        (second,) = watching.programs()
        os.kill(second, signal.SIGKILL)
        write(tmp_path, a=FAILS)
        watching.await_truth(".")
        assert second != first and watching.err == message * 2
        assert [it for it in heads(watching.out.splitlines()) if it.startswith("b.pkt")] == [
            BLOCK.splitlines()[0].replace("a.pkt", "b.pkt"),
            "b.pkt: pass 1",
            f"b.pkt: {AWAITS_NONE}",
        ]


def test_a_text_over_the_limits_is_a_row_that_the_next_save_mends(programs: Path, tmp_path: Path) -> None:
    write(tmp_path, a=PASSES)
    with Watching(tmp_path, programs, ".") as watching:
        write(tmp_path, a=b"\n" * 4_097)
        watching.await_out("a.pkt: error: more than 4,096 lines\n" + total(error=1))
        write(tmp_path, a=b"\n" * 4_096)
        watching.await_out(f"a.pkt: pass 0\na.pkt: passes, but has no event\n{total(1, **{'pass': 1})}")
        (tmp_path / "a.pkt").unlink()
        (tmp_path / "a.pkt").symlink_to("nowhere")
        watching.await_out("a.pkt: error: No such file or directory\n")
        assert watching.ends(signal.SIGINT).status == 2


def test_settings_change_for_folders_and_single_scripts(programs: Path, tmp_path: Path) -> None:
    opening = (TOP / "examples/send.txt").read_bytes().split(b"\n", 1)[1]
    late = opening + b"+0.3 > P. 1:1001(1000) ack 1\n"
    write(tmp_path, one=late, two=late)
    toml = tmp_path / "pdsuite.toml"
    with Watching(tmp_path, programs, ".") as watching:
        (first,) = watching.programs()
        toml.write_text("min_rto_us = 200000\n")
        watching.await_out("one.pkt: pass 10\ntwo.pkt: pass 10\n")
        assert watching.programs() == [first]
        toml.write_text('["one.pkt"]\nmin_rto_us = 200000\n')
        watching.await_out("two.pkt:10: fail missing\n")
        watching.await_truth(".")
        assert len(watching.programs()) == 2
        toml.write_text("min_rto_us = 200000\nmss = 10\n")
        message = "pdsuite.toml:2: mss: BadValue: it takes 64 to 65,495 octets; its last good settings stay\n"
        watching.await_err(message)
        toml.unlink()
        watching.await_truth(".")
        watching.await_out("one.pkt:10: fail missing\n")


def test_folders_that_cannot_be_watched_cost_seconds_and_no_truth(programs: Path, tmp_path: Path) -> None:
    few = ("unshare", "-r", "sh", "-c", 'echo 2 >/proc/sys/user/max_inotify_watches && exec "$0" "$@"')
    if subprocess.run([*few, "true"], capture_output=True).returncode:
        pytest.skip("no user namespace here")
    for name in "abcde":
        write(tmp_path / name, a=PASSES)
    with Watching(tmp_path, programs, ".", before=few) as watching:
        for name in "abcde":
            write(tmp_path / name, a=FAILS)
        watching.await_truth(".")
        time.sleep(2.5)
        limit = "pdsuite: fs.inotify.max_user_watches is reached: what isn't watched is looked at every 2 seconds"
        assert watching.err == f"{limit}, in large folders more rarely\n"


def test_links_are_watched_and_only_what_fits_is_meant(programs: Path, tmp_path: Path) -> None:
    write(tmp_path / "far", x=PASSES)
    write(tmp_path / "suite", a=PASSES)
    (tmp_path / "suite/link.pkt").symlink_to("../far/x.pkt")
    with Watching(tmp_path, programs, "--only", "l*", "suite") as watching:
        write(tmp_path / "far", x=FAILS)
        watching.await_out("suite/link.pkt:1: fail result\n")
        write(tmp_path / "suite", a=FAILS)
        watching.await_truth("--only", "l*", "suite")


@pytest.mark.parametrize("others", [2, 0])
def test_a_script_on_which_the_program_ends_is_an_error_that_the_next_save_mends(
    others: int, fake_program: Path, tmp_path: Path
) -> None:
    write(tmp_path / "suite", b=PASSES, **dict.fromkeys("ac"[:others], PASSES))
    write(tmp_path / "far", far=PASSES)
    (tmp_path / "far/pdsuite.toml").write_text("mss = 99\n")
    with Watching(tmp_path, fake_program, ".") as watching:
        write(tmp_path / "suite", b=b"crash\n")
        watching.await_out("b.pkt: error: pdregress was ended by SIGSEGV\n")
        watching.await_out(total(**{"pass": others + 1, "error": 1}))
        begun = "3 scripts" if others else "suite/b.pkt"
        message = f"pdsuite: pdregress was ended by SIGSEGV; a new run begins with {begun}\n"
        assert watching.err == message
        write(tmp_path / "far", far=b"row fail 1 seq\n")
        watching.await_out("far.pkt:1: fail seq\n")
        write(tmp_path / "suite", b=PASSES)
        watching.await_out("b.pkt: pass 1\n")
        assert watching.err == message


def test_where_no_program_starts_all_are_errors_until_one_does(fake_program: Path, tmp_path: Path) -> None:
    shutil.copytree(fake_program, tmp_path / "bin")
    write(tmp_path / "suite", a=PASSES, b=PASSES)
    with Watching(tmp_path, tmp_path / "bin", "suite") as watching:
        (tmp_path / "bin/dead").touch()
        os.kill(watching.programs()[0], signal.SIGKILL)
        watching.await_out("suite/b.pkt: error: pdregress: 19 OutOfMemory\n" + total(error=2))
        (tmp_path / "bin/dead").unlink()
        write(tmp_path / "suite", a=PASSES + b"\n")
        watching.await_out("suite/a.pkt: pass 1\nsuite/b.pkt: pass 1\n")


def test_a_terminal_has_a_last_line_that_tells_what_passes_and_what_is_running(
    fake_program: Path, tmp_path: Path
) -> None:
    write(tmp_path, a=PASSES, b=PASSES)
    near, far = pty.openpty()
    environment = {**os.environ, "PDSUITE_PROGRAMS": str(fake_program), "TERM": "xterm-256color"}
    process = subprocess.Popen([TOP / "pdsuite", "watch", "."], cwd=tmp_path, env=environment, stdout=far, stderr=far)
    os.close(far)
    shown = b""

    def await_shown(words: bytes) -> None:
        nonlocal shown
        while words not in shown:
            assert select.select([near], [], [], HANGS)[0], f"{words!r} didn't come, but {shown!r}"
            shown += os.read(near, 65_536)
        shown = shown[shown.index(words) + len(words) :]

    await_shown(b"running 2 scripts")
    await_shown(b"2 of 2 pass")
    write(tmp_path, a=b"row fail 1 seq\n")
    await_shown(b"2 of 2 pass, running a.pkt")
    await_shown(b"a.pkt:1: ")
    await_shown(b"fail seq")
    await_shown(b"1 of 2 pass")
    (tmp_path / "pdsuite.toml").write_text("mss\n")
    await_shown(b"pdsuite.toml:1: no TOML")
    await_shown(b"1 of 2 pass")
    process.send_signal(signal.SIGINT)
    await_shown(b"\x1b[?25h")
    os.close(near)
    assert process.wait(60) == 1


def test_a_signal_before_the_first_report_ends_it_with_its_own_status(fake_program: Path, tmp_path: Path) -> None:
    write(tmp_path, a=b"stall mark\n")
    watching = Watching(tmp_path, fake_program, ".")
    wait_for(tmp_path / "mark")
    ended = watching.ends(signal.SIGTERM)
    assert (ended.status, ended.out, ended.err) == (143, "", "")
    assert not is_alive(int((tmp_path / "mark").read_text()))


def test_a_folder_without_scripts_is_watched_for_the_first(programs: Path, tmp_path: Path) -> None:
    with Watching(tmp_path, programs, ".") as watching:
        watching.await_err("pdsuite: no script found\n")
        write(tmp_path / "in/er", a=FAILS)
        watching.await_out("in/er/a.pkt:1: fail result\n")
        assert watching.ends(signal.SIGINT).status == 1


def test_standard_input_is_not_watched() -> None:
    words = [str(TOP / "pdsuite"), "watch", "-"]
    called = subprocess.run(words, stdin=subprocess.DEVNULL, capture_output=True, timeout=30)
    message = b"pdsuite: -: standard input is read once, and nothing of it is watched\n"
    assert (called.returncode, called.stdout, called.stderr) == (2, b"", message)


def test_settings_on_the_line_that_are_refused_end_it(programs: Path, tmp_path: Path, call: Call) -> None:
    write(tmp_path, a=PASSES)
    called = call(programs, "watch", "--settings", "mss = 1", ".")
    assert (called.status, called.out, called.err) == (
        2,
        "",
        "--settings: mss: BadValue: it takes 64 to 65,495 octets\n",
    )
