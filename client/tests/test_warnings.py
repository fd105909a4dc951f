"""Scripts that pass and show nothing: a warning in every form of a report, and a failure where that is requested."""

import json
import signal
from pathlib import Path

import pytest
from junitparser import Failure, JUnitXml

from tests.helpers import OPENED, PASSES, Call, write
from tests.test_reports import parse_tap
from tests.watch_process import Watching

EMPTY = b"row pass 0\n"
LINE = "a.pkt: passes, but has no event"
STRICT = f"{LINE} (strict)"
TOTALS = "fail 0 syntax 0 unsupported 0 limit 0 error 0 not run 0"


def make(folder: Path, toml: str = "") -> None:
    """A script without an event beside one with an event."""
    write(folder, a=EMPTY, b=b"row pass 2\n")
    (folder / "pdsuite.toml").write_text(f"root = true\n{toml}")


def test_a_script_without_an_event_is_named_and_counted(fake_program: Path, tmp_path: Path, call: Call) -> None:
    make(tmp_path)
    called = call(fake_program, "run", ".")
    assert called.status == 0
    assert called.out.startswith(f"{LINE}\ntotal 2 pass 2 {TOTALS} warnings 1 in ")
    called = call(fake_program, "run", "-v", ".")
    assert called.out.startswith(f"a.pkt: pass 0\n{LINE}\nb.pkt: pass 2\ntotal 2 pass 2 {TOTALS} warnings 1 in ")


def test_without_a_warning_nothing_is_counted(fake_program: Path, tmp_path: Path, call: Call) -> None:
    write(tmp_path, b=b"row pass 2\n", c=b"row fail 1 seq\n")
    out = call(fake_program, "run", "--strict", ".").out
    assert "warning" not in out and "total 2 pass 1 fail 1 syntax 0" in out
    assert "warning" not in call(fake_program, "run", "--json", ".").out


STRICTNESS = [
    (["--strict"], "", 1),
    (["--strict"], "strict = false\n", 1),
    ([], "strict = true\n", 1),
    ([], '["a.pkt"]\nstrict = true\n', 1),
    ([], 'strict = true\n["a.pkt"]\nstrict = false\n', 0),
    ([], '["b.pkt"]\nstrict = true\n', 0),
]


@pytest.mark.parametrize(("words", "toml", "status"), STRICTNESS, ids=range(len(STRICTNESS)))
def test_where_it_is_strict_a_warning_fails(
    words: list[str], toml: str, status: int, fake_program: Path, tmp_path: Path, call: Call
) -> None:
    make(tmp_path, toml)
    called = call(fake_program, "run", *words, ".")
    assert (called.status, called.err) == (status, "")
    assert called.out.startswith(f"{STRICT if status else LINE}\ntotal 2 pass 2 {TOTALS} warnings 1 in ")


def test_it_ends_a_run_that_is_to_fail_fast(fake_program: Path, tmp_path: Path, call: Call) -> None:
    write(tmp_path, **{f"s{number:03}": EMPTY if number == 70 else PASSES for number in range(200)})
    assert call(fake_program, "run", "--fail-fast", ".").totals == {"pass": 200}
    called = call(fake_program, "run", "--fail-fast", "--strict", ".")
    assert (called.status, called.totals) == (1, {"pass": 128, "not run": 72})


def test_tap_tells_it_before_its_test(fake_program: Path, tmp_path: Path, call: Call) -> None:
    make(tmp_path)
    called = call(fake_program, "run", "--tap", ".")
    assert called.out.splitlines()[2:5] == [f"# {LINE}", "ok 1 a.pkt", "ok 2 b.pkt"]
    tests, _ = parse_tap(tmp_path, call(fake_program, "run", "--tap", "--strict", ".").out)
    assert [it[0] for it in tests] == ["0", "1"]


def test_json_lists_it(fake_program: Path, tmp_path: Path, call: Call) -> None:
    make(tmp_path)
    for is_strict in (False, True):
        words = ["--strict"] if is_strict else []
        report = json.loads(call(fake_program, "run", "--json", *words, ".").out)
        first, second = report["scripts"]
        assert (first["verdict"], first["warnings"], first["strict"]) == ("pass", ["has no event"], is_strict)
        assert "warnings" not in second and "strict" not in second
        assert report["total"]["warnings"] == 1


def test_junit_says_it_beside_its_case(fake_program: Path, tmp_path: Path, call: Call) -> None:
    make(tmp_path)
    call(fake_program, "run", "--junit", "out.xml", ".")
    (suite,) = JUnitXml.fromfile(str(tmp_path / "out.xml"))
    assert [(it.system_err, it.result) for it in suite] == [(LINE, []), (None, [])]
    call(fake_program, "run", "--junit", "out.xml", "--strict", ".")
    (suite,) = JUnitXml.fromfile(str(tmp_path / "out.xml"))
    first, second = suite
    (result,) = first.result
    assert (type(result), result.message, result.type) == (Failure, STRICT, "warning")
    assert (suite.failures, second.result) == (1, [])


def test_github_has_an_annotation_of_it(fake_program: Path, tmp_path: Path, call: Call) -> None:
    make(tmp_path)
    first = call(fake_program, "run", "--github", ".").out.splitlines()[0]
    assert first == f"::warning file=a.pkt,title=passes%2C but has no event::{LINE}"
    first = call(fake_program, "run", "--github", "--strict", ".").out.splitlines()[0]
    assert first == f"::error file=a.pkt,title=passes%2C but has no event (strict)::{STRICT}"


def test_the_page_shows_it(fake_program: Path, tmp_path: Path, call: Call) -> None:
    make(tmp_path)
    call(fake_program, "run", "--html", "page", ".")
    table = (tmp_path / "page/index.html").read_text()
    assert table.count("passes, but has no event") == 1
    (page,) = (tmp_path / "page/scripts").glob("a-*.html")
    assert "0 events: it passes, but has no event" in page.read_text()


def test_while_scripts_are_watched_it_comes_and_goes(fake_program: Path, tmp_path: Path) -> None:
    make(tmp_path)
    with Watching(tmp_path, fake_program, ".") as watching:
        assert watching.out.startswith(f"{LINE}\ntotal 2 pass 2 {TOTALS} warnings 1 in ")
        write(tmp_path, b=EMPTY)
        watching.await_out(f"b.pkt: pass 0\n{LINE.replace('a.pkt', 'b.pkt')}\ntotal 2 pass 2 {TOTALS} warnings 2 in ")
        write(tmp_path, a=b"row pass 3\n")
        watching.await_out(f"a.pkt: pass 3\ntotal 2 pass 2 {TOTALS} warnings 1 in ")
        (tmp_path / "pdsuite.toml").write_text("root = true\nstrict = true\n")
        watching.await_out(f"b.pkt: pass 0\n{STRICT.replace('a.pkt', 'b.pkt')}\n")
        (tmp_path / "pdsuite.toml").write_text("root = true\n")
        watching.await_out("b.pkt: pass 0\n", 3)


UNMATCHED = "3 packets stand untaken at its end"
ENDS = b"row pass 2\nends it awaits no packet, and 3 packets stand untaken at its end\n"
BOTH = f"awaits no packet, and {UNMATCHED}"
ENDS_LINE = f"a.pkt: passes, but {BOTH}"


def test_what_stands_untaken_at_an_end_and_that_no_packet_is_awaited_are_warned_of(
    fake_program: Path, tmp_path: Path, call: Call
) -> None:
    write(tmp_path, a=ENDS, b=b"row pass 2\nends 1 packet stands untaken at its end\n", c=b"row pass 3\n")
    called = call(fake_program, "run", ".")
    lines = [ENDS_LINE, "b.pkt: passes, but 1 packet stands untaken at its end"]
    assert (called.status, called.warnings) == (0, lines)
    assert f"total 3 pass 3 {TOTALS} warnings 2 in " in called.out
    called = call(fake_program, "run", "--strict", ".")
    assert (called.status, called.warnings) == (1, [f"{it} (strict)" for it in lines])


def test_every_report_has_what_is_warned_of_at_an_end(fake_program: Path, tmp_path: Path, call: Call) -> None:
    write(tmp_path, a=ENDS)
    assert json.loads(call(fake_program, "run", "--json", ".").out)["scripts"][0]["warnings"] == [BOTH]
    assert call(fake_program, "run", "--tap", ".").out.splitlines()[2:4] == [f"# {ENDS_LINE}", "ok 1 a.pkt"]
    tests, _ = parse_tap(tmp_path, call(fake_program, "run", "--tap", "--strict", ".").out)
    assert [it[0] for it in tests] == ["0"]
    call(fake_program, "run", "--junit", "out.xml", "--strict", ".")
    (suite,) = JUnitXml.fromfile(str(tmp_path / "out.xml"))
    assert suite.failures == 1
    annotations = call(fake_program, "run", "--github", ".").out.splitlines()
    assert annotations[0] == f"::warning file=a.pkt,title=passes%2C but {BOTH.replace(',', '%2C')}::{ENDS_LINE}"


def test_while_scripts_are_watched_an_end_comes_and_goes(fake_program: Path, tmp_path: Path) -> None:
    write(tmp_path, a=ENDS, b=b"row pass 2\n")
    with Watching(tmp_path, fake_program, ".") as watching:
        assert watching.out.startswith(f"{ENDS_LINE}\ntotal 2 pass 2 {TOTALS} warnings 1 in ")
        write(tmp_path, b=b"row pass 2\nends it awaits no packet\n")
        watching.await_out(
            f"b.pkt: pass 2\nb.pkt: passes, but awaits no packet\ntotal 2 pass 2 {TOTALS} warnings 2 in "
        )
        write(tmp_path, a=b"row pass 2\n")
        watching.await_out(f"a.pkt: pass 2\ntotal 2 pass 2 {TOTALS} warnings 1 in ")
        (tmp_path / "pdsuite.toml").write_text("root = true\nstrict = true\n")
        watching.await_out("b.pkt: pass 2\nb.pkt: passes, but awaits no packet (strict)\n")
        assert watching.ends(signal.SIGINT).status == 1


@pytest.mark.parametrize(("words", "status"), [([], 0), (["--strict"], 1)])
def test_the_status_of_a_watch_is_that_of_a_run(
    words: list[str], status: int, fake_program: Path, tmp_path: Path
) -> None:
    make(tmp_path)
    with Watching(tmp_path, fake_program, *words, ".") as watching:
        assert watching.ends(signal.SIGINT).status == status


def test_by_the_program_an_empty_script_and_one_of_comments_are_warned_of(
    programs: Path, tmp_path: Path, call: Call
) -> None:
    write(tmp_path, a=b"", b=b"// x\n", c=PASSES, d=b"/* one\n */\n\n")
    called = call(programs, "run", ".")
    warned = [f"{name}.pkt: passes, but has no event" for name in "abd"]
    assert called.warnings == [*warned[:2], "c.pkt: passes, but awaits no packet", warned[2]]
    assert called.status == 0
    assert call(programs, "run", "--strict", ".").status == 1


def test_by_the_program_a_script_that_was_cut_short_is_warned_of(programs: Path, tmp_path: Path, call: Call) -> None:
    write(tmp_path, a=OPENED + b"+0 write(4, ..., 3000) = 3000\n", b=OPENED)
    called = call(programs, "run", ".")
    assert (called.status, called.warnings) == (0, [f"a.pkt: passes, but {UNMATCHED}"])
    assert call(programs, "run", "--strict", ".").status == 1
