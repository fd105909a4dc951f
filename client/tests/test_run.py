"""Real folders, by the built program."""

import json
import os
import shutil
import subprocess
from pathlib import Path

import pytest

from pdsuite.programs.program import Program
from pdsuite.programs.refusals import query_refusal_lines
from pdsuite.scripts.config import Claim
from pdsuite.scripts.defaults import KEYS, Number
from pdsuite.scripts.settings import Value
from pdsuite.signals import Stop
from tests.helpers import FAILS, PASSES, TOP, Call, write

EXAMPLES = TOP / "examples/scripts"
HARD = [b"a b", b"a\nb", b"\xff\xfe", b"x" * 200, b"$\\frac{$", b"a\x1b[2J", b"# SKIP", b"-v"]
HARD_SHOWN = ["a b", r"a\x0ab", r"\xff\xfe", "x" * 200, r"$\\frac{$", r"a\x1b[2J", "# SKIP", "-v"]


def expected_rows() -> list[str]:
    """The rows in the expected report of the examples, in the words of pdsuite."""
    rows = []
    for line in (EXAMPLES / "expected.txt").read_text().splitlines()[:-1]:
        name, verdict, number, *kind = line.split()
        if verdict == "pass":
            rows.append(f"{name}.pkt: pass {number}")
        else:
            rows.append(f"{name}.pkt:{number}: {' '.join([verdict, *kind])}")
    return rows


def test_the_examples_have_their_rows(programs: Path, call: Call) -> None:
    called = call(programs, "run", "-v", EXAMPLES)
    rows = [it.removeprefix(f"{EXAMPLES}/") for it in called.rows]
    assert rows == expected_rows()
    shows = {"01_listen": 0, "03_not_open": 0, "04_times": 0, "06_comments": 0, "14_no_newline": 0, "16_empty": 1}
    message = ["awaits no packet", "has no event"]
    assert called.warnings == [f"{EXAMPLES}/{name}.pkt: passes, but {message[it]}" for name, it in shows.items()]
    assert (called.status, called.err) == (1, "")


@pytest.mark.parametrize("name, awaiting_none", [("suite", []), ("linux", ["listen_unbound", "write_to_listener"])])
def test_each_script_of_these_examples_passes(programs: Path, call: Call, name: str, awaiting_none: list[str]) -> None:
    folder = TOP / "examples" / name
    called = call(programs, "run", folder)
    warnings = [f"{folder}/{it}.pkt: passes, but awaits no packet" for it in awaiting_none]
    assert (called.rows, called.warnings, called.status) == ([], warnings, 0)


def test_only_what_does_not_pass_is_shown_with_its_block(programs: Path, tmp_path: Path, call: Call) -> None:
    write(tmp_path / "in/er", good=PASSES, bad=PASSES + b"+0 bind(3, ..., ...) = 1\n", worse=b"?")
    called = call(programs, "run", "in")
    lines = called.out.splitlines()
    assert lines[:4] == [
        "in/er/bad.pkt:2: fail result: the call has another result",
        "  call: +0 bind(3, ..., ...) = 1",
        "  expected result: 1",
        "  actual result: 0",
    ]
    worse = lines.index(
        "in/er/worse.pkt:1: syntax: expected an option of the header, a command, a time or the end of the text"
    )
    assert lines[worse + 1] == "  ?"
    assert called.totals == {"pass": 1, "fail": 1, "syntax": 1}


def test_standard_input_is_a_script(programs: Path, tmp_path: Path) -> None:
    def called(*words: str | Path) -> tuple[int, list[str], str]:
        environment = {**os.environ, "PDSUITE_PROGRAMS": str(programs)}
        text = (
            b"0 socket(..., SOCK_STREAM, IPPROTO_TCP) = 3\n+0 setsockopt(3, SOL_TCP, TCP_NODELAY, [1], 4) = 0\n" + b"?"
        )
        done = subprocess.run(
            [TOP / "pdsuite", "run", *words], cwd=tmp_path, env=environment, input=text, capture_output=True, text=False
        )
        return done.returncode, done.stdout.decode().splitlines(), done.stderr.decode()

    status, lines, _ = called("-")
    assert (status, lines[0].partition(": expected")[0]) == (1, "-:3: syntax")
    (tmp_path / "pdsuite.toml").write_text("mss = 10\n")
    assert called("-")[2] == "pdsuite.toml:1: mss: BadValue: it takes 64 to 65,495 octets\n"
    assert called("-", ".") == (2, [], "pdsuite: -: standard input stands alone\n")
    assert called("--shard", "1/2", "-") == (2, [], "pdsuite: -: standard input is no part of a suite\n")


BROKEN = b"""// One
+0.1 < . 1:1(0) ack 1
// a comment

+0 accept(3, ..., ...) = 4
"""


def test_a_text_that_breaks_off_is_told_where_it_does_with_what_it_lacks(
    programs: Path, tmp_path: Path, call: Call
) -> None:
    write(tmp_path / "in", a=BROKEN, b=b"+0 bind(3, ..., ...) =\n")
    numbers = "a whole number up to 4,294,967,295, a hexadecimal number up to 0xffffffff or `-`"
    end = f"expected {numbers} at the end of the text"
    reported = ["in/a.pkt:2: syntax: expected `win`", f"in/b.pkt:1: syntax: {end}"]
    called = call(programs, "run", "--junit", "report.xml", "in")
    assert [it for it in called.out.splitlines() if ": syntax" in it] == reported
    xml = (tmp_path / "report.xml").read_text()
    assert f'line="2"><error message="{reported[0]}"' in xml and f'line="1"><error message="{reported[1]}"' in xml
    github = call(programs, "run", "--github", "in/a.pkt", GITHUB_STEP_SUMMARY=str(tmp_path / "summary"))
    assert github.out.startswith(f"::error file=in/a.pkt,line=2,title=syntax::{reported[0]}%0A")
    assert (tmp_path / "summary").read_text().endswith(r"| in\/a\.pkt | 2 | syntax | expected \`win\` |" + "\n")
    assert call(programs, "run", "--tap", "in/a.pkt").out.splitlines()[2] == f"# {reported[0]}"
    (script,) = json.loads(call(programs, "run", "--json", "in/a.pkt").out)["scripts"]
    assert (script["line"], script["explanation"]["place"]["line"]) == (5, 2)
    (tmp_path / "in/pdsuite.toml").write_text('["a.pkt"]\nexpect = "syntax 5"\nreason = "so"\n')
    assert call(programs, "run", "-v", "in/a.pkt").rows == ["in/a.pkt:2: known: syntax (so)"]


def test_what_is_printed_is_the_same_with_any_number_of_workers(programs: Path, call: Call) -> None:
    outs = {call(programs, "run", "--workers", it, "-v", EXAMPLES).out.rsplit(" in ")[0] for it in ("0", "1", "8")}
    assert len(outs) == 1


def test_names_of_any_octets_and_equal_ones_are_told_apart(programs: Path, tmp_path: Path, call: Call) -> None:
    for folder in (tmp_path / "one", tmp_path / "two"):
        folder.mkdir()
        for name in HARD:
            (folder / os.fsdecode(name + b".pkt")).write_bytes(FAILS)
    called = call(programs, "run", "one", "two")
    order = sorted(zip(HARD, HARD_SHOWN), key=lambda it: it[0] + b".pkt")
    assert called.rows == [f"{top}/{name}.pkt:1: fail result" for top in ("one", "two") for _, name in order]
    assert called.totals == {"fail": 2 * len(HARD)}


def test_files_at_the_limits_and_beyond(programs: Path, tmp_path: Path, call: Call) -> None:
    comment = b"/*" + b"x" * 65_531 + b"*/"
    write(tmp_path, empty=b"", widest=comment, widest_with_newline=comment + b"\n", wider=comment + b" \n")
    write(tmp_path, longest=b"\n" * 4_096, longer=b"\n" * 4_097, returns=PASSES.replace(b"\n", b"\r\n"))
    called = call(programs, "run", "-v", ".")
    assert called.rows == [
        "empty.pkt: pass 0",
        "longer.pkt: error: more than 4,096 lines",
        "longest.pkt: pass 0",
        "returns.pkt: pass 1",
        "wider.pkt: error: more than 65,536 octets",
        "widest.pkt: pass 0",
        "widest_with_newline.pkt: pass 0",
    ]
    assert called.status == 2


def test_a_long_line_is_cut_and_octets_are_escaped(programs: Path, tmp_path: Path, call: Call) -> None:
    write(tmp_path, a=b"\x1b]0;x\x07\xff\\" + b"y" * 60_000)
    lines = call(programs, "run", ".").out.splitlines()
    assert lines[1].startswith("  " + r"\x1b]0;x\x07\xff\yyyy") and lines[1].endswith("yyyy..")
    assert len(lines[1]) <= 204


def test_five_thousand_files(programs: Path, tmp_path: Path, call: Call) -> None:
    for number in range(5_000):
        folder = tmp_path / f"f{number // 500}"
        folder.mkdir(exist_ok=True)
        (folder / f"s{number}.pkt").write_bytes(b"?" if number == 4_321 else b"")
    called = call(programs, "run", ".")
    assert called.rows == ["f8/s4321.pkt:1: syntax"]
    assert called.totals == {"pass": 4_999, "syntax": 1}


def test_settings_change_verdicts_script_by_script(programs: Path, tmp_path: Path, call: Call) -> None:
    opening = (TOP / "examples/send.txt").read_bytes().split(b"\n", 1)[1]
    late = opening + b"+0.3 > P. 1:1001(1000) ack 1\n"
    write(tmp_path / "a", one=late, two=late)
    write(tmp_path / "b", one=late)
    (tmp_path / "pdsuite.toml").write_text("root = true\n")
    (tmp_path / "a/pdsuite.toml").write_text('["two.pkt"]\nmin_rto_us = 200000\n')
    called = call(programs, "run", "-v", "a", "b")
    assert called.rows == ["a/one.pkt:10: fail missing", "a/two.pkt: pass 10", "b/one.pkt:10: fail missing"]
    called = call(programs, "run", "--settings", "min_rto_us = 200_000", "a", "b")
    assert (called.status, called.totals) == (0, {"pass": 3})
    assert call(tmp_path / "nowhere", "list", "a", "b").out == "a/one.pkt\na/two.pkt: min_rto_us = 200000\nb/one.pkt\n"


def test_refused_settings_are_named_before_any_script_runs(programs: Path, tmp_path: Path, call: Call) -> None:
    write(tmp_path / "a", one=PASSES)
    text = 'mss = 10\nMSS = 10\n"a b" = 1\nnagle = "true"\nsack = 1\nwscale = [1]\nsndbuf = -1\nrcv_wnd = 1.5\n'
    (tmp_path / "a/pdsuite.toml").write_text(text + '["one.pkt"]\ninitial_window = "rfc1"\nmin_rto = 300\n[one]\n')
    called = call(programs, "run", "--settings", "tolerance_us = 1000001\nroot = true", "a")
    assert (called.status, called.out) == (2, "")
    assert called.err.splitlines() == [
        "--settings: tolerance_us: BadValue: it takes 0 to 1,000,000 microseconds",
        "--settings: root: UnknownKey",
        "a/pdsuite.toml:1: mss: BadValue: it takes 64 to 65,495 octets",
        "a/pdsuite.toml:2: MSS: UnknownKey: the nearest is mss",
        "a/pdsuite.toml:3: a b: UnknownKey",
        "a/pdsuite.toml:4: nagle: BadValue: it takes true or false, without quotes",
        "a/pdsuite.toml:5: sack: BadValue: it takes true or false",
        "a/pdsuite.toml:6: wscale: BadValue: it takes 0 to 14 bits",
        "a/pdsuite.toml:7: sndbuf: BadValue: it takes 1,024 to 1,048,576 octets",
        "a/pdsuite.toml:8: rcv_wnd: BadValue: it takes 1 to 1,073,725,440 octets",
        'a/pdsuite.toml:12: one: UnknownKey: a table is of a script, by its whole name: ["one.pkt"]',
        'a/pdsuite.toml:10: initial_window: BadValue (["one.pkt"]): it takes "rfc5681" or "rfc6928"',
        'a/pdsuite.toml:11: min_rto: UnknownKey (["one.pkt"]): the nearest is min_rto_us',
    ]


@pytest.mark.parametrize("key", KEYS)
def test_the_program_takes_what_the_client_says_a_key_takes(key: str, programs: Path) -> None:
    it = KEYS[key]
    good: list[Value] = [it.default, it.least, it.most] if isinstance(it, Number) else [it.default, *it.words]
    bad: list[Value] = [it.least - 1, it.most + 1, True, "true"] if isinstance(it, Number) else [0, 1, "other"]
    bad += ["rfc5681", "rfc6928"] if isinstance(it.default, bool) else [True, False]
    claims = [Claim("p", "", key, value) for value in (*good, *bad)]
    with Stop() as stop:
        lines = query_refusal_lines(claims, lambda: Program([programs / "pdregress"], stop))
    assert lines == [f"p: {key}: BadValue: it takes {it.accepted_values_text}"] * len(bad)


def test_fail_fast_leaves_later_pieces_out(programs: Path, tmp_path: Path, call: Call) -> None:
    for number in range(200):
        write(tmp_path, **{f"s{number:03}": FAILS if number == 100 else PASSES})
    called = call(programs, "run", "--fail-fast", ".")
    assert called.rows == ["s100.pkt:1: fail result"]
    assert (called.status, called.totals) == (1, {"pass": 127, "fail": 1, "not run": 72})


def test_what_cannot_be_read_is_a_row_and_all_else_is_run(programs: Path, tmp_path: Path, call: Call) -> None:
    write(tmp_path, good=PASSES, bad=FAILS)
    (tmp_path / "dangling.pkt").symlink_to("nowhere")
    os.mkfifo(tmp_path / "pipe.pkt")
    called = call(programs, "run", ".", "nowhere")
    assert called.rows == [
        "bad.pkt:1: fail result",
        "dangling.pkt: error: No such file or directory",
        "nowhere: error: No such file or directory",
        "pipe.pkt: error: isn't a regular file",
    ]
    assert (called.status, called.totals) == (2, {"pass": 1, "fail": 1, "error": 3})


def test_what_may_not_be_read_is_a_row(open_folder: Path, programs: Path) -> None:
    if os.getuid() != 0:
        pytest.skip("needs root, to be another user for a moment")
    write(open_folder / "suite/shut", a=PASSES)
    write(open_folder / "suite", b=PASSES, c=PASSES)
    (open_folder / "suite/b.pkt").chmod(0)
    (open_folder / "suite/shut").chmod(0)
    (open_folder / "suite").chmod(0o755)
    as_another = ["setpriv", "--reuid=65534", "--clear-groups"]
    if subprocess.run([*as_another, "test", "-r", str(TOP / "pdsuite")]).returncode:
        pytest.skip("needs a repository that other users can read")
    command = [*as_another, str(TOP / "pdsuite"), "run", "suite"]
    folder = shutil.copytree(programs, open_folder / "programs")
    (open_folder / "kept").mkdir()
    (open_folder / "kept").chmod(0o777)
    environment = {**os.environ, "PDSUITE_PROGRAMS": str(folder), "XDG_CACHE_HOME": str(open_folder / "kept")}
    done = subprocess.run(command, cwd=open_folder, env=environment, capture_output=True, text=True)
    lines = [it for it in done.stdout.splitlines() if not it.endswith(": passes, but awaits no packet")]
    assert lines[:2] == ["suite/b.pkt: error: Permission denied", "suite/shut: error: Permission denied"]
    assert (done.returncode, done.stderr) == (2, "")


@pytest.mark.parametrize("words", [["run", "."], ["list", "."], ["run", "--only", "nothing", "full"]])
def test_no_script_is_a_fault(words: list[str], programs: Path, tmp_path: Path, call: Call) -> None:
    (tmp_path / ".hidden").mkdir()
    if words[-1] == "full":
        write(tmp_path / "full", a=PASSES)
    called = call(programs, *words)
    assert (called.status, called.out, called.err) == (2, "", "pdsuite: no script found\n")
