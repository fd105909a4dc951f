"""The explanation that is printed below the row of a script that doesn't pass."""

import json
import os
import shutil
import signal
import subprocess
import time
from pathlib import Path

import pytest

from pdsuite.programs.cause_text import explanation_lines_below_first
from pdsuite.programs.protocol import (
    add_command,
    parse_blocks_by_script_and_line,
    parse_causes_by_script_and_line,
    script_name_of_number,
)
from pdsuite.run.script_style import restyle_suggested_insertions_like_script
from pdsuite.scripts.text import make_newline_ended_text_within_limits
from tests.helpers import BLOCK_LINES, OPENED, PACKET, PASSES, TOP, Call, ends, is_alive, wait_for, wrapped, write
from tests.lsp_scripts import HEAD, failing_cases, failing_scripts

BLOCK = b"script packet: x\nactual packet: y\n"
BELOW = ["  script packet: x", "  actual packet: y"]


def test_a_block_stands_below_its_row(fake_program: Path, tmp_path: Path, call: Call) -> None:
    write(tmp_path, a=PASSES, b=b"row fail 2 seq\n" + BLOCK, c=b"row limit 1\nrule: why\n")
    called = call(fake_program, "run", ".")
    limit = ["c.pkt:1: limit: so it is", "  rule: why"]
    assert called.out.splitlines()[:-1] == ["b.pkt:2: fail seq: so it is", *BELOW, *limit]
    assert (called.status, called.err) == (1, "")


def test_each_script_has_its_own_block(fake_program: Path, tmp_path: Path, call: Call) -> None:
    for number in range(150):
        text = PASSES if number % 3 == 0 else b"row fail 1 seq\nreason: it is %d\n" % number
        write(tmp_path, **{f"s{number:03}": text})
    called = call(fake_program, "run", ".")
    below = [line for line in called.out.splitlines() if line.startswith("  ")]
    assert below == [f"  reason: it is {number}" for number in range(150) if number % 3]


def test_every_form_has_the_block(fake_program: Path, tmp_path: Path, call: Call) -> None:
    write(tmp_path, b=b"row fail 2 seq\n" + PACKET)
    reported = ["b.pkt:2: fail seq: so it is", *(f"  {line}" for line in BLOCK_LINES)]
    assert call(fake_program, "run", "--tap", ".").out.splitlines()[2:6] == [f"# {line}" for line in reported]
    (script,) = json.loads(call(fake_program, "run", "--json", ".").out)["scripts"]
    assert (script["what"], script["below"]) == ("so it is", BLOCK_LINES)
    assert "%0A".join(reported) in call(fake_program, "run", "--github", ".").out
    call(fake_program, "run", "--junit", "out.xml", ".")
    assert "\n".join(reported).replace(">", "&gt;") in (tmp_path / "out.xml").read_text()


def test_a_packet_has_the_rule_by_which_it_left_where_the_program_names_it() -> None:
    packets = {"actual_packet": "x", "untaken_packets": ["y", "z"]}
    sent_by = {"line": 8, "rule": "rfc6675.next-seg.rescue", "rule_words": "rescue (RFC 1)"}
    untaken = [{"timer_us": 7, "rule": "rfc6298.expiry", "rule_words": "an expiry"}, {"line": 9}]
    assert explanation_lines_below_first({**packets, "sent_by": sent_by, "untaken_sent_by": untaken}) == (
        "actual packet: x, sent by line 8: rescue (RFC 1)",
        "untaken packet: y, sent by the timer: an expiry",
        "untaken packet: z, sent by line 9",
    )


def test_a_program_that_names_no_rule_is_shown_with_what_sent_a_packet(
    fake_program: Path, tmp_path: Path, call: Call
) -> None:
    older = tmp_path / "older"
    shutil.copytree(fake_program, older)
    octets = (older / "pdregress").read_bytes()
    for rule in (b", **NEW_DATA}", b", **EXPIRY}"):
        assert rule in octets
        octets = octets.replace(rule, b"}")
    (older / "pdregress").write_bytes(octets)
    write(tmp_path / "suite", a=b"row fail 2 seq\n" + PACKET, b=b"row fail 2 time\n" + PACKET)
    by_line, by_timer = ("+0 > . 1:3(2) ack 1 win 5, sent by line 1", "+1 > . 1:2(1) ack 1 win 5, sent by the timer")
    shown = [it for it in call(older, "run", "suite").out.splitlines() if "actual packet" in it]
    assert shown == [f"  actual packet: {it}" for it in (by_line, by_timer)]
    scripts = json.loads(call(older, "run", "--json", "suite").out)["scripts"]
    assert [it["explanation"]["sent_by"] for it in scripts] == [{"line": 1}, {"timer_us": 7}]


def test_the_script_s_settings_are_given(tmp_path: Path, fake_program: Path, call: Call) -> None:
    folder = wrapped(tmp_path / "programs", fake_program, explains='printf "%s\\n" "$@" >words')
    write(tmp_path / "suite", b=b"row fail 1 seq\nreason: why\n")
    called = call(folder, "run", "--settings", "mss = 1000", "suite")
    assert "\n  reason: why\n" in called.out
    words = (tmp_path / "words").read_text().splitlines()
    assert words == ["--explain", "--leftovers", "--json", "--cache", "1", "--settings", "mss = 1000"]


@pytest.mark.parametrize("text", [b"silent\n", b"other line\nwhy\n"])
def test_a_row_without_a_block_has_the_script_s_line(
    text: bytes, fake_program: Path, tmp_path: Path, call: Call
) -> None:
    write(tmp_path, b=b"row fail 1 seq\n" + text)
    called = call(fake_program, "run", ".")
    assert called.out.splitlines()[:-1] == ["b.pkt:1: fail seq", "  row fail 1 seq"]
    assert (called.status, called.err) == (1, "")


def test_that_line_is_cut_and_its_octets_are_escaped(fake_program: Path, tmp_path: Path, call: Call) -> None:
    line = b"\x1b]0;x\x07\xff\\" + b"y" * 60_000
    write(tmp_path, a=b"row fail 3 seq\nsilent\n" + line, b=b"row fail 3 seq\nsilent\n?" + b"z" * 300)
    lines = call(fake_program, "run", ".").out.splitlines()
    assert lines[1] == r"  \x1b]0;x\x07\xff\\" + "y" * 179 + "..."
    assert lines[3] == "  ?" + "z" * 196 + "..."


REASONS = {
    b"crash\n": "pdregress was ended by SIGSEGV",
    b"fault\n": "pdregress: 19 OutOfMemory",
    b"flood\n": "pdregress said more than was asked",
}


@pytest.mark.parametrize("text", REASONS, ids=[text.decode().strip() for text in REASONS])
def test_a_script_on_which_it_ends_costs_no_other_its_block(
    text: bytes, fake_program: Path, tmp_path: Path, call: Call
) -> None:
    write(tmp_path, a=b"row fail 2 seq\n" + BLOCK, b=b"row fail 1 ack\n" + text, c=b"row fail 2 win\n" + BLOCK)
    called = call(fake_program, "run", ".")
    assert called.out.splitlines()[:-1] == [
        *("a.pkt:2: fail seq: so it is", *BELOW),
        *("b.pkt:1: fail ack", "  row fail 1 ack"),
        *("c.pkt:2: fail win: so it is", *BELOW),
    ]
    again, untold = "a new run begins at a.pkt", "nothing is told of b.pkt"
    message = [f"pdsuite: {REASONS[text]}; {it}" for it in (again, untold)]
    assert (called.status, called.err.splitlines()) == (1, message)


def test_what_is_told_is_safe_to_print(fake_program: Path, tmp_path: Path, call: Call) -> None:
    write(tmp_path, b=b"row fail 1 seq\nreason: a \\x1b b\nrule: \x1b[2J\n")
    assert call(fake_program, "run", ".").out.splitlines()[1:3] == [r"  reason: a \x1b b", r"  rule: \x1b[2J"]


@pytest.mark.parametrize("command", ["run", "watch"])
def test_it_has_to_be_built(command: str, tmp_path: Path, call: Call) -> None:
    folder = tmp_path / "programs"
    folder.mkdir()
    write(tmp_path / "suite", a=PASSES)
    called = call(folder, command, "suite")
    message = f"pdsuite: {folder}/pdregress: no program (PDSUITE_PROGRAMS names the folder)\n"
    assert (called.status, called.out, called.err) == (2, "", message)


SENT = "+0 > .  1:1001(1000)    ack 1 win 511 // 0.200000"
MANNERS = {
    "+0 > P. 1001:2001(1000) ack 1": "+0 > . 1:1001(1000) ack 1 // 0.200000",
    "+0 > P. 1001:2001(1000) ack 1 // > P. 1:2(1) ack 1 win 5": "+0 > . 1:1001(1000) ack 1 // 0.200000",
    "+0 < . 1:1(0) ack 1 win 257": "+0 > . 1:1001(1000) ack 1 // 0.200000",
    "+0 > P. 1001:2001(1000) ack 1 win 511": "+0 > . 1:1001(1000) ack 1 win 511 // 0.200000",
    "+0 > S. 0:0(0)  win 65535 <...>": "+0 > . 1:1001(1000) ack 1 win 511 // 0.200000",
}


@pytest.mark.parametrize(("line", "mend"), MANNERS.items(), ids=range(len(MANNERS)))
def test_a_packet_to_be_inserted_is_written_as_the_script_writes_its_own(line: str, mend: str) -> None:
    reported = (f"mend by inserting: {SENT}", f"actual packet: {SENT}, sent by line 2")
    assert restyle_suggested_insertions_like_script(reported, f"// Why.\n{line}\n".encode()) == (
        f"mend by inserting: {mend}",
        reported[1],
    )


def test_what_a_run_has_inserted_is_the_scripts_own(programs: Path, tmp_path: Path, call: Call) -> None:
    lacking = OPENED + b"+0 write(4, ..., 3000) = 3000\n+0 > P. 2001:3001(1000) ack 1\n"
    for number in (1, 1001):
        write(tmp_path, a=lacking)
        mends = [it for it in call(programs, "run", "a.pkt").out.splitlines() if "inserting" in it]
        line = f"+0 > . {number}:{number + 1000}(1000) ack 1 // 0.200000"
        assert mends[0] == f"  mend by inserting: {line}"
        lacking = lacking.replace(b"+0 > P. 2001", f"{line}\n+0 > P. 2001".encode())
    write(tmp_path, a=lacking)
    assert call(programs, "run", "a.pkt").totals == {"pass": 1}


def test_a_signal_ends_it_too(fake_program: Path, tmp_path: Path) -> None:
    write(tmp_path, a=b"row fail 1 seq\nstall\n", b=PASSES)
    environment = {**os.environ, "PDSUITE_PROGRAMS": str(fake_program)}
    process = subprocess.Popen(
        [TOP / "pdsuite", "run", "."], cwd=tmp_path, env=environment, stdout=subprocess.PIPE, stderr=subprocess.PIPE
    )
    wait_for(tmp_path / "mark", process)
    status, out, err = ends(process, signal.SIGTERM)
    assert (status, err) == (143, "")
    assert out.startswith("total 2 pass 0 fail 0 ") and " not run 2 " in out
    assert not is_alive(int((tmp_path / "mark").read_text()))


def test_a_signal_loses_nothing_that_was_settled(fake_program: Path, tmp_path: Path) -> None:
    write(tmp_path / "a", a=b"row fail 1 seq\nstall\n")
    (tmp_path / "a/pdsuite.toml").write_text("mss = 1000\n")
    write(tmp_path / "b", b=PASSES)
    environment = {**os.environ, "PDSUITE_PROGRAMS": str(fake_program)}
    command: list[str | Path] = [TOP / "pdsuite", "run", "-v", "--workers", "2", "."]
    process = subprocess.Popen(command, cwd=tmp_path, env=environment, stdout=subprocess.PIPE, stderr=subprocess.PIPE)
    wait_for(tmp_path / "mark", process)
    time.sleep(1)
    status, out, err = ends(process, signal.SIGTERM)
    assert (status, err) == (143, "")
    assert "b/b.pkt: pass 1\n" in out and "total 2 pass 1 fail 0 " in out


def test_each_row_of_the_examples_is_explained_by_the_built_program(programs: Path, call: Call) -> None:
    called = call(programs, "run", TOP / "examples/scripts")
    lines = [line for line in called.out.splitlines()[:-1] if line not in called.warnings]
    heads = [number for number, line in enumerate(lines) if not line.startswith("  ")]
    assert len(heads) == 13
    assert all(": " in lines[it].split(".pkt:")[1].split(": ", 1)[1] and lines[it + 1].startswith("  ") for it in heads)
    assert (called.status, called.err) == (1, "")


def test_each_script_runs_once(tmp_path: Path, fake_program: Path, call: Call) -> None:
    """One run of a script gives its row, its explanation, and the warning at its end."""
    teed = 'tee -a asked | "$0.py" "$@"\nexit'
    folder = wrapped(tmp_path / "programs", fake_program, runs="echo >>others", explains=teed)
    for number in range(130):
        text = b"row limit 1\nrule: why\n" if number in (70, 90) else b"row pass 1\nends it awaits no packet\n"
        write(tmp_path / "suite", **{f"s{number:03}": text})
    called = call(folder, "run", "suite")
    assert (called.totals, called.err) == ({"pass": 128, "limit": 2}, "") and " warnings 128 " in called.out
    queried = (tmp_path / "asked").read_bytes()
    assert (queried.count(b"add "), queried.count(b"settle\n")) == (130, 3)
    assert (tmp_path / "others").read_text() == "\n"  # it is queried whether it answers


def test_what_is_told_by_keys_has_the_lines_of_blocks(programs: Path) -> None:
    texts = [make_newline_ended_text_within_limits(it.encode()) for _, it in failing_scripts()] + [
        make_newline_ended_text_within_limits(it.encode()) for it in failing_cases()
    ]
    far = b"+0 write(4, /* " + b"\xc3\xa9" * 60 + b" */ ..., 300000) = 1\n"
    texts += [
        make_newline_ended_text_within_limits(HEAD.encode() + it)
        for it in (far, far.replace(b"300000", b"9)"), b"x" * 300 + b"\n", b"")
    ]
    commands = b"".join(add_command(script_name_of_number(number), it) for number, it in enumerate(texts))
    begin: list[str | Path] = [programs / "pdregress", "--explain", "--leftovers"]
    message = [subprocess.run([*begin, *words], input=commands, capture_output=True) for words in ((), ("--json",))]
    blocks, causes = parse_blocks_by_script_and_line(message[0].stderr), parse_causes_by_script_and_line(
        message[1].stderr
    )
    assert len(blocks) > 500 and blocks.keys() == causes.keys()
    for key, (_, *lines) in blocks.items():
        assert list(explanation_lines_below_first(causes[key])) == [it.decode() for it in lines]


@pytest.mark.parametrize("torn", range(1, 4))
def test_no_line_is_cut_within_an_escape(torn: int) -> None:
    """A line is cut at 200 octets as they are shown, or before the escape that this would tear."""
    kept = "reason: ".ljust(200 - torn, "x")
    assert explanation_lines_below_first({"reason_words": f"{kept}\\xC3\\xA9 and more".removeprefix("reason: ")}) == (
        f"{kept}..",
    )


@pytest.mark.parametrize("torn", range(1, 4))
def test_what_is_shown_of_a_line_begins_behind_the_escape_that_this_would_tear(torn: int) -> None:
    """It begins 100 octets before a mark that is far along the line."""
    text = f"{'x' * (200 - torn)}\\xC3{'y' * 300}"
    shown, mark = explanation_lines_below_first({"text": text, "column": 300})
    assert (shown, mark) == (f"..{'y' * 198}..", f"{' ' * (98 + torn)}^")
