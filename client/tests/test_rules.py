"""The rules of the sender that scripts come to: their list, how they are counted, and `pdsuite rules`."""

import json
import os
import re
import shutil
import signal
import subprocess
import tomllib
from pathlib import Path
from typing import Any

import pytest

from pdsuite.programs.protocol import parse_rules_by_script
from pdsuite.rules.reached_rules import ReachedRules, sort_by_fewest_scripts, uses_of_rules_by_name
from pdsuite.rules.report import VERSION
from pdsuite.rules.rule_list import (
    SenderRule,
    load_sender_rules,
    refusal_of_rule_name_if_unknown,
    refusal_of_rule_pattern_if_unmatched,
)
from tests.helpers import OPENED, PASSES, TOP, Call, Called, ends, wait_for, write
from tests.schemas import schema_of
from tests.test_pdsuite import on_terminal

SPECS = TOP / "crates/pd_explain/specs"
SUITE = TOP / "examples/suite"
# No script comes to it, as docs/RULES.md says: an event that is so decided doesn't pass.
NEVER = {"own.check.not-run"}
_NAME = re.compile(r'codes "((?:rfc\d+|own)\.[a-z0-9.-]+)"')
_TEXT = re.compile(r'^send_rule_(words|name) (\w+) = codes "(.+)"$', re.MULTILINE)
_ROW = re.compile(r"^\| `([a-z0-9.-]+)` \| (.+) \|$", re.MULTILINE)
_SHOWN = re.compile(r"`((?:rfc\d+|own)\.[a-z0-9.-]+)`")
ACK, RST, EXPIRY = "rfc9293.ack", "rfc9293.rst", "rfc6298.expiry"
WORDS = {it.name: it.words for it in load_sender_rules()}
# Of the column of names, with a blank after the longest.
WIDTH = max(map(len, WORDS)) + 1


def definitions_of_names() -> str:
    """The definitions that give the rules their names, where the crates are there."""
    paths = [SPECS / "SendRules.antt", *sorted(SPECS.glob("Rule*.antt"))]
    if not all(it.is_file() for it in paths):
        pytest.skip("the definitions of rules aren't there")
    return "".join(it.read_text() for it in paths)


def test_the_list_has_the_names_of_the_program() -> None:
    assert set(_NAME.findall(definitions_of_names())) == set(WORDS)


def test_the_document_of_the_sender_has_each_name_once() -> None:
    assert sorted(_SHOWN.findall((TOP / "docs/SENDER.md").read_text())) == sorted(WORDS)


def test_a_rule_by_which_packets_leave_has_the_words_of_the_program() -> None:
    found = {(kind, variant): text for kind, variant, text in _TEXT.findall(definitions_of_names())}
    words = {name: found["words", variant] for (kind, variant), name in found.items() if kind == "name"}
    assert len(words) > 10 and words == {name: WORDS[name] for name in words}


def test_the_page_has_the_names_and_words_of_the_list() -> None:
    assert _ROW.findall((TOP / "docs/RULES.md").read_text()) == list(WORDS.items())


def test_each_rule_has_words_with_its_rfc_or_is_own() -> None:
    for name, words in WORDS.items():
        number = name.removeprefix("rfc").partition(".")[0]
        assert words.endswith(" (own)") if number == "own" else f" (RFC {number}" in words, name


REFUSED = [
    ("rescue", "; the nearest is rfc6675.next-seg.rescue"),
    ("RESCUE", "; the nearest is rfc6675.next-seg.rescue"),
    ("rfc9293.newdata", "; the nearest is rfc9293.new-data"),
    (
        "next-seg.",
        f"; the nearest are {', '.join(f'rfc6675.next-seg.{it}' for it in ('lost', 'new', 'hole', 'rescue'))}",
    ),
    ("zz", ""),
    ("", ""),
]


@pytest.mark.parametrize(("word", "hint"), REFUSED, ids=[it[0] for it in REFUSED])
def test_a_name_that_no_rule_has_is_refused_with_those_that_are_near(word: str, hint: str) -> None:
    assert refusal_of_rule_name_if_unknown(word) == f"{word}: there is no such rule{hint}"


def test_of_many_names_with_a_part_the_first_four_are_near() -> None:
    refusal = refusal_of_rule_name_if_unknown("rfc9293.state")
    assert re.findall(r"state\.([a-z-]+)", refusal) == ["closed", "listen", "syn-received", "established"]


def test_the_name_of_a_rule_is_not_refused() -> None:
    assert not any(map(refusal_of_rule_name_if_unknown, WORDS))


def test_a_pattern_is_refused_where_no_name_fits_it() -> None:
    fitting = ("rfc6675.*", "*.check.rs?", "rfc9293.ack")
    assert not any(map(refusal_of_rule_pattern_if_unmatched, fitting))
    assert refusal_of_rule_pattern_if_unmatched("*zz*") == "*zz*: there is no such rule"


def test_lines_of_events_are_read_and_others_are_skipped() -> None:
    errors = b"job 1 s0 line 3 rules b\njob 1 s0 steps 9\n{}\njob 2 s12 line 4 rules c a\n job 3 s1 line 1 rules a\n"
    assert parse_rules_by_script(errors) == {b"s0": {3: ("b",)}, b"s12": {4: ("c", "a")}}


def test_a_line_with_several_events_has_the_rules_of_all_each_once() -> None:
    errors = b"job 1 s0 line 3 rules b a\njob 1 s0 line 4 rules a\njob 1 s0 line 3 rules a c\n"
    assert parse_rules_by_script(errors) == {b"s0": {3: ("b", "a", "c"), 4: ("a",)}}


def test_a_name_of_rules_is_shown_as_it_prints() -> None:
    assert parse_rules_by_script(b"job 1 s0 line 3 rules a\x07\n") == {b"s0": {3: (r"a\x07",)}}


def test_rules_with_fewer_scripts_come_first_and_the_shortest_script_is_the_first_of_its_length() -> None:
    rules = [SenderRule(it, f"words of {it}") for it in "abcd"]
    long, short, other = (
        ReachedRules(name, lines, {1: ("d", "b"), 2: more})
        for name, lines, more in (("long", 9, ("b",)), ("short", 7, ("a",)), ("other", 7, ("new",)))
    )
    uses = sort_by_fewest_scripts(uses_of_rules_by_name(rules, [long, short, other]).values())
    assert [(it.rule.name, len(it.scripts), it.shortest) for it in uses] == [
        ("c", 0, None),
        ("a", 1, short),
        ("new", 1, other),
        ("b", 3, short),
        ("d", 3, short),
    ]
    assert [it.rule.words for it in uses[:3]] == ["words of c", "words of a", ""]


def events(*lines: str) -> bytes:
    """A script that comes to rules: the words of each line are a line and its rules."""
    return b"row pass 1\n" + "".join(f"rules {it}\n" for it in lines).encode()


def test_the_table_marks_what_no_script_comes_to_and_names_the_shortest_script(
    fake_program: Path, tmp_path: Path, call: Call
) -> None:
    write(tmp_path / "s", a=events(f"2 {ACK}", f"3 {ACK} {EXPIRY}"), b=events(f"2 {ACK}"), c=PASSES)
    called = call(fake_program, "rules", "s")
    *lines, last_but_two, last_but_one, total = called.out.splitlines()
    assert lines == [
        f"{it.name:<{WIDTH}} none  {it.words}" for it in load_sender_rules() if it.name not in (ACK, EXPIRY)
    ]
    assert last_but_two == f"{EXPIRY:<{WIDTH}}    1  s/a.pkt"
    assert last_but_one == f"{ACK:<{WIDTH}}    2  s/b.pkt"
    count = len(WORDS)
    assert total == f"total 3 not passing 0 rules {count} none {count - 2}"
    assert (called.status, called.err) == (0, "")


def test_a_rule_that_the_list_lacks_is_shown_too(fake_program: Path, tmp_path: Path, call: Call) -> None:
    write(tmp_path, a=events("2 own.new-rule"))
    called = call(fake_program, "rules", ".")
    count = len(WORDS)
    assert called.out.splitlines()[-2].split() == ["own.new-rule", "1", "a.pkt"]
    assert called.out.endswith(f"total 1 not passing 0 rules {count + 1} none {count}\n")


def test_the_scripts_of_a_rule_are_listed_with_their_lines(fake_program: Path, tmp_path: Path, call: Call) -> None:
    write(tmp_path / "b", a=events(f"7 {RST}", f"12 {ACK}", f"15 {ACK} {RST}", f"18 {ACK}"), c=events(f"3 {RST}"))
    write(tmp_path / "a", **{"x\x07": events(f"4 {ACK}")})
    called = call(fake_program, "rules", "--rule", ACK, "b", "a")
    assert called.out == "a/x\\x07.pkt: 4\nb/a.pkt: 12, 15, 18\n"
    assert (called.status, called.err) == (0, "")


def test_scripts_are_listed_by_their_paths_whatever_settings_they_have(
    fake_program: Path, tmp_path: Path, call: Call
) -> None:
    write(tmp_path, **{it: events(f"4 {ACK}") for it in "abcd"})
    (tmp_path / "pdsuite.toml").write_text('root = true\n["a.pkt"]\nmss = 1000\n["c.pkt"]\nmss = 1000\n')
    assert call(fake_program, "rules", "--rule", ACK, ".").out == "a.pkt: 4\nb.pkt: 4\nc.pkt: 4\nd.pkt: 4\n"


def test_that_no_script_comes_to_a_rule_is_said(fake_program: Path, tmp_path: Path, call: Call) -> None:
    write(tmp_path, a=events(f"7 {RST}"))
    called = call(fake_program, "rules", "--rule", ACK, ".")
    assert (called.status, called.out, called.err) == (0, "", f"pdsuite: no script comes to {ACK}\n")


def test_the_rules_of_a_script_are_listed_by_lines(fake_program: Path, tmp_path: Path, call: Call) -> None:
    write(tmp_path, a=events(f"7 {RST}"), b=events(f"2 {ACK}", f"12 {EXPIRY} {ACK}"))
    called = call(fake_program, "rules", "--script", "b.pkt")
    assert (called.status, called.out, called.err) == (0, f"2: {ACK}\n12: {EXPIRY} {ACK}\n", "")


def printed(called: Called) -> Any:
    """The object that a call printed, where all went well."""
    assert (called.status, called.err) == (0, "")
    return json.loads(called.out)


def test_json_has_the_table(fake_program: Path, tmp_path: Path, call: Call) -> None:
    write(tmp_path, a=events(f"2 {ACK}", f"3 {ACK} {EXPIRY}"), b=b"row fail 1 seq\n")
    table = printed(call(fake_program, "rules", "--json", "."))
    shortest = {"path": "a.pkt", "length": 3}
    assert table["rules"][-2:] == [
        {"rule": it, "words": WORDS[it], "scripts": 1, "shortest": shortest} for it in (ACK, EXPIRY)
    ]
    assert table["rules"][0] == {"rule": "rfc9293.syn-ack", "words": WORDS["rfc9293.syn-ack"], "scripts": 0}
    assert table["total"] == {"scripts": 2, "not passing": 1, "rules": len(WORDS), "none": len(WORDS) - 2}
    assert table["version"] == VERSION == schema_of("rules")["properties"]["version"]["const"]


def test_json_has_the_scripts_of_a_rule(fake_program: Path, tmp_path: Path, call: Call) -> None:
    write(tmp_path, a=events(f"2 {ACK}", f"3 {ACK} {EXPIRY}"), b=events(f"2 {RST}"))
    found = printed(call(fake_program, "rules", "--json", "--rule", ACK, "."))
    scripts = [{"path": "a.pkt", "lines": [2, 3]}]
    assert found == {"version": VERSION, "rule": ACK, "words": WORDS[ACK], "scripts": scripts}
    called = call(fake_program, "rules", "--json", "--rule", EXPIRY, "b.pkt")
    assert json.loads(called.out)["scripts"] == [] and called.err == f"pdsuite: no script comes to {EXPIRY}\n"


def test_json_has_the_rules_of_a_script(fake_program: Path, tmp_path: Path, call: Call) -> None:
    write(tmp_path, a=events(f"2 {ACK}", f"3 {ACK} {EXPIRY}"))
    lines = [{"line": 2, "rules": [ACK]}, {"line": 3, "rules": [ACK, EXPIRY]}]
    found = printed(call(fake_program, "rules", "--json", "--script", "a.pkt"))
    assert found == {"version": VERSION, "path": "a.pkt", "lines": lines}


MISUSED = [
    ((), "Missing argument 'PATHS...', --script or --mutants"),
    (("--rule", ACK), "Missing argument 'PATHS...', --script or --mutants"),
    (("--script", "a.pkt", "."), "--script lists the rules of one script, and takes no PATH, --only or --rule"),
    (
        ("--script", "a.pkt", "--only", "a"),
        "--script lists the rules of one script, and takes no PATH, --only or --rule",
    ),
    (
        ("--script", "a.pkt", "--rule", ACK),
        "--script lists the rules of one script, and takes no PATH, --only or --rule",
    ),
    (("--html", "page", "--rule", ACK, "."), "--html writes a page of all rules, and takes no --rule or --script"),
    (("--html", "page", "--script", "a.pkt"), "--html writes a page of all rules, and takes no --rule or --script"),
    (
        ("--rule", "rescue", "."),
        "Invalid value for '--rule': rescue: there is no such rule; the nearest is rfc6675.next",
    ),
]


@pytest.mark.parametrize(("words", "message"), MISUSED, ids=[" ".join(it[0]) for it in MISUSED])
def test_words_that_do_not_go_together_are_refused(
    words: tuple[str, ...], message: str, fake_program: Path, tmp_path: Path, call: Call
) -> None:
    write(tmp_path, a=PASSES)
    called = call(fake_program, "rules", *words)
    assert (called.status, called.out) == (2, "")
    assert called.err.splitlines()[-1].startswith(f"Error: {message}")


@pytest.mark.parametrize(
    ("words", "message"), [(("--script", "s"), "s: is a folder"), (("s",), "no script found")], ids=["script", "path"]
)
def test_a_folder_is_no_script(
    words: tuple[str, ...], message: str, fake_program: Path, tmp_path: Path, call: Call
) -> None:
    (tmp_path / "s").mkdir()
    called = call(fake_program, "rules", *words)
    assert (called.status, called.out, called.err) == (2, "", f"pdsuite: {message}\n")


@pytest.mark.parametrize("form", [(), ("--json",)], ids=["plain", "json"])
def test_a_file_that_is_not_there_is_said_and_the_others_are_listed(
    form: tuple[str, ...], fake_program: Path, tmp_path: Path, call: Call
) -> None:
    write(tmp_path, a=events(f"2 {ACK}"))
    lost = "none.pkt: error: No such file or directory\n"
    called = call(fake_program, "rules", *form, "a.pkt", "none.pkt")
    assert (called.status, called.err) == (2, lost)
    assert "a.pkt" in called.out and ('"scripts": 2' if form else "total 2 not passing 1 ") in called.out
    called = call(fake_program, "rules", *form, "--script", "none.pkt")
    assert (called.status, called.err) == (2, lost)
    assert called.out == ('{"version": 1, "path": "none.pkt", "lines": [\n]}\n' if form else "")


def test_a_setting_that_is_refused_is_said_with_its_line(fake_program: Path, tmp_path: Path, call: Call) -> None:
    write(tmp_path, a=events(f"2 {ACK}"))
    (tmp_path / "pdsuite.toml").write_text('root = true\nno_such = 1\n["lost.pkt"]\nmss = 1000\n')
    called = call(fake_program, "rules", ".")
    lost, refused = called.err.splitlines()
    assert lost.startswith('pdsuite.toml:3: ["lost.pkt"]: no script of this name is beside the file')
    assert (called.status, called.out, refused) == (2, "", "pdsuite.toml:2: no_such: UnknownKey")


OLD = """#!/bin/sh
case "$*" in *--rules*) printf "error: unexpected argument '--rules' found\\n\\nSee --help.\\n" >&2 && exit 2 ;; esac
exec "$0.py" "$@"
"""


def test_a_program_that_lists_no_rules_is_said(fake_program: Path, tmp_path: Path, call: Call) -> None:
    folder = tmp_path / "programs"
    folder.mkdir()
    shutil.copy(fake_program / "pdregress", folder / "pdregress.py")
    (folder / "pdregress").write_text(OLD)
    (folder / "pdregress").chmod(0o755)
    write(tmp_path / "s", a=PASSES)
    assert call(folder, "run", "s").status == 0
    called = call(folder, "rules", "s")
    assert (called.status, called.out) == (2, "")
    assert called.err == "pdsuite: error: unexpected argument '--rules' found\n"


def test_where_a_program_ends_a_new_one_goes_on(fake_program: Path, tmp_path: Path, call: Call) -> None:
    write(tmp_path, a=events(f"2 {ACK}"), b=f"once {tmp_path}/mark\nrules 2 {ACK}\n".encode(), c=events(f"2 {ACK}"))
    called = call(fake_program, "rules", "--rule", ACK, ".")
    assert (called.status, called.out) == (0, "a.pkt: 2\nb.pkt: 2\nc.pkt: 2\n")
    assert called.err == "pdsuite: pdregress was ended by SIGKILL; a new run begins at a.pkt\n"


def test_a_script_on_which_the_program_ends_is_said_and_the_others_are_listed(
    fake_program: Path, tmp_path: Path, call: Call
) -> None:
    write(tmp_path, a=b"crash\n", b=events(f"2 {ACK}"), c=b"row fail 2 seq\ncrash\n")
    called = call(fake_program, "rules", "--rule", ACK, ".")
    assert (called.status, called.out) == (2, "b.pkt: 2\n")
    ended = "pdregress was ended by SIGSEGV"
    # Of the last one another program says how it fails, but nothing of its rules.
    assert called.err.splitlines()[-2:] == [f"a.pkt: error: {ended}", f"pdsuite: {ended}; nothing is told of c.pkt"]


def test_a_signal_ends_it_and_nothing_is_listed(fake_program: Path, tmp_path: Path) -> None:
    write(tmp_path / "suite", a=events(f"2 {ACK}"), b=f"stall {tmp_path}/mark\n".encode())
    environment = {**os.environ, "PDSUITE_PROGRAMS": str(fake_program)}
    command: list[str | Path] = [TOP / "pdsuite", "rules", "--html", "page", "suite"]
    process = subprocess.Popen(command, cwd=tmp_path, env=environment, stdout=subprocess.PIPE, stderr=subprocess.PIPE)
    wait_for(tmp_path / "mark", process)
    assert ends(process, signal.SIGTERM) == (143, "", "")
    assert not (tmp_path / "page/index.html").exists()


def test_a_script_that_is_known_to_be_none_is_no_fault(fake_program: Path, tmp_path: Path, call: Call) -> None:
    write(tmp_path, a=b"row syntax 1\n?\n", b=events(f"2 {ACK}"))
    called = call(fake_program, "rules", "--rule", ACK, ".")
    assert (called.status, called.out) == (2, "b.pkt: 2\n") and called.err.startswith("a.pkt:1: syntax")
    (tmp_path / "pdsuite.toml").write_text('["a.pkt"]\nexpect = "syntax"\nreason = "so"\n')
    called = call(fake_program, "rules", "--rule", ACK, ".")
    assert (called.status, called.out, called.err) == (0, "b.pkt: 2\n", "")


def test_a_line_of_progress_is_shown_on_a_terminal_and_goes_away(fake_program: Path, tmp_path: Path) -> None:
    for number in range(130):
        write(tmp_path, **{f"s{number:03}": events(f"2 {ACK}")})
    status, shown = on_terminal(tmp_path, fake_program, "rules", ".")
    assert status == 0 and b"64/130" in shown and b"128/130" in shown
    last = shown[shown.rindex(b"\x1b[2K") :]
    assert b"total 130 not passing 0 " in last and b"/130" not in last
    assert re.search(rb"\x1b\[33mrfc9293\.rst +none  RST [^\r]*\x1b\[0m\r?\n", last)
    assert re.search(rb"\nrfc9293\.ack +130  s000\.pkt\r\n", last)
    _, shown = on_terminal(tmp_path, fake_program, "rules", "--json", ".")
    assert b"64/130" not in shown


# Two segments are written, and no ACK of them arrives.
WRITTEN = OPENED + b"+0 write(4, ..., 2000) = 2000\n+0 > . 1:1001(1000) ack 1\n+0 > P. 1001:2001(1000) ack 1\n"


def test_a_script_that_fails_midway_counts_with_what_passed(programs: Path, tmp_path: Path, call: Call) -> None:
    write(tmp_path, a=WRITTEN + b"+1 > . 1:1001(1000) ack 1\n", b=WRITTEN + b"+1 > . 1:1000(999) ack 1\n", c=b"?\n")
    assert call(programs, "run", "b.pkt").rows == ["b.pkt:11: fail seq"]
    called = call(programs, "rules", "--rule", EXPIRY, ".")
    assert (called.status, called.out) == (2, "a.pkt: 11\n")
    message = "expected an option of the header, a command, a time or the end of the text"
    assert called.err == f"c.pkt:1: syntax: {message}\n"
    called = call(programs, "rules", "--rule", "rfc9293.new-data", "a.pkt", "b.pkt")
    assert (called.status, called.out, called.err) == (0, "a.pkt: 8, 9, 10\nb.pkt: 8, 9, 10\n", "")
    assert call(programs, "rules", "a.pkt", "b.pkt").out.splitlines()[-1].startswith("total 2 not passing 1 ")


def test_the_lines_of_a_script_are_those_of_its_text(programs: Path, tmp_path: Path, call: Call) -> None:
    write(tmp_path, a=b"// A comment.\n\n" + OPENED.replace(b"\n+0 bind", b" +0 bind"))
    lines = call(programs, "rules", "--script", "a.pkt").out.splitlines()
    opened, listening, syn, syn_ack, established = [it.split() for it in lines[:5]]
    assert opened == ["3:", "own.call.socket", "own.call.bind"]
    assert listening == ["4:", "rfc9293.state.listen", "own.call.listen"]
    assert syn[:3] == ["5:", "rfc9293.syn-ack", "rfc9293.state.syn-received"]
    assert syn_ack == ["6:", "rfc9293.syn-ack"]
    assert established[:3] == ["7:", "rfc9293.check.first-ack", "rfc9293.state.established"]
    (tmp_path / "a.pkt").write_bytes(OPENED.replace(b"\n", b" "))
    (line,) = call(programs, "rules", "--script", "a.pkt").out.splitlines()
    names = (name for it in lines for name in it.split()[1:])
    assert sorted(line.split()) == sorted(["1:", *dict.fromkeys(names)])


def test_each_script_runs_under_its_settings(programs: Path, tmp_path: Path, call: Call) -> None:
    text = (SUITE / "limited-transmit/within_the_peer_window.pkt").read_bytes()
    write(tmp_path, on=text, off=text)
    (tmp_path / "pdsuite.toml").write_text('root = true\n["off.pkt"]\nlimited_transmit = false\n')
    called = call(programs, "rules", "--rule", "rfc3042.limited-transmit", ".")
    assert re.fullmatch(r"on\.pkt: [0-9, ]+\n", called.out)
    words = ("--rule", "rfc9293.new-data", ".")
    assert re.fullmatch(r"off\.pkt: [0-9, ]+\non\.pkt: [0-9, ]+\n", call(programs, "rules", *words).out)
    called = call(
        programs, "rules", "--settings", "limited_transmit = false", "--rule", "rfc3042.limited-transmit", "."
    )
    assert (called.status, called.out) == (0, "")


def test_only_chosen_scripts_count(programs: Path, call: Call) -> None:
    called = call(programs, "rules", "--only", "*/close/*", SUITE)
    count = len(list((SUITE / "close").glob("*.pkt")))
    assert 0 < count and called.out.splitlines()[-1].startswith(f"total {count} not passing 0 ")
    assert all("/close/" in it for it in called.out.splitlines() if it.endswith(".pkt"))


def test_a_row_comes_to_each_rule() -> None:
    lines = (TOP / "tests/cases/runs/rules.cases").read_text().splitlines()
    found = {name for it in lines if it.startswith("! job ") for name in it.partition(" rules ")[2].split()}
    assert found == set(WORDS) - NEVER


def suite_script(path: str) -> str:
    return Path(path).relative_to(SUITE).with_suffix("").as_posix()


def test_the_suite_comes_to_the_rules_that_its_list_names_with_any_workers(programs: Path, call: Call) -> None:
    """`tools/reached_rules.py` makes the list, which docs/COVERAGE.md shows."""
    called = call(programs, "rules", "--json", SUITE)
    table = printed(called)
    assert [it for it in table["rules"] if not it["words"]] == []
    assert table["total"]["scripts"] == len(list(SUITE.rglob("*.pkt"))) and table["total"]["not passing"] == 0
    unreached = {it["rule"] for it in table["rules"] if not it["scripts"]}
    assert table["total"]["rules"] == len(WORDS) and table["total"]["none"] == len(unreached)
    # A script of an ACK that adds an octet alone needs more than a hundred lines: rows of tests/cases come to it.
    assert unreached == NEVER | {"rfc5681.growth.one-octet"}
    counts = {it["rule"]: (it["scripts"], it.get("shortest", {}).get("path")) for it in table["rules"]}
    listed_rules = tomllib.loads((SUITE / "reached.toml").read_text())["rules"]
    assert {name: (it["scripts"], it.get("shortest")) for name, it in listed_rules.items()} == {
        name: (count, path and suite_script(path)) for name, (count, path) in counts.items()
    }
    for workers in ("1", "3"):
        assert call(programs, "rules", "--json", "--workers", workers, SUITE).out == called.out
    for it in table["rules"][len(unreached) :: len(WORDS) // 4]:
        listed = printed(call(programs, "rules", "--json", "--rule", it["rule"], SUITE))["scripts"]
        shortest = min(listed, key=lambda script: Path(script["path"]).read_bytes().count(b"\n"), default=None)
        assert len(listed) == it["scripts"] and (shortest or {}).get("path") == it.get("shortest", {}).get("path")


def test_a_rule_is_completed_in_a_shell(call: Call) -> None:
    more = {"COMP_WORDS": "pdsuite rules --rule rfc6675.next", "COMP_CWORD": "3", "_PDSUITE_COMPLETE": "bash_complete"}
    words = call(None, **more).out.splitlines()
    assert words == [f"plain,{it}" for it in WORDS if it.startswith("rfc6675.next")] and len(words) == 4
