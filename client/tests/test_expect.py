"""`pdsuite expect`: writes the rows of scripts that don't pass, and takes away those of scripts that do."""

import os
import signal
import subprocess
from pathlib import Path

import pytest

from tests.helpers import HANGS, TOP, Call, Called, wait_for, write
from tests.test_pdsuite import copied

FAILS = b"row fail 1 seq\n"
NAMES = [b"a\nb", b"\"quotes'", b"a\\b", b"-v", "grün".encode(), b"a]b", b"a\x1b[2J"]
SHOWN = [r"a\x0ab", "\"quotes'", r"a\\b", "-v", "grün", "a]b", r"a\x1b[2J"]


def test_rows_that_do_not_pass_are_written_and_then_known(fake_program: Path, tmp_path: Path, call: Call) -> None:
    write(tmp_path / "one", a=FAILS, b=b"row pass 1\n", c=b"row unsupported 1\n")
    write(tmp_path / "two", d=b"row syntax 1\n")
    (tmp_path / "one/pdsuite.toml").write_text("# ours\nmss = 1000 # octets\n")
    called = call(fake_program, "expect", "--reason", "so #1", "one", "two")
    assert called.out.splitlines() == [
        'one/a.pkt: "fail 1 seq" is expected from now on',
        'one/c.pkt: "unsupported 1" is expected from now on',
        'two/d.pkt: "syntax 1" is expected from now on',
        "total 4 written 3 taken away 0",
    ]
    assert (called.status, called.err) == (0, "")
    assert (tmp_path / "one/pdsuite.toml").read_text() == (
        '# ours\nmss = 1000 # octets\n\n["a.pkt"]\nexpect = "fail 1 seq"\nreason = "so #1"\n'
        '\n["c.pkt"]\nexpect = "unsupported 1"\nreason = "so #1"\n'
    )
    assert (tmp_path / "two/pdsuite.toml").read_text() == '["d.pkt"]\nexpect = "syntax 1"\nreason = "so #1"\n'
    called = call(fake_program, "run", "one", "two")
    assert (called.status, called.totals) == (0, {"pass": 1, "known": 3})


def test_what_passes_is_taken_away_and_what_is_known_stays(fake_program: Path, tmp_path: Path, call: Call) -> None:
    write(tmp_path, known=FAILS, mended=b"row pass 1\n", other=b"row limit 1\n", well=b"row pass 2\n")
    toml = "".join(f'["{name}.pkt"]\nexpect = "fail"\nreason = "old"\n\n' for name in ("known", "mended", "other"))
    (tmp_path / "pdsuite.toml").write_text(f"root = true\n\n{toml}")
    called = call(fake_program, "expect", "--reason", "new", ".")
    assert called.out.splitlines() == [
        'mended.pkt: passes, so "fail" is expected no more',
        'other.pkt: "limit 1" is expected from now on',
        "total 4 written 1 taken away 1",
    ]
    assert (tmp_path / "pdsuite.toml").read_text() == (
        'root = true\n\n["known.pkt"]\nexpect = "fail"\nreason = "old"\n\n'
        '["other.pkt"]\nexpect = "limit 1"\nreason = "new"\n\n'
    )
    assert call(fake_program, "run", ".").status == 0


def test_to_take_away_needs_no_reason_and_to_write_does(fake_program: Path, tmp_path: Path, call: Call) -> None:
    write(tmp_path, a=b"row pass 1\n", b=FAILS)
    toml = tmp_path / "pdsuite.toml"
    toml.write_text('root = true\n["a.pkt"]\nexpect = "fail"\nreason = "old"\n')
    before = toml.read_text()
    called = call(fake_program, "expect", ".")
    message = "pdsuite: 1 script doesn't pass, and no --reason says why: nothing is written\n"
    assert (called.status, called.out, called.err, toml.read_text()) == (2, "", message, before)
    called = call(fake_program, "expect", "--only", "a.pkt", ".")
    assert (called.status, called.out.splitlines()[-1]) == (0, "total 1 written 0 taken away 1")
    assert toml.read_text() == "root = true\n"


def test_where_nothing_changes_no_file_is_written(fake_program: Path, tmp_path: Path, call: Call) -> None:
    write(tmp_path, a=b"row pass 1\n")
    called = call(fake_program, "expect", "--reason", "x", ".")
    assert (called.status, called.out) == (0, "total 1 written 0 taken away 0\n")
    assert os.listdir(tmp_path) == ["a.pkt"]


GONE = """# ours
["a.pkt"]
expect = "fail"
reason = "new"

# about b
["b.pkt"]
# why
expect = "fail 12 seq"
reason = "so"

["c.pkt"]
mss = 1000
expect = "fail"
reason = "so"

["d.pkt"]
strict = true

["e.pkt"]
"""


def test_tables_that_it_wrote_of_scripts_that_are_gone_are_taken_away(
    fake_program: Path, tmp_path: Path, call: Call
) -> None:
    write(tmp_path / "t", a=FAILS)
    toml = tmp_path / "t/pdsuite.toml"
    toml.write_text(GONE.partition('\n["c.pkt"]')[0])
    called = call(fake_program, "expect", "t")
    message = 't/pdsuite.toml:7: ["b.pkt"]: no script has this name, so its table goes\n'
    assert (called.status, called.out) == (0, f"{message}total 1 written 0 taken away 1\n")
    assert toml.read_text() == '# ours\n["a.pkt"]\nexpect = "fail"\nreason = "new"\n\n# about b\n# why\n'
    assert call(fake_program, "run", "t").totals == {"known": 1}


def test_of_tables_that_say_more_all_are_taken_away_where_that_is_asked_for(
    fake_program: Path, tmp_path: Path, call: Call
) -> None:
    write(tmp_path / "t", a=FAILS)
    toml = tmp_path / "t/pdsuite.toml"
    toml.write_text(GONE)
    called = call(fake_program, "expect", "t")
    assert (called.status, called.out, toml.read_text()) == (2, "", GONE)
    assert [it.split(": no script")[0] for it in called.err.splitlines()] == [
        't/pdsuite.toml:12: ["c.pkt"]',
        't/pdsuite.toml:17: ["d.pkt"]',
        't/pdsuite.toml:20: ["e.pkt"]',
    ]
    assert call(fake_program, "expect", "--prune", "t/a.pkt").out == "total 1 written 0 taken away 0\n"
    called = call(fake_program, "expect", "--prune", "t")
    assert (called.status, called.err) == (0, "")
    assert called.out.splitlines()[-1] == "total 1 written 0 taken away 4"
    assert toml.read_text() == '# ours\n["a.pkt"]\nexpect = "fail"\nreason = "new"\n\n# about b\n# why\n'
    toml.write_text('"b.pkt" = {mss = 9}\n')
    assert call(fake_program, "expect", "--reason", "so", "--prune", "t").status == 0
    assert toml.read_text() == '["a.pkt"]\nexpect = "fail 1 seq"\nreason = "so"\n'


@pytest.mark.parametrize("key", ["strict = true", "mss = 1000"])
def test_a_table_that_says_more_than_what_is_expected_stays(
    key: str, fake_program: Path, tmp_path: Path, call: Call
) -> None:
    write(tmp_path, a=b"row pass 1\n")
    toml = tmp_path / "pdsuite.toml"
    toml.write_text(text := f'["b.pkt"]\n{key}\nexpect = "fail"\nreason = "so"\n')
    called = call(fake_program, "expect", ".")
    assert (called.status, called.out, toml.read_text()) == (2, "", text)
    assert called.err.startswith('pdsuite.toml:1: ["b.pkt"]: no script of this name is beside the file')


def test_names_of_any_characters_are_written(fake_program: Path, tmp_path: Path, call: Call) -> None:
    for name in NAMES:
        (tmp_path / os.fsdecode(name + b".pkt")).write_bytes(FAILS)
    called = call(fake_program, "expect", "--reason", "so", ".")
    order = [shown for _, shown in sorted(zip(NAMES, SHOWN), key=lambda it: it[0] + b".pkt")]
    assert called.out.splitlines()[:-1] == [f'{it}.pkt: "fail 1 seq" is expected from now on' for it in order]
    called = call(fake_program, "run", ".")
    assert (called.status, called.totals) == (0, {"known": len(NAMES)})


def test_what_no_table_can_have_is_told_and_all_else_is_written(fake_program: Path, tmp_path: Path, call: Call) -> None:
    write(tmp_path, a=FAILS, crashes=b"crash\n")
    (tmp_path / os.fsdecode(b"\xff.pkt")).write_bytes(FAILS)
    (tmp_path / "b.txt").write_bytes(FAILS)
    called = call(fake_program, "expect", "--reason", "so", ".", "b.txt", "gone.pkt")
    assert called.err.splitlines() == [
        "pdsuite: pdregress was ended by SIGSEGV; a new run begins at a.pkt",
        "b.txt: its name doesn't end in .pkt, so no pdsuite.toml has a table for it",
        "crashes.pkt: error: pdregress was ended by SIGSEGV",
        "gone.pkt: error: No such file or directory",
        r"\xff.pkt: its name isn't UTF-8, so no pdsuite.toml has a table for it",
    ]
    assert called.status == 2
    assert called.out.splitlines() == ['a.pkt: "fail 1 seq" is expected from now on', "total 5 written 1 taken away 0"]
    assert (tmp_path / "pdsuite.toml").read_text() == '["a.pkt"]\nexpect = "fail 1 seq"\nreason = "so"\n'


def test_a_link_is_known_by_the_file_that_it_leads_to(fake_program: Path, tmp_path: Path, call: Call) -> None:
    write(tmp_path / "real", a=FAILS)
    (tmp_path / "suite").mkdir()
    (tmp_path / "suite/link.pkt").symlink_to("../real/a.pkt")
    called = call(fake_program, "expect", "--reason", "so", "suite")
    assert called.out.splitlines()[0] == 'suite/link.pkt: "fail 1 seq" is expected from now on'
    assert (tmp_path / "real/pdsuite.toml").read_text().startswith('["a.pkt"]\n')
    assert call(fake_program, "run", "suite").totals == {"known": 1}


def test_a_file_keeps_its_rights_and_a_link_to_it_stays(fake_program: Path, tmp_path: Path, call: Call) -> None:
    write(tmp_path / "suite", a=FAILS)
    (tmp_path / "common.toml").write_text("root = true\n")
    (tmp_path / "common.toml").chmod(0o640)
    (tmp_path / "suite/pdsuite.toml").symlink_to("../common.toml")
    assert call(fake_program, "expect", "--reason", "so", "suite").status == 0
    assert (tmp_path / "suite/pdsuite.toml").is_symlink()
    assert (tmp_path / "common.toml").stat().st_mode & 0o777 == 0o640
    assert '["a.pkt"]' in (tmp_path / "common.toml").read_text()


WRONG = [("", "it is empty, and so says nothing."), (" \t", "it is empty, and so says nothing.")]
WRONG += [("a\nb", "it is no line of characters that print."), ("a\x1b[2J", "it is no line of characters that print.")]


@pytest.mark.parametrize(("reason", "why"), WRONG, ids=range(len(WRONG)))
def test_another_reason_is_refused(reason: str, why: str, fake_program: Path, tmp_path: Path, call: Call) -> None:
    write(tmp_path, a=FAILS)
    called = call(fake_program, "expect", "--reason", reason, ".")
    assert (called.status, called.out) == (2, "")
    assert called.err.splitlines()[-1] == f"Error: Invalid value for '--reason': {why}"
    assert call(fake_program, "expect", "--reason", b"\xff", ".").status == 2


def test_a_file_that_would_be_too_long_is_not_written(fake_program: Path, tmp_path: Path, call: Call) -> None:
    write(tmp_path, a=FAILS)
    text = "root = true\n# " + "x" * 1_048_540 + "\n"
    (tmp_path / "pdsuite.toml").write_text(text)
    called = call(fake_program, "expect", "--reason", "so", ".")
    message = "pdsuite: pdsuite.toml: it would have more than 1,048,576 octets: nothing is written\n"
    assert (called.status, called.out, called.err) == (2, "", message)
    assert (tmp_path / "pdsuite.toml").read_text() == text


def test_where_one_file_cannot_be_edited_none_is_written(fake_program: Path, tmp_path: Path, call: Call) -> None:
    write(tmp_path / "one", a=FAILS)
    write(tmp_path / "two", b=FAILS)
    (tmp_path / "two/pdsuite.toml").write_text('"b.pkt".mss = 1000\nmss = 1\n"b.pkt".sack = true\n')
    called = call(fake_program, "expect", "--reason", "so", "one", "two")
    message = 'pdsuite: two/pdsuite.toml: what it says of ["b.pkt"] can\'t be edited: do it by hand\n'
    assert (called.status, called.out, called.err) == (2, "", message)
    assert not (tmp_path / "one/pdsuite.toml").exists()


def test_a_signal_ends_it_and_nothing_is_written(fake_program: Path, tmp_path: Path) -> None:
    write(tmp_path / "suite", a=FAILS, b=f"stall {tmp_path}/mark\n".encode())
    environment = {**os.environ, "PDSUITE_PROGRAMS": str(fake_program)}
    process = subprocess.Popen([TOP / "pdsuite", "expect", "--reason", "x", "suite"], cwd=tmp_path, env=environment)
    wait_for(tmp_path / "mark")
    process.send_signal(signal.SIGINT)
    assert process.wait(HANGS) == 130
    assert not (tmp_path / "suite/pdsuite.toml").exists()


def test_settings_that_are_refused_end_it(fake_program: Path, tmp_path: Path, call: Call) -> None:
    write(tmp_path, a=FAILS)
    (tmp_path / "pdsuite.toml").write_text('["a.pkt"]\nexpect = "fail"\n')
    called = call(fake_program, "expect", "--reason", "so", ".")
    message = 'pdsuite.toml:2: expect: needs a reason beside it (["a.pkt"])\n'
    assert (called.status, called.out, called.err) == (2, "", message)


def test_where_its_package_is_missing_that_is_named(tmp_path: Path, monkeypatch: pytest.MonkeyPatch) -> None:
    command = copied(tmp_path)
    text = (tmp_path / "client/pdsuite/main.py").read_text()
    (tmp_path / "client/pdsuite/main.py").write_text(
        text.replace('raise_if_module_missing("tomlkit")', 'raise_if_module_missing("nowhere")')
    )
    done = subprocess.run([command, "expect", "."], cwd=tmp_path, capture_output=True, text=True)
    line = "python3-nowhere isn't installed: apt-get install --no-install-recommends python3-nowhere"
    assert (done.returncode, done.stderr) == (2, f"pdsuite: {line}\n")


def test_by_the_program_the_rows_of_a_suite_are_known(programs: Path, tmp_path: Path, call: Call) -> None:
    examples = TOP / "examples/scripts"
    suite = tmp_path / "suite"
    suite.mkdir()
    for path in examples.glob("*.pkt"):
        (suite / path.name).write_bytes(path.read_bytes())
    before: Called = call(programs, "run", "suite")
    assert before.status == 1
    assert call(programs, "expect", "--reason", "an example", "suite").status == 0
    after = call(programs, "run", "suite")
    passing = before.totals["pass"]
    assert (after.status, after.rows, after.totals) == (
        0,
        [],
        {"pass": passing, "known": sum(before.totals.values()) - passing},
    )
