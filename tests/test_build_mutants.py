"""Tests of what builds the sender with all mutants: their bodies side by side, what is left out, and the number."""

import json
import os
import shutil
import subprocess
import sys
import tomllib
from dataclasses import dataclass
from pathlib import Path

import pytest

TOP = Path(__file__).resolve().parents[1]
sys.path.insert(0, str(TOP / "tools"))

from build_mutants import place_of_number, programs_with_mutant  # noqa: E402
from building import NoBuild  # noqa: E402
from mutant_bodies import apply_all_mutants, function_bodies_in  # noqa: E402
from mutant_files import Mutant, MutantError, TextChange, parse_mutants_of_text  # noqa: E402
from mutant_rules import listed_rule_names, read_sender_mutants, rules_of_edits  # noqa: E402

SOURCE = """//! A crate.
const LEAST: u32 = 3;

/// The sum.
pub fn sum(a: u32, b: u32) -> u32
    ensures { result ≡ a + b }
{
    a + b
}

impl Pair {
    pub(super) fn least(&self) -> u32 {
        if self.a < self.b {
            return self.a;
        }
        self.b
    }

    fn both(
        &self,
        more: u32,
    ) -> u32
        requires { small more }
    {
        self.a + self.b + more
    }
}
"""
FILE = "crates/a/src/pairs.rt"
USE = "fn use_of_least(a: u32) -> u32 {\n    a + LEAST + LEASTS\n}\n"


def make_mutant(name: str, *changes: "tuple[str, str]") -> Mutant:
    return Mutant(name, test="search", changes=[TextChange(FILE, old, new) for old, new in changes])


def make_tree(folder: Path) -> Path:
    (folder / "crates/a/src").mkdir(parents=True)
    (folder / FILE).write_text(SOURCE)
    (folder / "crates/a/src/lib.rt").write_text(f"//! A crate.\nmod pairs;\n{USE}")
    return folder


def test_bodies_are_found_whatever_stands_before_them() -> None:
    found = [SOURCE[begin:end] for begin, end in function_bodies_in(SOURCE)]
    assert [found[0], found[2]] == ["    a + b\n", "        self.a + self.b + more\n"]
    assert found[1].startswith("        if self.a") and found[1].endswith("        self.b\n")


def test_each_mutant_has_a_body_of_its_own_and_the_last_is_as_it_was(tmp_path: Path) -> None:
    first = make_mutant("a", ("self.a < self.b", "true"), ("return self.a;", "return 0;"))
    applied = apply_all_mutants({1: first, 2: make_mutant("b", ("self.a < self.b", "false"))}, make_tree(tmp_path))
    text = (tmp_path / FILE).read_text()
    assert "match crate::chosen_mutant() {\n1 => {        if true {" in text
    assert "2 => {        if false {" in text and "_ => {        if self.a < self.b {" in text
    assert "pub fn chosen_mutant() -> u32 {" in (tmp_path / "crates/a/src/lib.rt").read_text()
    assert not applied.left_out


def test_what_cannot_be_applied_is_left_out_and_the_others_are_applied(tmp_path: Path) -> None:
    wrong = {
        1: make_mutant("outside", ("impl Pair", "impl Pairs")),
        2: make_mutant("twice", ("self.b", "self.a")),
        4: Mutant("lost", changes=[TextChange("crates/a/src/lost.rt", "a", "b")]),
    }
    applied = apply_all_mutants({**wrong, 3: make_mutant("b", ("+ more", "+ 1"))}, make_tree(tmp_path))
    assert applied.left_out == {
        1: f"{FILE}: 'impl Pair' stands in no function",
        2: f"'self.b' stands in {FILE} 3 times, and not once",
        4: "there is no file crates/a/src/lost.rt",
    }
    assert "\n3 => {" in (tmp_path / FILE).read_text()


def test_a_mutant_of_a_constant_has_its_value_in_each_function_that_uses_it(tmp_path: Path) -> None:
    apply_all_mutants({1: make_mutant("a", ("LEAST: u32 = 3", "LEAST: u32 = 4"))}, make_tree(tmp_path))
    text = (tmp_path / "crates/a/src/lib.rt").read_text()
    assert "1 => {    a + (4) + LEASTS\n}\n_ => {    a + LEAST + LEASTS\n}" in text
    assert "const LEAST: u32 = 3;" in (tmp_path / FILE).read_text()


def test_an_error_is_of_the_mutant_in_whose_body_it_is(tmp_path: Path) -> None:
    mutants = {1: make_mutant("a", ("+ more", "\n+ c")), 2: make_mutant("b", ("+ more", "+ d"))}
    applied = apply_all_mutants(mutants, make_tree(tmp_path))
    lines = (tmp_path / FILE).read_text().splitlines()
    place = f"{tmp_path / FILE}:%d:3: error[unknown]: no %s\n"
    at = {it: next(number for number, line in enumerate(lines, 1) if it in line) for it in ("+ c", "+ d", "+ more")}
    printed = "".join(place % (number, it) for it, number in at.items()).encode()
    found = applied.errors_by_number_of_mutant(printed + b"run=none proved=no\n", tmp_path)
    assert found == {1: "error[unknown]: no + c", 2: "error[unknown]: no + d"}


def test_a_number_is_written_where_the_program_reads_it(tmp_path: Path) -> None:
    mark = bytes.fromhex("a7f16970060bed5e7aece71d")
    program = tmp_path / "program"
    program.write_bytes(b"before" + mark + bytes(4) + b"after")
    programs = programs_with_mutant(program, 7, tmp_path / "seven")
    assert {it.read_bytes() for it in programs.values()} == {b"before" + mark + b"\7\0\0\0" + b"after"}
    for octets in (b"no number", mark + mark):
        with pytest.raises(NoBuild):
            place_of_number(octets)


RULED = "# a\nrule: {}\nfile: src/a.rt\nold: b\nnew: c\n"


def test_a_mutant_names_the_rules_that_it_breaks() -> None:
    for text, rules in (
        ("rfc9293.ack", ("rfc9293.ack",)),
        ("own.limit, rfc1.a-b.c", ("own.limit", "rfc1.a-b.c")),
        ("none", ()),
    ):
        (mutant,) = parse_mutants_of_text(RULED.format(text))
        assert mutant.rules == rules
        assert mutant.kit_edit_file_text.startswith(f"rule: {text}\nfile: src/a.rt\n")
    assert parse_mutants_of_text(RULED.format("none").replace("rule: none\n", ""))[0].rules is None


@pytest.mark.parametrize(
    ("text", "why"),
    [
        (RULED.format("ack"), "2: 'ack' is no name of a rule"),
        (RULED.format(""), "2: '' is no name of a rule"),
        (RULED.format("none, rfc9293.ack"), "2: 'none' is no name of a rule"),
        (RULED.format("own.a, own.a"), "2: 'rule: own.a, own.a' has a name twice"),
        (RULED.format("own.a\nrule: own.b"), "3: a line 'rule:' can't stand there"),
        ("# a\nfile: src/a.rt\nrule: own.a\nold: b\nnew: c\n", "3: a line 'rule:' can't stand there"),
    ],
)
def test_a_line_of_rules_that_is_refused(text: str, why: str) -> None:
    with pytest.raises(MutantError, match=why):
        parse_mutants_of_text(text)
    with pytest.raises(MutantError, match="'rule:' can't stand there"):
        parse_mutants_of_text(RULED.format("own.a").replace("rule", "fails: a b\nrule"), True, ())


def test_each_mutant_of_the_sender_names_rules_that_there_are() -> None:
    found = read_sender_mutants(TOP)
    assert {it.name.partition("/")[0] for it in found} == {"pd_board", "pd_recover", "pd_timer", "pd_host"}
    assert len({it.name for it in found}) == len(found)
    assert {rule for it in found for rule in it.rules} <= listed_rule_names(TOP)


def test_the_list_of_the_suite_has_the_mutants_and_why_some_live() -> None:
    """Mutants that can't be built aren't listed."""
    suite = TOP / "examples/suite"
    listed = tomllib.loads((suite / "reached.toml").read_text())["mutants"]
    rules = {it.name: sorted(it.rules) for it in read_sender_mutants(TOP) if it.rules}
    assert {name: it["rules"] for name, it in listed.items()}.items() <= rules.items()
    living = tomllib.loads((suite / "coverage.toml").read_text())["living"]
    assert {name for name, it in listed.items() if not it["turned"]} == living.keys()
    assert all(living.values())


def test_each_listed_edit_is_a_mutant_of_the_sender() -> None:
    assert {*rules_of_edits(TOP)} <= {it.name for it in read_sender_mutants(TOP)}


@dataclass(frozen=True)
class MutantFixture:
    """A tree with a sender of two functions, and a fake kit."""

    folder: Path

    @property
    def tree(self) -> Path:
        return self.folder / "tree"

    def run_tool(self, **more: str) -> "subprocess.CompletedProcess[str]":
        own = {"PATH": f"{self.folder / 'kit/bin'}:{os.environ['PATH']}", "NOTES": str(self.folder / "notes")}
        environment = {**os.environ, **own, "XDG_CACHE_HOME": str(self.folder / "cache"), **more}
        command = [sys.executable, "-B", str(TOP / "tools/build_mutants.py"), "--tree", str(self.tree)]
        return subprocess.run(command, capture_output=True, text=True, env=environment, timeout=60)

    def put_mutants(self, *mutants: str) -> None:
        (self.tree / "crates/pd_board/contracts.mutants").write_text("\n".join(mutants))

    def mutant(self, name: str, new: str, rule: str = "rfc9293.ack") -> str:
        return f"# {name}\nrule: {rule}\nfile: src/lib.rt\nold:     one\nnew:     {new}\n"


@pytest.fixture
def fixture(tmp_path: Path) -> MutantFixture:
    fixture = MutantFixture(tmp_path)
    shutil.copytree(TOP / "tests/fake_kit", tmp_path / "kit")
    for crate in ("pd_board", "pdregress", "pdrecord"):
        (fixture.tree / "crates" / crate / "src").mkdir(parents=True)
        (fixture.tree / "crates" / crate / "src/main.rt").write_text(f"{crate}\n")
    (fixture.tree / "crates/pd_board/src/lib.rt").write_text("fn first() {\n    one\n}\n")
    (fixture.tree / "crates/pd_board/must-fail").mkdir()
    edit = fixture.mutant("x", "other", "own.unlisted").partition("\n")[2]
    (fixture.tree / "crates/pd_board/must-fail/edit.edit").write_text(edit.replace("own.unlisted", "rfc9293.rst"))
    (fixture.tree / "client/pdsuite/rules").mkdir(parents=True)
    shutil.copy(TOP / "client/pdsuite/rules/rules.toml", fixture.tree / "client/pdsuite/rules")
    (fixture.tree / "crates.txt").write_text("pd_board:\npdregress: pd_board\npdrecord: pd_board\n")
    (fixture.tree / "HANDLES").write_text("Handles allowed: Threads.\n")
    (tmp_path / "notes").mkdir()
    return fixture


def test_a_build_has_all_mutants_that_compile_and_is_kept(fixture: MutantFixture) -> None:
    # The fake compiler finds an error where a line is `wrong`.
    fixture.put_mutants(
        fixture.mutant("good", "two"),
        fixture.mutant("bad", "x\n").replace("new:     x\n", "new: wrong"),
        fixture.mutant("shown", "three", "none"),
        fixture.mutant("lost", "four").replace("old:     one", "old: none"),
    )
    source = fixture.tree / "crates/pd_board/src/lib.rt"
    source.write_text("fn first() {\n    one\nzero\n}\n")
    (fixture.tree / "crates/pd_board/contracts.mutants").write_text(
        (fixture.tree / "crates/pd_board/contracts.mutants")
        .read_text()
        .replace("old:     one\nnew: wrong", "old: zero\nnew: wrong")
    )
    done = fixture.run_tool()
    *phases, last = done.stdout.splitlines()
    assert (phases, done.stderr, done.returncode) == (["reading", "compiling", "linking"], "", 0)
    folder = Path(last.removeprefix("built "))
    listed = json.loads((folder / "mutants.json").read_text())
    changed = "crates/pd_board/src/lib.rt: one -> "
    assert listed["mutants"] == [
        {"number": 1, "name": "pd_board/good", "rules": ["rfc9293.ack"], "words": f"{changed}two"},
        {"number": 4, "name": "pd_board/edit", "rules": ["rfc9293.rst"], "words": f"{changed}other"},
    ]
    assert listed["left out"] == [
        {"name": "pd_board/bad", "why": "error[mismatched-types]: wrong"},
        {"name": "pd_board/lost", "why": "'none' stands in crates/pd_board/src/lib.rt 0 times, and not once"},
    ]
    program = (folder / "pdregress").read_bytes()
    assert program[listed["place"] - 4 : listed["place"]] == bytes.fromhex("7aece71d")
    assert b"1 => {    two\n" in program and b"4 => {    other\n" in program and b"wrong" not in program
    (fixture.folder / "notes/calls").unlink()
    assert fixture.run_tool().stdout == f"{last}\n" and not (fixture.folder / "notes/calls").exists()
    fixture.put_mutants(fixture.mutant("good", "five"))
    assert fixture.run_tool().stdout.startswith("reading\n")


def test_a_sender_that_does_not_compile_is_refused(fixture: MutantFixture) -> None:
    main = fixture.tree / "crates/pd_board/src/lib.rt"
    main.write_text(f"{main.read_text()}wrong\n")
    done = fixture.run_tool()
    first, place, *_ = done.stderr.splitlines()
    assert (first, done.returncode) == ("unproved: NotCompiled: the program doesn't compile", 2)
    assert place == f"{main}:4:1: error[mismatched-types]: wrong"


@pytest.mark.parametrize(
    ("rule", "why"),
    [
        ("rule: own.unlisted\n", "there is no rule 'own.unlisted' in client/pdsuite/rules/rules.toml"),
        ("", "names no rule: it needs a line 'rule:', before 'file:', or a line in tools/edit_rules.toml"),
    ],
    ids=["unknown", "none"],
)
def test_a_mutant_of_no_rule_that_there_is_is_refused(fixture: MutantFixture, rule: str, why: str) -> None:
    fixture.put_mutants(fixture.mutant("good", "two").replace("rule: rfc9293.ack\n", rule))
    done = fixture.run_tool()
    assert done.stderr.startswith("unproved: BadMutant: pd_board/good") and done.stderr.endswith(f"{why}\n")
    assert (done.stdout, done.returncode) == ("", 2)


def test_without_the_kit_nothing_is_built(fixture: MutantFixture) -> None:
    done = fixture.run_tool(PATH=str(fixture.folder))
    assert (done.stdout, done.stderr) == ("", "unproved: NoBuild: no command rt is on the PATH\n")
    assert done.returncode == 3
