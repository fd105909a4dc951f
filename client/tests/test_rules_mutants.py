"""`pdsuite rules --mutants`: which rules scripts guard, by fake programs of a sender with mutants."""

import json
import shutil
from pathlib import Path
from typing import Any

import pytest

from pdsuite.rules.mutants import BuiltMutant, Guard, TriedMutant, guarded_rules
from pdsuite.rules.reached_rules import ReachedRules, uses_of_rules_by_name
from pdsuite.rules.report import VERSION
from pdsuite.rules.rule_list import SenderRule, load_sender_rules
from tests.helpers import PASSES, Call, Called, write
from tests.test_pdsuite import shown_on_terminal
from tests.tree_fixture import HERE, Tree

ACK, RST, EXPIRY = "rfc9293.ack", "rfc9293.rst", "rfc6298.expiry"
WORDS = {it.name: it.words for it in load_sender_rules()}
BUILDING = "pdsuite: building the sender with its mutants first\n"
SCRIPTS = {
    "a": f"sender\nrules 2 {ACK}\n".encode(),
    "b": f"row pass 1\nrules 2 {RST} {ACK}\n".encode(),
    "c": b"sender\n",
}
MUTANTS = (
    f"pd_host/seen {ACK} fail 1 seq",
    f"pd_host/lives {RST},{ACK} pass 1",
    f"pd_timer/early {EXPIRY} pass 1",
    "pd_board/bad lost error: wrong",
    "pd_board/fails own.new fail 2 ack",
)


@pytest.fixture
def tree(tmp_path: Path) -> Tree:
    """A tree with a fake tool that builds mutants, and three scripts."""
    tree = Tree(tmp_path)
    shutil.copy(HERE / "fake_build_mutants.py", tree.top / "tools/build_mutants.py")
    put_mutants(tree, *MUTANTS)
    write(tree.suite, **SCRIPTS)
    return tree


def put_mutants(tree: Tree, *lines: str) -> None:
    (tree.top / "mutants").write_text("".join(f"{it}\n" for it in lines))


def test_a_rule_is_guarded_where_each_of_its_mutants_turns_a_script() -> None:
    uses = uses_of_rules_by_name(
        [SenderRule(it) for it in ("none", "b", "a", "c")], [ReachedRules("x", 9, {1: ("a", "c")})]
    )
    kinds = ((("a", "b"), ()), (("a", "new"), ("x",)), (("c",), ("x", "y")))
    tried = [TriedMutant(BuiltMutant(1, f"m{it}", rules, ""), turned) for it, (rules, turned) in enumerate(kinds)]
    found = [(it.use.rule.name, it.guard, [one.mutant.name for one in it.living]) for it in guarded_rules(uses, tried)]
    assert found == [
        ("b", Guard.NOT, ["m0"]),
        ("a", Guard.ONLY, ["m0"]),
        ("c", Guard.GUARDED, []),
        ("new", Guard.GUARDED, []),
    ]


def test_the_table_has_how_each_rule_is_guarded_and_the_mutants_that_live(tree: Tree) -> None:
    called = tree.call("rules", "--mutants", "suite")
    assert called.out.splitlines() == [
        f"rfc6298.expiry  not come to     0 of 1  {WORDS[EXPIRY]}",
        "  pd_timer/early: a.rt: pd_timer/early -> pass 1",
        f"rfc9293.ack     only come to    1 of 2  {WORDS[ACK]}",
        "  pd_host/lives: a.rt: pd_host/lives -> pass 1",
        f"rfc9293.rst     only come to    0 of 1  {WORDS[RST]}",
        "  pd_host/lives: a.rt: pd_host/lives -> pass 1",
        "own.new         guarded         1 of 1",
        "total 3 not passing 0 rules 4 guarded 1 only come to 2 not come to 1 mutants 4 living 2 left out 1 UNPROVED",
    ]
    assert (called.status, called.err) == (0, f"{BUILDING}pdsuite: pd_board/bad is left out: error: wrong\n")


def printed(called: Called) -> Any:
    """The object that a call printed."""
    assert called.status == 0
    return json.loads(called.out)


def test_json_has_the_scripts_that_turn_under_each_mutant(tree: Tree) -> None:
    found = printed(tree.call("rules", "--mutants", "--json", "suite"))
    assert found["version"] == VERSION and found["UNPROVED"] is True
    turned = ["suite/a.pkt", "suite/c.pkt"]
    seen = {"mutant": "pd_host/seen", "words": "a.rt: pd_host/seen -> fail 1 seq", "turned": turned}
    lives = {"mutant": "pd_host/lives", "words": "a.rt: pd_host/lives -> pass 1", "turned": []}
    rule = found["rules"][1]
    assert rule.pop("mutants") == [seen, lives]
    assert rule == {"rule": ACK, "words": WORDS[ACK], "guard": "only come to", "scripts": 2}
    assert found["left out"] == [{"mutant": "pd_board/bad", "why": "error: wrong"}]
    assert found["total"] == {
        **{"scripts": 3, "not passing": 0, "rules": 4, "guarded": 1, "only come to": 2, "not come to": 1},
        **{"mutants": 4, "living": 2, "left out": 1},
    }


def test_a_rule_is_shown_with_all_of_its_mutants_which_alone_are_tried(tree: Tree) -> None:
    called = tree.call("rules", "--mutants", "--rule", ACK, "suite")
    assert called.out.splitlines() == [
        "rfc9293.ack: only come to",
        "  pd_host/seen: a.rt: pd_host/seen -> fail 1 seq",
        "    suite/a.pkt",
        "    suite/c.pkt",
        "  pd_host/lives: a.rt: pd_host/lives -> pass 1",
    ]
    found = printed(tree.call("rules", "--mutants", "--json", "--rule", RST, "suite"))
    assert [it["rule"] for it in found["rules"]] == [RST]
    assert (found["total"]["mutants"], found["total"]["rules"]) == (1, 1)


def test_that_no_mutant_breaks_a_rule_is_said(tree: Tree) -> None:
    called = tree.call("rules", "--mutants", "--rule", "rfc9293.syn-ack", "suite")
    assert (called.status, called.out) == (0, "")
    assert called.err.endswith("pdsuite: no mutant breaks rfc9293.syn-ack\n")


def test_a_script_that_does_not_pass_turns_only_where_its_row_is_another(tree: Tree) -> None:
    write(tree.suite, c=b"row fail 3 seq\n", d=b"?\n")
    (tree.suite / "e.pkt").mkdir()
    called = tree.call("rules", "--mutants", "--rule", ACK, "suite/a.pkt", "suite/c.pkt", "suite/lost.pkt")
    assert [it for it in called.out.splitlines() if it.startswith("    ")] == ["    suite/a.pkt"]
    assert called.status == 2 and called.err.endswith("suite/lost.pkt: error: No such file or directory\n")


def test_a_mutant_on_which_the_program_ends_turns_one_script_and_the_next_is_tried(tree: Tree) -> None:
    put_mutants(tree, f"m/ends {ACK} crash", f"m/seen {ACK} fail 1 seq", f"m/limited {ACK} limited")
    found = printed(tree.call("rules", "--mutants", "--json", "--workers", "1", "suite"))
    assert [it["turned"] for it in found["rules"][0]["mutants"]] == [
        ["suite/a.pkt"],
        ["suite/a.pkt", "suite/c.pkt"],
        [],
    ]


def test_without_a_path_the_scripts_of_the_tree_are_run(tree: Tree) -> None:
    write(tree.top / "examples/suite", **SCRIPTS, d=PASSES)
    for words, scripts in ((("--only", "b*"), 1), ((), 4)):
        found = printed(tree.call("rules", "--mutants", "--json", *words))
        assert found["total"]["scripts"] == scripts


def test_a_setting_that_is_refused_is_said_and_nothing_is_tried(tree: Tree) -> None:
    called = tree.call("rules", "--mutants", "--settings", "no_such = 1", "suite")
    assert (called.status, called.out) == (2, "")
    assert called.err.endswith("--settings: no_such: UnknownKey\n")


def test_where_nothing_can_be_built_a_line_says_why(tree: Tree, tmp_path: Path) -> None:
    (tree.top / "mutants").unlink()
    called = tree.call("rules", "--mutants", "suite")
    reason = "--mutants: the sender can't be built here: no command rt is on the PATH"
    assert (called.status, called.out, called.err) == (2, "", f"pdsuite: {reason}\n")
    put_mutants(tree, "wrong")
    called = tree.call("rules", "--mutants", "suite")
    assert (called.status, called.out) == (2, "")
    assert called.err.endswith("unproved: NotCompiled: the program doesn't compile\na.rt:1:4: error: wrong\n")
    (tree.top / "tools/build_mutants.py").unlink()
    called = tree.call("rules", "--mutants", "suite")
    reason = "--mutants builds the sender, and here is no tree of its sources"
    assert (called.status, called.out, called.err) == (2, "", f"pdsuite: {reason}\n")


def test_programs_without_their_sources_are_refused(fake_program: Path, tmp_path: Path, call: Call) -> None:
    write(tmp_path, a=PASSES)
    called = call(fake_program, "rules", "--mutants", ".")
    reason = "--mutants builds the sender: PDSUITE_PROGRAMS names programs, and no tree of their sources"
    assert (called.status, called.out, called.err) == (2, "", f"pdsuite: {reason}\n")


@pytest.mark.parametrize("words", [("--script", "a.pkt"), ("--html", "page", ".")], ids=["script", "page"])
def test_words_of_other_forms_are_refused(words: tuple[str, ...], tree: Tree) -> None:
    called = tree.call("rules", "--mutants", *words)
    assert (called.status, called.out) == (2, "")
    assert called.err.endswith("Error: --mutants tries rules on scripts, and takes no --script or --html\n")


def test_a_terminal_shows_how_many_mutants_are_tried(tree: Tree) -> None:
    command: list[str | Path] = [tree.top / "pdsuite", "rules", "--mutants", "suite"]
    environment = {**tree.environment, "TERM": "xterm-256color", "NO_COLOR": ""}
    status, shown = shown_on_terminal(command, tree.suite.parent, environment)
    assert status == 0 and b"building: compiling, 0 s" in shown and b"2/4" in shown and b"mutants" in shown
    last = shown[shown.rindex(b"\x1b[2K") :]
    assert b"\x1b[33mrfc9293.ack     only come to " in last and b"/4" not in last
