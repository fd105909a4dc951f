"""`pdsuite compare --rules`, by fake programs: which rules of the sender other scripts come to after a change."""

import re
import shutil
from collections.abc import Sequence
from html import unescape
from pathlib import Path

import pytest

from pdsuite.compare.comparison import ComparedScript, ComparisonKind, SenderResults
from pdsuite.compare.rule_changes import RuleChange, RuleChanges, ScriptAtRule
from pdsuite.compare.senders import Sender
from pdsuite.compare.sides import make_side_named_with_settings
from pdsuite.compare.two_senders import ComparisonTask, run_both_senders
from pdsuite.page.comparison import ComparisonPage
from pdsuite.programs.protocol import RulesByLine
from pdsuite.programs.verdict import Row, Verdict
from pdsuite.reports.comparison import ComparisonReport, comparison_json
from pdsuite.reports.comparison_markdown import whole_comparison_as_markdown
from pdsuite.reports.rule_changes import rule_changes_text
from pdsuite.rules.changes import changes_of_reached_rules
from pdsuite.run.batches import SuiteScript
from pdsuite.run.outcomes import ScriptOutcome
from pdsuite.scripts.config import BASE_OPTION, WITH_OPTION
from pdsuite.scripts.text import ScriptText
from pdsuite.signals import Stop
from tests.helpers import Call, Called, write
from tests.schemas import held
from tests.test_rules import ACK, EXPIRY, OLD, RST, WORDS
from tests.tree_fixture import HERE, Tree

SAME, UNKNOWN = ComparisonKind.SAME, ComparisonKind.UNKNOWN
NAMES = ("one <x>", "other")
WAY = f"write one, or let pdsuite search --for rule:{RST} make one"
UNREACHED = f"no script comes to it any more: {WAY}"


def compared(*kinds: ComparisonKind) -> list[ComparedScript]:
    """Scripts `0.pkt` and so on, which compare so."""
    outcomes = [ScriptOutcome(f"{number}.pkt", (), Row(Verdict.PASS, 3)) for number in range(len(kinds))]
    return [ComparedScript(number, kind, outcomes[number], outcomes[number]) for number, kind in enumerate(kinds)]


def results(*rules: RulesByLine | None) -> SenderResults:
    """The results of scripts with these rules, or with unknown ones."""
    texts = {number: ScriptText(b"", 9) for number in range(len(rules))}
    return SenderResults({}, texts, rules={number: it for number, it in enumerate(rules) if it is not None})


def test_the_most_changed_rule_comes_first_with_the_scripts_that_come_to_it_under_one_sender_alone() -> None:
    before = results({2: (ACK, RST), 3: (ACK,)}, {4: (ACK,)}, {5: (RST,)})
    after = results({2: (RST,)}, {4: (ACK,), 6: ("own.new",)}, {5: (ACK, RST), 7: (ACK,)})
    found = changes_of_reached_rules(compared(SAME, SAME, SAME), before, after, NAMES)
    gone, new = (ScriptAtRule("0.pkt", (2, 3)),), (ScriptAtRule("2.pkt", (5, 7)),)
    changes = (
        RuleChange(ACK, WORDS[ACK], 2, 2, gone, new),
        RuleChange("own.new", "", 0, 1, (), (ScriptAtRule("1.pkt", (6,)),)),
    )
    assert found == RuleChanges(changes, 3)
    # Of as many scripts, the order is that of the list.
    both = changes_of_reached_rules(compared(SAME), results({2: (EXPIRY, ACK)}), results({}), NAMES)
    assert [it.name for it in both.changes] == [it for it in WORDS if it in (ACK, EXPIRY)]


def test_only_scripts_count_that_are_compared_and_whose_rules_are_known_under_both_senders() -> None:
    kinds = (SAME, UNKNOWN, SAME, ComparisonKind.TURNED)
    before, after = results(*({2: (ACK,)} for _ in kinds)), results({3: (ACK,)}, {}, None, {})
    found = changes_of_reached_rules(compared(*kinds), before, after, NAMES)
    assert found == RuleChanges((RuleChange(ACK, WORDS[ACK], 2, 1, (ScriptAtRule("3.pkt", (2,)),), ()),), 2)


def at(*paths: str) -> tuple[ScriptAtRule, ...]:
    return tuple(ScriptAtRule(it, (2, 3, 5)) for it in paths)


CHANGED = RuleChanges(
    (
        RuleChange(ACK, WORDS[ACK], 6, 3, at("a", "b", "c", "d"), at("e")),
        RuleChange(RST, WORDS[RST], 1, 0, (ScriptAtRule("f\x07", (7,)),), ()),
        RuleChange("own.`new`", "", 0, 2, (), at("a", "b")),
    ),
    9,
)
ALL_LINES = [
    f"rule {ACK}: 6 scripts before, 3 after",
    *(f"  {it}: no longer (lines 2-3, 5)" for it in "abcd"),
    "  e: newly (lines 2-3, 5)",
    f"rule {RST}: 1 script before, none after",
    f"  {UNREACHED}",
    "  f\\x07: no longer (line 7)",
    "rule own.`new`: no script before, 2 after",
    *(f"  {it}: newly (lines 2-3, 5)" for it in "ab"),
]


def test_each_rule_has_a_line_and_some_of_its_scripts_below_it_or_all() -> None:
    assert rule_changes_text(CHANGED, True).text_without_styles.splitlines() == ALL_LINES
    few = [*ALL_LINES[:4], ALL_LINES[5], "  1 more (--every)", *ALL_LINES[6:]]
    assert rule_changes_text(CHANGED, False).text_without_styles.splitlines() == few


UNKNOWN_RULES = RuleChanges(senders_without_rules={"before": NAMES[0]})
LINES = [
    (RuleChanges((), 1), "rules: of 1 compared script, the same come to each before and after"),
    (UNKNOWN_RULES, f"rules: unknown, since {NAMES[0]} knows no option --rules"),
    (
        RuleChanges(senders_without_rules=dict(zip(("before", "after"), NAMES))),
        f"rules: unknown, since {NAMES[0]} and {NAMES[1]} know no option --rules",
    ),
]


@pytest.mark.parametrize(("found", "line"), LINES, ids=["same", "one unknown", "both unknown"])
def test_one_line_says_that_no_rule_differs_or_that_a_sender_lists_none(found: RuleChanges, line: str) -> None:
    assert rule_changes_text(found, False).text_without_styles == f"{line}\n"


def report_of(rules: RuleChanges | None) -> ComparisonReport:
    return ComparisonReport(compared(SAME), None, 1.0, False, rules=rules)


def test_as_json_the_rules_have_all_scripts() -> None:
    found = held("compare", comparison_json(report_of(CHANGED), NAMES).text_without_styles)["rules"]
    assert (found["unknown"], found["scripts"], len(found["changes"])) == ([], 9, 3)
    gone = [{"path": "f\\x07", "lines": [7]}]
    assert found["changes"][1] == {"rule": RST, "words": WORDS[RST], "before": 1, "after": 0, "gone": gone, "new": []}
    assert [it["path"] for it in found["changes"][0]["gone"]] == list("abcd")
    unknown = held("compare", comparison_json(report_of(UNKNOWN_RULES), NAMES).text_without_styles)["rules"]
    assert unknown == {"unknown": ["before"], "scripts": 0, "changes": []}
    assert "rules" not in held("compare", comparison_json(report_of(None), NAMES).text_without_styles)


def markdown(rules: RuleChanges | None) -> list[str]:
    """The part on rules."""
    lines = whole_comparison_as_markdown(report_of(rules), NAMES).text_without_styles.splitlines()
    return lines[6:]


def test_as_markdown_the_rules_are_a_list_below_a_title() -> None:
    assert markdown(CHANGED)[:9] == [
        "### rules: other scripts come to 3 rules",
        "",
        f"- `{ACK}`: 6 scripts before, 3 after",
        *(f"  - `{it}`: no longer (lines 2-3, 5)" for it in "abc"),
        "  - `e`: newly (lines 2-3, 5)",
        "  - 1 more (--every)",
        f"- `{RST}`: 1 script before, none after",
    ]
    assert f"  - **no script comes to it any more**: {WAY}" in markdown(CHANGED)
    assert markdown(UNKNOWN_RULES) == ["### rules: unknown, since one \\<x\\> knows no option --rules"]
    assert markdown(None) == []


def page(folder: Path, rules: RuleChanges | None) -> str:
    sides = (SenderResults({}), SenderResults({}))
    ComparisonPage(folder).write_page_and_remove_stale(compared(SAME), sides, NAMES, False, rules)
    return unescape((folder / "index.html").read_text())


def test_the_page_has_each_rule_with_all_of_its_scripts(tmp_path: Path) -> None:
    text = page(tmp_path / "page", CHANGED)
    assert re.findall(r'<details id="(.+)">', text) == [it.name for it in CHANGED.changes]
    rows = re.findall(r'<th scope="row">(.+)</th><td>(.+)</td>', text)
    assert [f"  {path}: {words}" for path, words in rows] == [it for it in ALL_LINES if "(line" in it]
    assert f'<p class="warned">{UNREACHED}</p>' in text and text.count("warned") == 2
    assert f"<p>{LINES[1][1]}</p>" in page(tmp_path / "page", UNKNOWN_RULES)
    assert "Rules that other" not in page(tmp_path / "page", None)


def make_sender(folder: Path, change: str = "", words: str = "") -> Path:
    """A folder of fake programs, with a list of their starts; pdregress is changed, where its words have these."""
    folder.mkdir(parents=True)
    shutil.copy(HERE / "fake_pdregress.py", folder / "fake")
    shutil.copy(HERE / "fake_pdrecord.py", folder / "pdrecord")
    note = f'echo "$*" | tr "\\n" " " >>{folder}/starts'
    run = f'exec {folder}/fake "$@"'
    if change:
        run = f"case \"$*\" in *'{words}'*) exec sed -u '{change}' | {folder}/fake \"$@\" ;; *) {run} ;; esac"
    (folder / "pdregress").write_text(f"#!/bin/sh\n{note}\n{run}\n")
    (folder / "pdregress").chmod(0o755)
    return folder


def make_old_sender(folder: Path) -> Path:
    """A folder of fake programs that know no option --rules."""
    make_sender(folder)
    shutil.copy(folder / "fake", folder / "pdregress.py")
    (folder / "pdregress").write_text(OLD)
    return folder


def rules_of_both(
    before: Path, after: Path, texts: Sequence[bytes], with_settings: str = ""
) -> list[dict[int, RulesByLine] | None]:
    """The rules that both senders list of scripts."""
    scripts = [SuiteScript(number, f"{number}.pkt", (), held=text) for number, text in enumerate(texts)]
    senders = [Sender(it.name, {"pdregress": it / "pdregress"}, None) for it in (before, after)]
    options = ((senders[0], "", BASE_OPTION), (senders[1], with_settings, WITH_OPTION))
    task = ComparisonTask(scripts, [], False, lists_rules=True)
    with Stop() as stop:
        found = run_both_senders([make_side_named_with_settings(*it) for it in options], task, 1, stop, lambda _: None)
    return [None if it.rules is None else dict(it.rules) for it in found]


def test_a_script_comes_to_rules_under_the_settings_of_each_side(tmp_path: Path) -> None:
    sender = make_sender(tmp_path / "sender", f"s/^rules 2 .*/rules 2 {RST}/", "early = 4")
    texts = [f"row pass 2\nrules 2 {ACK}\n".encode()]
    assert rules_of_both(sender, sender, texts, "early = 4") == [{0: {2: (ACK,)}}, {0: {2: (RST,)}}]


def test_the_rules_of_a_script_aren_t_known_on_which_a_program_ends(tmp_path: Path) -> None:
    before = make_sender(tmp_path / "before", "s/^crash/none/")
    texts = [b"row fail 2 seq\ncrash\n", b"crash\n", f"rules 1 {ACK}\n".encode()]
    # The first one has a row after the change, too, but only from a program that lists no rules.
    both = [{0: {}, 1: {}, 2: {1: (ACK,)}}, {2: {1: (ACK,)}}]
    assert rules_of_both(before, make_sender(tmp_path / "after"), texts) == both


@pytest.fixture
def suite(tmp_path: Path) -> Path:
    """Two scripts that come to a rule."""
    write(tmp_path / "s", **{it: f"row pass 2\nrules 2 {ACK}\n".encode() for it in "ab"})
    return tmp_path / "s"


def lines_on_rules(called: Called) -> list[str]:
    """The lines between the counts of the folder and the total."""
    first, *lines, total = called.out.splitlines()
    assert first.startswith("s: 2 scripts, ") and total.startswith("total 2 ")
    return lines


@pytest.mark.parametrize("words", [(), ("--rules",)], ids=["without", "with"])
def test_rules_are_listed_before_the_total_where_they_are_requested(
    words: tuple[str, ...], suite: Path, tmp_path: Path, call: Call
) -> None:
    before = make_sender(tmp_path / "before")
    after = make_sender(tmp_path / "after", f"s/^rules 2 .*/rules 2 {ACK} {RST}/")
    called = call(None, "compare", *words, "--base", before, "--with", after, "s")
    starts = [(it / "starts").read_text().split() for it in (before, after)]
    if words:
        lines = [f"rule {RST}: no script before, 2 after", *(f"  s/{it}.pkt: newly (line 2)" for it in "ab")]
        unknown = f"changed rules: unknown, since the sources of {before} and {after} aren't known"
        assert (called.status, lines_on_rules(called)) == (1, [*lines, unknown])
        assert [it.count("--rules") for it in starts] == [2, 2]
    else:
        assert (called.status, lines_on_rules(called)) == (0, [])
        assert starts == [["--explain", "--json", "--cache", "1"]] * 2
    assert called.err == f"pdsuite: before: {before}; after: {after}\n"


def test_of_a_sender_that_lists_no_rules_one_line_is_said(suite: Path, tmp_path: Path, call: Call) -> None:
    before, after = make_old_sender(tmp_path / "before"), make_sender(tmp_path / "after")
    called = call(None, "compare", "--rules", "--base", before, "--with", after, "s")
    assert (called.status, called.err) == (0, f"pdsuite: before: {before}; after: {after}\n")
    unknown = f"changed rules: unknown, since the sources of {before} and {after} aren't known"
    assert lines_on_rules(called) == [f"rules: unknown, since {before} knows no option --rules", unknown]


@pytest.mark.parametrize("is_old", [False, True])
def test_a_tree_that_is_built_lists_rules_if_it_knows_how(is_old: bool, tmp_path: Path) -> None:
    tree = Tree(tmp_path / "t")
    write(tree.suite, a=b"row pass 9\n", b=f"row pass 2\nrules 2 {ACK}\n".encode())
    tree.change(f"s/^row pass 9/crash/\ns/^rules 2 .*/rules 2 {RST}/\n")
    base = make_sender(tmp_path / "base")
    if is_old:
        shutil.copy(tree.bin / "pdregress", tree.bin / "pdregress.py")
        (tree.bin / "pdregress").write_text(OLD)
    called = tree.call("compare", "--rules", "--json", "--base", base, "suite")
    found = held("compare", called.out)
    assert called.status == 2 and found["scripts"][0]["path"] == "suite/a.pkt"
    # What stands beside the script on which the program ends is run again.
    assert found["rules"]["unknown"] == ["after"] * is_old and found["rules"]["scripts"] == (0 if is_old else 1)
    names = [] if is_old else [(ACK, 1, 0), (RST, 0, 1)]
    assert [(it["rule"], it["before"], it["after"]) for it in found["rules"]["changes"]] == names
    assert tree.builds() == (3 if is_old else 2)
