"""`pdsuite compare --rules`, by fake programs: the rules whose sources changed, and the scripts that come to them."""

from html import unescape
from pathlib import Path

import pytest

from pdsuite.commands.compare import CompareOptions
from pdsuite.compare.affected import RulesOfChange
from pdsuite.compare.comparison import ComparisonKind, SenderResults
from pdsuite.compare.rule_changes import ChangedRule, ChangedRules, RuleChanges, ScriptOfChangedRule
from pdsuite.page.comparison import ComparisonPage
from pdsuite.reports.changed_rules import changed_rules_text
from pdsuite.reports.comparison import comparison_json
from pdsuite.reports.comparison_markdown import whole_comparison_as_markdown
from pdsuite.reports.rule_changes import rule_changes_text
from pdsuite.rules.changed_rules import changed_rules_with_scripts
from tests.helpers import Called, write
from tests.schemas import held
from tests.test_compare import git
from tests.test_rule_changes import NAMES, compared, report_of, results
from tests.test_rules import ACK, EXPIRY, RST, WORDS
from tests.tree_fixture import Tree

SAME, TURNED, OTHERWISE = ComparisonKind.SAME, ComparisonKind.TURNED, ComparisonKind.OTHERWISE
COMMAND = "pdsuite compare --base 'a b' --search 60 --for rule:"


def scripts_of(*kinds: ComparisonKind, at: tuple[int, ...] = (2,)) -> tuple[ScriptOfChangedRule, ...]:
    return tuple(ScriptOfChangedRule(f"{number}.pkt", kind, at) for number, kind in enumerate(kinds))


def test_those_rules_come_first_of_which_most_scripts_turned_and_those_last_that_no_script_comes_to() -> None:
    affected = RulesOfChange(
        {"own.new": ("f (a:1)",), RST: ("g (b:2)",), EXPIRY: ("h (c:3)",), ACK: ("f (a:1)",)}, ("x",)
    )
    before = results({2: (ACK,)}, {}, {2: (ACK,), 3: (EXPIRY, "own.new")}, {4: (ACK,)})
    # A script on which the program after the change ends comes to a rule before it.
    after = results({3: (ACK,)}, {5: (ACK, EXPIRY)}, {9: (EXPIRY,)}, None)
    found = changed_rules_with_scripts(affected, compared(SAME, OTHERWISE, SAME, TURNED), before, after, COMMAND)
    assert [(it.name, it.words) for it in found.rules] == [
        (ACK, WORDS[ACK]),
        (EXPIRY, WORDS[EXPIRY]),
        ("own.new", ""),
        (RST, WORDS[RST]),
    ]
    assert found.rules[0].scripts == (
        ScriptOfChangedRule("3.pkt", TURNED, (4,)),
        ScriptOfChangedRule("1.pkt", OTHERWISE, (5,)),
        ScriptOfChangedRule("0.pkt", SAME, (2,)),
        ScriptOfChangedRule("2.pkt", SAME, (2,)),
    )
    assert found.rules[1].scripts == (
        ScriptOfChangedRule("1.pkt", OTHERWISE, (5,)),
        ScriptOfChangedRule("2.pkt", SAME, (3,)),
    )
    assert found.rules[0].first_turned == "3.pkt" and found.rules[1].first_turned is None
    assert (found.rules[3].by, found.others, found.search_command) == (("g (b:2)",), ("x",), COMMAND)


def test_a_sender_that_lists_no_rules_leaves_those_of_the_other() -> None:
    affected = RulesOfChange({ACK: ("f (a:1)",)}, ())
    found = changed_rules_with_scripts(affected, compared(SAME), SenderResults({}), results({7: (ACK,)}), COMMAND)
    assert found.rules == (ChangedRule(ACK, WORDS[ACK], ("f (a:1)",), (ScriptOfChangedRule("0.pkt", SAME, (7,)),)),)


BY = tuple(f"f{number} (a:{number})" for number in range(5))
CHANGED = ChangedRules(
    (
        ChangedRule(ACK, WORDS[ACK], BY, scripts_of(TURNED, TURNED, OTHERWISE, SAME, at=(2, 3, 5))),
        ChangedRule("own.`new`", "", BY[:1], scripts_of(SAME)),
        ChangedRule(RST, WORDS[RST], BY[:2], ()),
    ),
    ("g_h (b:1)",),
    search_command=COMMAND,
)
OFFER = f"write one, or let {COMMAND}{RST} make one"
ALL_LINES = [
    f"changed rule {ACK}: 4 scripts come to it, 2 turned, 1 played otherwise; the first that turned is 0.pkt",
    f"  changed: {', '.join(BY)}",
    *(f"  {it}.pkt: turned (lines 2-3, 5)" for it in "01"),
    "  2.pkt: played otherwise (lines 2-3, 5)",
    "  3.pkt: as before (lines 2-3, 5)",
    "changed rule own.`new`: 1 script comes to it, none turned",
    "  changed: f0 (a:0)",
    "  0.pkt: as before (line 2)",
    f"changed rule {RST}: no script comes to it",
    "  changed: f0 (a:0), f1 (a:1)",
    f"  {OFFER}",
    "changed, and states no rule: g_h (b:1)",
]


def test_each_rule_has_its_counts_what_changed_and_some_of_its_scripts_or_all() -> None:
    assert changed_rules_text(CHANGED, True).text_without_styles.splitlines() == ALL_LINES
    changed = f"  changed: {', '.join(BY[:3])}, 2 more (--every)"
    few = [ALL_LINES[0], changed, *ALL_LINES[2:5], "  1 more (--every)", *ALL_LINES[6:]]
    assert changed_rules_text(CHANGED, False).text_without_styles.splitlines() == few


NONE = "changed rules: none, since the sources of both senders are the same"
UNKNOWN = ChangedRules(why_unknown="the sources of <x> aren't known")


PARTS: list[tuple[ChangedRules | None, list[str]]] = [
    (CHANGED, ALL_LINES),
    (ChangedRules(), [NONE]),
    (UNKNOWN, ["changed rules: unknown, since the sources of <x> aren't known"]),
    (None, []),
]


def test_below_the_rules_that_other_scripts_come_to_stand_those_whose_sources_changed() -> None:
    same = "rules: of 1 compared script, the same come to each before and after"
    for changed, lines in PARTS:
        found = RuleChanges((), 1, changed=changed)
        assert rule_changes_text(found, True).text_without_styles.splitlines() == [same, *lines]


def test_as_json_the_rules_have_all_scripts_and_the_search_where_there_is_none() -> None:
    report = report_of(RuleChanges((), 1, changed=CHANGED))
    found = held("compare", comparison_json(report, NAMES).text_without_styles)["rules"]["changed"]
    assert found["unknown"] is None and found["others"] == ["g_h (b:1)"]
    first, second, last = found["rules"]
    assert (first["turned"], first["first_turned"], first["by"]) == (2, "0.pkt", list(BY))
    assert [it["kind"] for it in first["scripts"]] == ["turned", "turned", "played otherwise", "as before"]
    assert second["first_turned"] is None and "search" not in second
    assert (last["scripts"], last["search"]) == ([], f"{COMMAND}{RST}")
    report = report_of(RuleChanges((), 1, changed=UNKNOWN))
    found = held("compare", comparison_json(report, NAMES).text_without_styles)["rules"]["changed"]
    assert found == {"unknown": UNKNOWN.why_unknown, "rules": [], "others": []}


def markdown(changed: ChangedRules) -> list[str]:
    """The part on changed rules."""
    report = report_of(RuleChanges((), 1, changed=changed))
    return whole_comparison_as_markdown(report, NAMES).text_without_styles.splitlines()[8:]


def test_as_markdown_the_rules_are_a_list_below_a_title() -> None:
    lines = markdown(CHANGED)
    assert lines[:2] == ["### rules: the sources of 3 rules changed", ""]
    assert lines[2] == f"- `{ACK}`: {ALL_LINES[0].partition(': ')[2]}"
    assert lines[3:5] == [
        "  - changed: f0 (a:0), f1 (a:1), f2 (a:2), 2 more (--every)",
        "  - `0.pkt`: turned (lines 2-3, 5)",
    ]
    assert f"  - {OFFER}" in lines and lines[-1] == "- changed, and states no rule: g\\_h (b:1)"
    assert markdown(UNKNOWN) == ["### changed rules: unknown, since the sources of \\<x\\> aren't known"]


def test_the_page_has_each_rule_with_what_changed_and_all_scripts(tmp_path: Path) -> None:
    rules, sides = RuleChanges((), 1, changed=CHANGED), (SenderResults({}), SenderResults({}))
    ComparisonPage(tmp_path / "page").write_page_and_remove_stale(compared(SAME), sides, NAMES, False, rules)
    text = unescape((tmp_path / "page/index.html").read_text())
    assert "<h2>Rules whose sources changed</h2>" in text and f'<details id="changed-{RST}">' in text
    assert f"<p>Changed: {', '.join(BY)}</p>" in text and f'<p class="warned">{OFFER}</p>' in text
    assert '<th scope="row">3.pkt</th><td>as before (lines 2-3, 5)</td>' in text
    assert "<p>changed, and states no rule: g_h (b:1)</p>" in text and text.count("<table class") == 2


def test_the_search_that_is_offered_has_the_senders_and_settings_of_the_comparison() -> None:
    options = CompareOptions([], [], "mss = 1000", "", 'a = "b"', "HEAD~1", None, False, False, None)
    words = (
        """pdsuite compare --base 'HEAD~1' --settings 'mss = 1000' --with-settings 'a = "b"' --search 60 --for rule:"""
    )
    assert options.command_of_search_for_rule == words
    plain = CompareOptions([], [], "", "", "", None, "other", False, False, None)
    assert plain.command_of_search_for_rule == "pdsuite compare --with other --search 60 --for rule:"


RESCUE, LOST = "rfc6675.next-seg.rescue", "rfc6675.next-seg.lost"
DEFINITION = "-- NextSeg\n\nabbrev pub rescue_run : ℕ\nrescue_run = {}\n\nabbrev pub lost_run : ℕ\nlost_run = {}\n"
PLACE = "crates/pd_recover/specs/NextSeg.antt"


@pytest.fixture
def tree(tmp_path: Path) -> Tree:
    """A tree with definitions of rules and what reads them, and scripts that come to rules."""
    tree = Tree(tmp_path)
    tree.put_rows("[rows] scripts\npass 9: row pass 9\n")
    (tree.top / PLACE).parent.mkdir(parents=True)
    (tree.top / PLACE).write_text(DEFINITION.format(1, 1))
    write(tree.suite, **{it: f"row pass 7\nrules 2 {RESCUE}\n".encode() for it in "ab"})
    for name in ("pdregress", "pdrecord"):
        (tree.top / "crates" / name / "src/x").touch()
    git(tree.top, "init", "-q")
    git(tree.top, "add", ".")
    git(tree.top, "commit", "-qm", "one")
    return tree


def lines_on_changed_rules(called: Called) -> list[str]:
    """The lines below those on rules that other scripts come to."""
    lines = called.out.splitlines()[:-1]
    return lines[next(at for at, line in enumerate(lines) if line.startswith("changed")) :]


def test_a_changed_definition_names_its_rule_with_scripts_or_the_search(tree: Tree) -> None:
    (tree.top / PLACE).write_text(DEFINITION.format(2, 2))
    tree.put_code("4")
    called = tree.call("compare", "--rules", "--base", "HEAD", "suite")
    # That sources changed is no difference.
    assert called.status == 0, called.err
    assert lines_on_changed_rules(called) == [
        f"changed rule {RESCUE}: 2 scripts come to it, none turned",
        f"  changed: rescue_run ({PLACE}:3)",
        *(f"  suite/{it}.pkt: as before (line 2)" for it in "ab"),
        f"changed rule {LOST}: no script comes to it",
        f"  changed: lost_run ({PLACE}:6)",
        f"  write one, or let pdsuite compare --base HEAD --search 60 --for rule:{LOST} make one",
        "changed, and states no rule: RULE (crates/pd_board/src/queries.rt:2)",
    ]


def test_it_is_said_that_no_source_changed_or_that_sources_are_unknown(tree: Tree) -> None:
    called = tree.call("compare", "--rules", "--affected", "--base", "HEAD", "suite")
    assert called.status == 0 and NONE in called.out.splitlines()
    called = tree.call("compare", "--rules", "--base", tree.bin, "suite")
    assert lines_on_changed_rules(called) == [f"changed rules: unknown, since the sources of {tree.bin} aren't known"]
    (tree.top / "tools/affected.py").unlink()
    called = tree.call("compare", "--rules", "--base", tree.bin, "suite")
    assert lines_on_changed_rules(called) == ["changed rules: unknown, since here is no tree with tools/affected.py"]
