"""Tests of tools/affected_rules.py and rule_sources.py: which rules a change affects, and what states a rule."""

import json
import subprocess
import sys
import tomllib
from pathlib import Path

import pytest

TOP = Path(__file__).resolve().parents[1]
sys.path.insert(0, str(TOP / "tools"))

import affected_rules  # noqa: E402
from rule_sources import TABLE, RuleSources, read_rule_sources, read_rule_table, union  # noqa: E402

LIST = TABLE.with_name("rules.toml")
# A rule is stated by a definition in the table, one by a function there, and two by definitions with their variants.
RULES = {"own.first": ["pd_host::first"], "own.second": ["pd_host::second", "pd_host::counted"]}
NAMES = """-- Names
use Rattle.pd_host.specs.declared.checks.Check.TheVariants.{Early, Late, Other}

abbrev pub check_name : Check → List ℕ
check_name Early = codes "own.check.early"
check_name (Late at) = codes "own.check.late"
check_name Other = codes "own.first"
"""
LOW = """-- Low
abbrev pub limit : ℕ
limit = 3

abbrev pub shared : ℕ
shared = 4

abbrev pub unused : ℕ
unused = 5
"""
RULE_TEXT = """-- Rules
use Rattle.pd_board.specs.Low.{limit, shared}
use Rattle.pd_host.specs.declared.checks.Check.TheVariants.{Early, Late as Tardy, Other}

abbrev pub first : ℕ
first = helped + shared

abbrev pub helped : ℕ
helped = limit

abbrev pub second : View → ℕ
second c = if c.nagle then first else shared

abbrev pub early : Option Check
early = Some Early

abbrev pub any : ℕ → Option Check
any at = choose early (Tardy at) (nothing at)

abbrev pub nothing : ℕ → ℕ
nothing at = at

pub record Both : Type 0 where
  pub both : first ≡ second

abbrev pub chosen : ℕ → Option Check
chosen at = choose Other at
"""
CODE = """//! Code.
ghost use Rattle.pd_host.specs.Rules.{first, second, any, nothing, chosen};

const MOST: u32 = 9;

fn first() -> u32
    ensures { result ≡ first }
{
    helper() + 1
}

fn helper() -> u32 {
    deeper(2)
}

fn deeper(a: u32) -> u32 {
    MOST + a
}

fn counted() -> u32 {
    5
}

fn any() -> Option<Check>
    ensures { result ≡ any }
{
    let start = 6;
    Some(Check::Other)
}

fn nothing(at: u32) -> u32
    ensures { result ≡ nothing at }
{
    at
}

fn chosen(at: u32) -> Option<Check>
    ensures { result ≡ chosen at }
{
    let place = 10;
    counts(at);
    later(at)
}
"""
SETTINGS = """impl Settings {
    pub fn new() -> Settings
    {
        Settings {
            nagle: true,
            sndbuf: 1,
        }
    }
}
"""
FILES = {
    "pd_explain/specs/Names.antt": NAMES,
    "pd_board/specs/Low.antt": LOW,
    "pd_host/specs/Rules.antt": RULE_TEXT,
    "pd_host/src/rules.rt": CODE,
    "pd_host/src/laws.rt": "fn law_1() {\n    7\n}\n",
    "pd_settings/src/settings.rt": SETTINGS,
}
FIRST, SECOND, EARLY, LATE = "own.first", "own.second", "own.check.early", "own.check.late"
IN_LOW, IN_RULES = "crates/pd_board/specs/Low.antt", "crates/pd_host/specs/Rules.antt"
IN_CODE, IN_SETTINGS = "crates/pd_host/src/rules.rt", "crates/pd_settings/src/settings.rt"


def write_tree(tree: Path, old: str = "", new: str = "") -> Path:
    """A tree of a sender, in which a text is another one."""
    assert not old or "".join(FILES.values()).count(old) == 1
    for name, text in FILES.items():
        file = tree / "crates" / name
        file.parent.mkdir(parents=True, exist_ok=True)
        file.write_text(text.replace(old, new) if old else text)
    return tree


@pytest.fixture(autouse=True)
def table(monkeypatch: pytest.MonkeyPatch) -> None:
    """The table of these trees, but for tests that read it themselves."""
    monkeypatch.setattr(affected_rules, "read_rule_table", lambda: RULES)


CHANGES = [
    # A definition affects the rule that it states, and those of definitions that name it.
    ("first = helped + shared", "first = helped", {FIRST}, f"first ({IN_RULES}:5)"),
    ("helped = limit", "helped = 4", {FIRST}, f"helped ({IN_RULES}:8)"),
    ("limit = 3", "limit = 4", {FIRST}, f"limit ({IN_LOW}:2)"),
    ("shared = 4", "shared = 5", {FIRST, SECOND}, f"shared ({IN_LOW}:5)"),
    ("then first else", "then 1 else", {SECOND}, f"second ({IN_RULES}:11)"),
    # Without the table, it affects the rules of the variants that it names.
    ("early = Some Early", "early = None Early", {EARLY}, f"early ({IN_RULES}:14)"),
    ("choose early (Tardy at)", "choose early 1 (Tardy at)", {LATE}, f"any ({IN_RULES}:17)"),
    ("unused = 5", "unused = 6", set(), f"unused ({IN_LOW}:8)"),
    # A function affects the rules of its contract, or else what its changed lines name, or what calls it.
    ("helper() + 1", "helper() + 2", {FIRST}, f"first ({IN_CODE}:6)"),
    ("    5\n", "    6\n", {SECOND}, f"counted ({IN_CODE}:20)"),
    ("deeper(2)", "deeper(3)", {FIRST}, f"helper ({IN_CODE}:12)"),
    ("MOST + a", "MOST - a", {FIRST}, f"deeper ({IN_CODE}:16)"),
    ("u32 = 9", "u32 = 8", {FIRST}, f"MOST ({IN_CODE}:4)"),
    ("Some(Check::Other)", "Some(Check::Early)", {LATE}, f"any ({IN_CODE}:24)"),
    ("    at\n", "    first()\n", {LATE}, f"nothing ({IN_CODE}:31)"),
    ("counts(at);", "any(at);", {LATE}, f"chosen ({IN_CODE}:37)"),
    ("later(at)", "Some(Check::Early)", {EARLY}, f"chosen ({IN_CODE}:37)"),
    ("place = 10", "place = 11", {FIRST}, f"chosen ({IN_CODE}:37)"),
    # What changed is named once, where it is after the change.
    ("Low\nabbrev pub limit : ℕ\nlimit = 3", "Low\n\nabbrev pub limit : ℕ\nlimit = 4", {FIRST}, f"limit ({IN_LOW}:3)"),
    # What is gone counts as it was.
    ("abbrev pub helped : ℕ\nhelped = limit\n\n", "", {FIRST}, f"helped ({IN_RULES}:8)"),
    # A default affects the rules whose definitions read the setting.
    ("nagle: true", "nagle: false", {SECOND}, f"the default of nagle ({IN_SETTINGS}:5), true before and false after"),
    ("sndbuf: 1", "sndbuf: 2", set(), f"the default of sndbuf ({IN_SETTINGS}:6), 1 before and 2 after"),
    # Types have no rule, and laws are no rules.
    ("first ≡ second", "second ≡ first", set(), f"Both ({IN_RULES}:23)"),
    ("    7\n", "    8\n", set(), ""),
    ("-- Low", "-- Lower", set(), ""),
]


@pytest.mark.parametrize(
    ("old", "new", "rules", "name"), CHANGES, ids=[f"{it[0].strip()} {it[1].strip()}" for it in CHANGES]
)
def test_a_change_affects_the_rules_that_it_states(
    old: str, new: str, rules: set[str], name: str, tmp_path: Path
) -> None:
    before, after = write_tree(tmp_path / "before"), write_tree(tmp_path / "after", old, new)
    found = affected_rules.affected_rules(before, after)
    assert found.rules == {it: [name] for it in sorted(rules)}
    assert found.others == ([] if rules or not name else [name])


def test_what_changed_in_code_and_in_its_definition_is_named_in_both_places(tmp_path: Path) -> None:
    before, after = write_tree(tmp_path / "before"), write_tree(tmp_path / "after", "helper() + 1", "helper() + 2")
    file = after / IN_RULES
    file.write_text(file.read_text().replace("first = helped + shared", "first = helped"))
    found = affected_rules.affected_rules(before, after)
    assert found.rules == {FIRST: [f"first ({IN_RULES}:5)", f"first ({IN_CODE}:6)"]}


def test_the_program_prints_the_rules_and_what_has_none(tmp_path: Path) -> None:
    """Of a tree of its own, by the table of the real one."""
    before, after = write_tree(tmp_path / "before"), write_tree(tmp_path / "after", "Some Early", "Some 1 Early")
    words = map(str, (sys.executable, "-B", TOP / "tools/affected.py", "rules", "--before", before, "--after", after))
    found = json.loads(subprocess.run([*words], capture_output=True, check=True).stdout)
    assert found == {"rules": {EARLY: [f"early ({IN_RULES}:14)"]}, "others": []}


def names_of_rules() -> set[str]:
    with LIST.open("rb") as file:
        return {name for group in tomllib.load(file).values() for name in group}


@pytest.fixture(scope="module")
def real() -> RuleSources:
    """The sources of the sender by its rules."""
    return read_rule_sources(TOP, read_rule_table())


def test_each_rule_is_stated_by_something_that_is_there(real: RuleSources) -> None:
    """A new rule needs a row in rule_sources.toml, unless definitions of the sender name its variant."""
    table = read_rule_table()
    there = {f"{key[0]}::{key[2]}" for key in (*real.sources.definitions, *real.sources.code)}
    assert [it for paths in table.values() for it in paths if it not in there] == []
    stated = {rule for rules in (*real.stated.values(), *real.stated_by_code.values()) for rule in rules}
    assert stated == names_of_rules()
    assert table.keys() <= names_of_rules() and all(table.values())


NEXT_SEG = {f"rfc6675.next-seg.{it}" for it in ("lost", "new", "hole", "rescue")}
COUNTS = {f"{rfc}.duplicate.{it}" for rfc in ("rfc5681", "rfc6675") for it in ("first", "second", "third")}
REAL: dict[str, set[str]] = {
    "pd_board::dup_thresh": {
        *COUNTS,
        "rfc3042.limited-transmit",
        "rfc5681.entry",
        "rfc5681.fast-retransmit",
        "rfc5681.recovery.widens",
        "rfc6675.duplicate.below-recovery-point",
        "rfc6675.duplicate.of-new-octets",
        "rfc6675.entry.by-duplicates",
        "rfc6675.entry.by-loss",
        "rfc6675.fast-retransmit",
        "rfc6675.limited-transmit",
        "rfc6675.next-seg.lost",
    },
    "pd_board::is_lost": {
        "rfc6675.entry.by-loss",
        "rfc6675.fast-retransmit",
        "rfc6675.limited-transmit",
        "rfc6675.next-seg.lost",
    },
    "pd_board::has_new": {
        "rfc2883.block.below-una",
        *(f"rfc6675.duplicate.{it}" for it in ("first", "second", "third", "none", "of-new-octets")),
    },
    "pd_recover::rescue_run": {"rfc6675.next-seg.rescue"},
    "pd_recover::next_send": {*NEXT_SEG, "rfc6675.sending.nothing-next"},
    "pd_recover::limit_of": {"rfc3465.growth.limited"},
    "pd_recover::proportional_ssthresh": {"rfc9937.proportional"},
    "pd_recover::LARGER_INITIAL_WINDOW": {"rfc6928.initial-window"},
    "pd_timer::timeout_of": {"rfc6298.rto.variance", "rfc6298.rto.granularity"},
    "pd_timer::next_rttvar": {"rfc6298.rto.later-sample"},
    "pd_timer::clamped": {f"rfc6298.rto.{it}" for it in ("within-bounds", "raised-to-min", "lowered-to-max")},
    "pd_host::state_on": {"rfc9293.state.listen", "rfc9293.state.closed"},
    "pd_host::smss_of": {f"rfc9293.smss.{it}" for it in ("ours", "peers", "default")},
    "pd_host::DEFAULT_MSS": {"rfc9293.smss.default"},
    "pd_host::before_eol": {"rfc9293.options.end-of-list"},
    "pd_host::open_descriptor": {"own.call.ebadf"},
    "pd_host::with_fin": {"rfc9293.call.close"},
    "pd_host::is_recovering": {"own.sending.none-by-call-in-recovery"},
    "pd_host::is_block_sent": {f"rfc2018.block.{it}" for it in ("counted", "empty", "above-top")},
    "pd_host::may_leave_by_sws_and_nagle": {
        "rfc9293.new-data",
        "rfc9293.sending.nagle",
        "rfc9293.sending.part-of-segment",
    },
    # A segment as a whole, which has many rules, states none.
    "pd_host::ack_taken": set(),
    "pd_recover::acked": set(),
}


@pytest.mark.parametrize(("path", "rules"), REAL.items(), ids=REAL)
def test_definitions_and_code_of_the_sender_state_its_rules(path: str, rules: set[str], real: RuleSources) -> None:
    place = tuple(path.split("::"))
    assert any((key[0], key[2]) == place for key in (*real.sources.definitions, *real.sources.code))
    stated = (*real.stated.items(), *real.stated_by_code.items())
    assert union(found for key, found in stated if (key[0], key[2]) == place) == rules
