"""`pdsuite compare --search --for`: only scripts count that come to rules of the sender before or after a change."""

from collections.abc import Sequence
from dataclasses import dataclass, field
from itertools import repeat
from pathlib import Path

import pytest

from pdsuite.programs.protocol import RulesByLine
from pdsuite.programs.verdict import Row, Verdict
from pdsuite.search.candidates import CandidateLists
from pdsuite.search.find import DiffersTest, FailsTest, Find
from pdsuite.search.goal import RulesOnEitherSide, scripts_at_rules_first
from pdsuite.search.inputs import Inputs
from pdsuite.search.oracle import ConfiguredScript
from pdsuite.search.search import Search, SearchResult
from tests.helpers import Call, Called
from tests.test_input_search import Toy, search, tree
from tests.test_search_rules import goal_of
from tests.tree_fixture import Tree

__all__ = ["tree"]
LISTEN, RST = "rfc9293.state.listen", "rfc9293.rst"
INPUTS = Inputs((), (), is_exact=False)


@dataclass
class ListingOnSides:
    """Lists rules of scripts by their texts, and keeps the scripts."""

    rules: dict[bytes, RulesByLine]
    scripts: list[bytes] = field(default_factory=list)

    def require_that_rules_are_listed(self) -> None:
        pass

    def list_rules_of_scripts(self, scripts: Sequence[ConfiguredScript]) -> list[RulesByLine]:
        self.scripts += [it.octets for it in scripts]
        return [self.rules.get(it.octets, {}) for it in scripts]


def find_of(name: str, line: int | None = None) -> Find:
    """A find whose script is its name, and which fails at a line."""
    return Find(INPUTS, name, None if line is None else Row(Verdict.FAIL, line, "seq"))


def test_a_find_counts_that_comes_to_the_rules_under_one_of_both_senders() -> None:
    before, after = ListingOnSides({b"a": {2: ("x", "y")}, b"b": {2: ("x",), 3: ("y",)}}), ListingOnSides(
        {b"c": {5: ("y", "x")}}
    )
    finds = [find_of("a"), None, find_of("b"), find_of("c"), find_of("d")]
    found = RulesOnEitherSide(goal_of("rule:x rule:y"), (before, after))(finds)
    assert found == [finds[0], None, None, finds[3], None]
    assert (before.scripts, after.scripts) == ([b"a", b"b", b"c", b"d"], [b"b", b"c", b"d"])


@pytest.mark.parametrize(("line", "counts"), [(None, True), (4, True), (3, True), (2, False)])
def test_a_line_after_the_one_that_fails_does_not_count(line: int | None, counts: bool) -> None:
    listing, find = ListingOnSides({b"a": {3: ("x",)}}), find_of("a", line)
    assert RulesOnEitherSide(goal_of("rule:x"), (listing,))([find]) == [find if counts else None]


def test_scripts_that_come_to_the_rules_are_varied_first() -> None:
    scripts = [ConfiguredScript((), it) for it in (b"a", b"b", b"c", b"d")]
    listing = ListingOnSides({b"b": {2: ("x",)}, b"c": {2: ("y",)}, b"d": {7: ("x", "y")}})
    assert [it.octets for it in scripts_at_rules_first(scripts, goal_of("rule:x"), listing)] == [b"b", b"d", b"a", b"c"]
    assert scripts_at_rules_first(scripts, None, ListingOnSides({})) == scripts


def searched(change: str, counted: int, size: int) -> SearchResult:
    """Searches a list of inputs for what tells both fake programs apart; they count with so many events at least."""

    def long_finds(finds: Sequence[Find | None]) -> list[Find | None]:
        return [it if it is not None and len(it.inputs.events) >= counted else None for it in finds]

    after = Toy(change)
    tests = FailsTest(after, long_finds), DiffersTest(after, long_finds)
    return Search(Toy(), *tests, CandidateLists(1, repeat(size, 1)), 300).run(lambda inputs: None)


def test_a_find_is_cut_down_no_further_than_it_counts() -> None:
    found, none = searched("late", 5, 12), searched("late", 1_000, 4)
    assert found.find is not None and len(found.find.inputs.events) == 5
    assert (none.find, none.unshown) == (None, None)


def test_what_no_script_shows_counts_as_a_script_does() -> None:
    found, none = searched("extra", 4, 12), searched("extra", 1_000, 4)
    assert found.find is None and found.unshown is not None and len(found.unshown.inputs.events) == 4
    assert (none.find, none.unshown) == (None, None)


def searched_for(tree: Tree, rule: str, *words: str, seconds: str = "60") -> Called:
    return search(tree, "--with", "new", "--for", f"rule:{rule}", *words, seconds=seconds)


def test_a_script_that_is_found_comes_to_the_rule_and_says_so(tree: Tree) -> None:
    called = searched_for(tree, LISTEN, "--save", "suite/found.pkt")
    assert called.status == 1, called.err
    assert called.out.startswith(f"a script that comes to rule:{LISTEN} fails under the sender after\n")
    saved = (tree.suite / "found.pkt").read_text().splitlines()
    assert saved[:2] == [f"// Comes to rule:{LISTEN}.", f"// Recorded by {tree.bin}."]
    assert saved[2].startswith(f"// It fails (fail {len(saved)} ")


def test_a_script_that_does_not_come_to_the_rule_is_none(tree: Tree) -> None:
    called = searched_for(tree, RST, "--save", "suite/found.pkt", seconds="1")
    lines = called.out.splitlines()
    assert (called.status, lines[0]) == (
        0,
        f"no script was found that comes to rule:{RST} and on which the senders differ",
    )
    assert lines[-1].startswith("total ") and not (tree.suite / "found.pkt").exists()


REFUSALS = [
    (
        ("--search", "1", "--for", "rule:rescue"),
        "rescue: there is no such rule; the nearest is rfc6675.next-seg.rescue",
    ),
    (("--search", "1", "--for", "rule:rfc6298.expirx"), "there is no such rule; the nearest is rfc6298.expiry"),
    (("--search", "1", "--for", "rule:rfc1.*"), "--for: rfc1.*: there is no such rule"),
    (("--search", "1", "--for", f"rule:{RST} state:CLOSED"), "state:CLOSED: compare takes rule:NAME alone"),
    (("--search", "1", "--for", RST), f"--for: {RST}: compare takes rule:NAME alone, with blanks between several"),
    (("--for", f"rule:{RST}", "suite"), "--for is of --search: it says which scripts this counts"),
]


@pytest.mark.parametrize(("words", "message"), REFUSALS, ids=[" ".join(it[0][-2:]) for it in REFUSALS])
def test_what_it_does_not_know_is_refused_before_anything_runs(
    words: tuple[str, ...], message: str, tmp_path: Path, call: Call
) -> None:
    called = call(tmp_path / "none", "compare", "--base", "none", *words)
    assert (called.status, called.out) == (2, "") and message in called.err
