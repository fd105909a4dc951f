"""The search for scripts that come to rules of the sender: what its goal is, and which programs it queries."""

import shutil
import subprocess
from collections.abc import Sequence
from contextlib import closing
from pathlib import Path
from typing import Any

import pytest

from pdsuite.commands.options import GoalParam
from pdsuite.compare.senders import Sender
from pdsuite.faults import Fault
from pdsuite.programs.locate import RECORD, REGRESS
from pdsuite.programs.program import Program
from pdsuite.programs.protocol import RulesByLine, parse_rules_by_script
from pdsuite.programs.recorder import Recording
from pdsuite.search import rule_listers
from pdsuite.search.candidates import CandidateLists
from pdsuite.search.find import Find, ReachesTest, script_without_trace
from pdsuite.search.goal import SearchGoal, parse_goal_if_valid
from pdsuite.search.initial_inputs import record_corpus_without_fixed_settings
from pdsuite.search.inputs import Inputs
from pdsuite.search.oracle import ConfiguredScript, ProgramOracle
from pdsuite.search.scenario import Emphasis
from pdsuite.search.search import Search
from pdsuite.signals import Stop
from tests.helpers import OPENED, Call

EXPIRY, OLD_ACK = "rfc6298.expiry", "rfc9293.check.old-ack"
# It comes to both of them, and to more than either needs.
COMES_TO_BOTH = (
    OPENED
    + b"""+0 write(4, ..., 2000) = 2000
+0.1 < . 1:1(0) ack 1001 win 32792
+0.1 < . 1:1(0) ack 1 win 32792
+3 write(4, ..., 1000) = 1000
+0.1 < . 1:1(0) ack 2001 win 32792
"""
)
RECORDING = "".join(f"+{number} close(4) = 0\n//= at {number}.000000 {it}\n" for number, it in enumerate("ABA"))


def goal_of(text: str) -> SearchGoal:
    goal = parse_goal_if_valid(text)
    assert goal is not None
    return goal


def oracle_of(folder: Path, stop: Stop) -> ProgramOracle:
    """Queries the programs of a folder."""
    return ProgramOracle(Sender("these", {it: folder / it for it in (REGRESS, RECORD)}, None), stop)


@pytest.mark.parametrize("name", [EXPIRY, OLD_ACK])
def test_a_script_that_is_found_for_a_rule_comes_to_it(name: str, recording_programs: Path) -> None:
    with Stop(()) as stop, closing(oracle_of(recording_programs, stop)) as oracle:
        script = ConfiguredScript((("nagle", False),), COMES_TO_BOTH)
        (begun,) = corpus = record_corpus_without_fixed_settings([script], oracle, frozenset())
        test = goal_of(f"rule:{name}").test_by_oracle(oracle)
        find = Search(oracle, test, None, CandidateLists(1, [1], Emphasis(), corpus), 60).run(lambda inputs: None).find
    assert find is not None and not find.inputs.settings and len(find.inputs.events) < len(begun.inputs.events)
    text = script_without_trace(find.recording)
    given = b"add s0 %d\n%b" % (text.count(b"\n"), text)
    ran = subprocess.run([recording_programs / REGRESS, "--rules"], input=given, capture_output=True)
    assert ran.stdout.startswith(b"s0 pass ")
    assert any(name in names for names in parse_rules_by_script(ran.stderr)[b"s0"].values())


def test_a_name_that_no_rule_has_is_refused_before_anything_runs(tmp_path: Path, call: Call) -> None:
    called = call(tmp_path / "none", "search", "--for", "state:CLOSING rule:rescue")
    refusal = "--for: rescue: there is no such rule; the nearest is rfc6675.next-seg.rescue"
    assert (called.status, called.out, called.err) == (2, "", f"pdsuite: {refusal}\n")


class Listing:
    """Lists these rules of each script, and keeps the scripts."""

    def __init__(self, rules: RulesByLine) -> None:
        self.rules = rules
        self.scripts: list[bytes] = []

    def require_that_rules_are_listed(self) -> None:
        pass

    def list_rules_of_scripts(self, scripts: Sequence[ConfiguredScript]) -> list[RulesByLine]:
        self.scripts += [it.octets for it in scripts]
        return [self.rules] * len(scripts)


GOALS = [
    ("rule:a.one", True),
    ("rule:a.*", True),
    ("rule:a", False),
    ("rule:a.one rule:b", True),
    ("rule:a.one rule:c", False),
    ("rule:a.one state:B", True),
    ("state:A rule:a.one", False),
    ("rule:c state:A", True),
    ("rule:c state:B", False),
]


@pytest.mark.parametrize(("text", "is_met"), GOALS, ids=[it[0] for it in GOALS])
@pytest.mark.parametrize("is_exact", [True, False], ids=["exact", "loose"])
def test_all_words_of_a_goal_are_of_one_event(text: str, is_met: bool, is_exact: bool) -> None:
    """The second event is on the line after the header, the first and the next one."""
    listing = Listing({2 + is_exact: ("b", "a.one"), 3 + is_exact: ("c",)})
    inputs = Inputs((), (), is_exact)
    found = goal_of(text).test_by_oracle(listing).find_or_none_for_each_input([inputs], [Recording(RECORDING)])
    assert found == [Find(inputs, RECORDING) if is_met else None]


def test_only_of_what_reaches_the_state_rules_are_listed() -> None:
    listing, inputs = Listing({1: ("a",)}), Inputs((), (), is_exact=False)
    recordings = [Recording(""), Recording(RECORDING.replace("A", "C")), Recording(RECORDING)]
    found = goal_of("rule:a state:A").test_by_oracle(listing).find_or_none_for_each_input([inputs] * 3, recordings)
    assert found == [None, None, Find(inputs, RECORDING)]
    assert listing.scripts == [script_without_trace(RECORDING)]


def test_a_goal_without_rules_is_a_state_for_which_no_rules_are_listed() -> None:
    oracle: Any = None
    goal = goal_of("state:CLOSING DupAcks:2")
    assert goal.test_by_oracle(oracle) == ReachesTest(goal.state) and not goal.rules


def test_a_rule_without_a_name_is_no_goal() -> None:
    assert parse_goal_if_valid("rule: una:1") is None


@pytest.fixture
def starts(monkeypatch: pytest.MonkeyPatch) -> list[Program]:
    """The programs that are started to list rules."""
    started: list[Program] = []

    def start(*words: Any) -> Program:
        started.append(Program(*words))
        return started[-1]

    monkeypatch.setattr(rule_listers, "Program", start)
    return started


def listed(oracle: ProgramOracle, *texts: bytes, mss: int | None = None) -> list[RulesByLine]:
    settings = () if mss is None else (("mss", mss),)
    return oracle.list_rules_of_scripts([ConfiguredScript(settings, it) for it in texts])


ONE, OTHER = b"row pass 1\nrules 2 a b\n", b"row pass 1\nrules 1 c\n"
OF_ONE: RulesByLine = {2: ("a", "b")}
OF_OTHER: RulesByLine = {1: ("c",)}


def test_a_program_lists_the_rules_of_many_scripts_of_equal_settings(fake_program: Path, starts: list[Program]) -> None:
    with Stop(()) as stop, closing(oracle_of(fake_program, stop)) as oracle:
        assert listed(oracle, ONE, OTHER, b"row pass 1\n") == [OF_ONE, OF_OTHER, {}]
        assert listed(oracle, OTHER) == [OF_OTHER] and len(starts) == 1
        assert listed(oracle, ONE, mss=536) == [OF_ONE] and len(starts) == 2
        assert listed(oracle, ONE) == [OF_ONE] and len(starts) == 2


def test_where_a_program_ends_on_a_script_the_rules_of_the_others_are_listed(
    fake_program: Path, starts: list[Program]
) -> None:
    with Stop(()) as stop, closing(oracle_of(fake_program, stop)) as oracle:
        assert listed(oracle, ONE, b"crash\n", OTHER) == [OF_ONE, {}, OF_OTHER]
    assert len(starts) == 3


def test_programs_that_are_worn_or_idle_for_longest_end(
    fake_program: Path, starts: list[Program], monkeypatch: pytest.MonkeyPatch
) -> None:
    monkeypatch.setattr(rule_listers, "_MOST_IDLE", 1)
    monkeypatch.setattr(rule_listers, "_MOST_SCRIPTS", 2)
    with Stop(()) as stop, closing(oracle_of(fake_program, stop)) as oracle:
        for mss, count in ((None, 1), (None, 1), (None, 2), (536, 3), (536, 3), (None, 4)):
            assert listed(oracle, ONE, mss=mss) == [OF_ONE] and len(starts) == count


def test_a_sender_that_lists_no_rules_is_refused_at_once(fake_program: Path, tmp_path: Path) -> None:
    shutil.copy(fake_program / REGRESS, tmp_path)
    (tmp_path / "dead").touch()
    with Stop(()) as stop, closing(oracle_of(tmp_path, stop)) as oracle:
        with pytest.raises(Fault, match="pdregress: 19 OutOfMemory"):
            goal_of("rule:a").test_by_oracle(oracle)


def test_shells_complete_the_name_of_a_rule_behind_other_words() -> None:
    none: Any = None
    items = GoalParam().shell_complete(none, none, "DupAcks:2 rule:rfc6675.next-seg.r")
    assert [it.value for it in items] == ["DupAcks:2 rule:rfc6675.next-seg.rescue"]
    assert not GoalParam().shell_complete(none, none, "rfc6675")
