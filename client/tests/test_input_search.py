"""The search for inputs: what a peer answers, what is found and shrunk, and `pdsuite search` and `compare --search`."""

import shutil
from collections.abc import Sequence
from itertools import repeat
from pathlib import Path

import pytest

from pdsuite.compare.divergence import parse_played_events
from pdsuite.compare.senders import Sender
from pdsuite.packetdrill.items import Packet, TcpOption
from pdsuite.programs.build import BuildError
from pdsuite.programs.recorder import Recording
from pdsuite.programs.verdict import Row, Verdict
from pdsuite.scripts.defaults import DEFAULTS
from pdsuite.search.candidates import CandidateLists
from pdsuite.search.coverage import SHARES, Coverage, parse_state_pattern_if_valid
from pdsuite.search.find import DiffersTest, FailsTest, ReachesTest, script_without_trace
from pdsuite.search.generate import KEYS, scenario_lists_of_sizes
from pdsuite.search.inputs import Input, Inputs, make_dataless_inbound_packet, make_unrecorded_call
from pdsuite.search.oracle import ConfiguredScript, open_oracles_building_missing_programs
from pdsuite.search.peer import Peer
from pdsuite.search.scenario import Ending, Handshake, IrregularPacket, Irregularity, Network, PlannedCall, ReceiverPlan
from pdsuite.search.scenario import Scenario
from pdsuite.search.search import Search, SearchResult, play_input_steps_in_joint_recordings
from pdsuite.search.simulate import play_scenario
from pdsuite.signals import Stop
from tests.fake_sender import lines_of, row_of
from tests.helpers import Called
from tests.tree_fixture import Tree

SENDER = Path(__file__).with_name("fake_sender.py")


class Toy:
    """Queries the fake program, in this process."""

    def __init__(self, change: str = "") -> None:
        self.change = change
        self.recorded_count = 0

    def record_inputs_or_scripts(self, inputs: Sequence[Inputs | ConfiguredScript]) -> list[Recording]:
        self.recorded_count += len(inputs)
        return [self._recording(it) for it in inputs]

    def _recording(self, it: Inputs | ConfiguredScript) -> Recording:
        lines, fault = lines_of(it.script_octets(), self.change, "mss" in dict(it.settings))
        return Recording("".join(f"{line}\n" for line in lines), f"pdrecord: {fault}" if fault else "")

    def run_scripts_for_rows(self, scripts: Sequence[ConfiguredScript]) -> list[Row]:
        return [self._row(row_of(it.octets, self.change, "mss" in dict(it.settings)).split()) for it in scripts]

    def _row(self, words: list[str]) -> Row:
        if words[0] == "pass":
            return Row(Verdict.PASS, int(words[1]))
        return Row(Verdict(words[0]), int(words[1]), *words[2:])

    def explanation_lines_of_script(self, script: ConfiguredScript) -> list[str]:
        return ["so it is"]


def searched(change: str, lists: int = 1, seed: int = 1) -> SearchResult:
    """Searches so many lists of inputs for what tells both fake programs apart, however long it takes."""
    after = Toy(change)
    return Search(Toy(), FailsTest(after), DiffersTest(after), CandidateLists(seed, repeat(48, lists)), 300).run(
        lambda inputs: None
    )


def test_a_sender_that_is_the_same_gives_no_find() -> None:
    came = searched("")
    assert (came.find, came.unshown, came.coverage.inputs >= 40) == (None, None, True)


def test_a_count_of_inputs_bounds_a_search_in_place_of_time() -> None:
    lists = CandidateLists(1, repeat(8))
    came = Search(Toy(), FailsTest(Toy()), DiffersTest(Toy()), lists, 0.0, 30).run(lambda inputs: None)
    assert came.find is None and 30 <= came.coverage.inputs < 38


def test_each_setting_that_the_sender_consults_is_drawn() -> None:
    assert set(KEYS) == set(DEFAULTS) - {"tolerance_us"}


def test_a_find_is_shrunk_to_the_inputs_that_it_needs() -> None:
    find = searched("late").find
    assert find is not None and find.row is not None and find.row.verdict is Verdict.FAIL
    calls = [str(it) for it in find.inputs.events]
    assert calls[0].startswith("listen(3") and calls[1].startswith("< S 0:0(0)") and calls[2].startswith("write(4")
    assert len(calls) == 4 and not find.inputs.settings and not find.inputs.is_exact
    assert [it.line for it in parse_played_events(find.recording)][-2:][0].startswith("+4 > . 1:")


def test_a_find_that_needs_a_setting_keeps_it() -> None:
    find = searched("greedy", lists=100).find
    assert find is not None and [key for key, _ in find.inputs.settings] == ["mss"]


def test_where_only_a_packet_at_the_end_differs_it_is_said_that_no_script_shows_it() -> None:
    came = searched("extra", lists=5)
    assert came.find is None and came.unshown is not None  # after an RST nothing more leaves
    flags = [it.what.flags for it in came.unshown.inputs.events if isinstance(it.what, Packet)]
    assert flags[0] == "S" and "R" in flags[-1] and len(came.unshown.inputs.events) == 3


def test_moments_of_inputs_never_go_back() -> None:
    for seed in range(4):
        for played in play_input_steps_in_joint_recordings(
            map(play_scenario, next(scenario_lists_of_sizes(seed, [48]))), Toy()
        ):
            moments = [it.at for it in played.inputs.events]
            assert moments == sorted(moments)


def test_the_same_seed_makes_the_same_inputs() -> None:
    made = [
        [
            it.inputs
            for it in play_input_steps_in_joint_recordings(
                map(play_scenario, next(scenario_lists_of_sizes(seed, [24]))), Toy()
            )
        ]
        for seed in (3, 3, 4)
    ]
    assert made[0] == made[1] != made[2]


def test_inputs_come_under_each_rule_of_the_sender_that_settings_turn_on_or_off() -> None:
    made = [it for plan in scenario_lists_of_sizes(5, [400]) for it in plan]
    chosen = {it for plan in made for it in plan.settings}
    rules: dict[str, set[object]] = {
        "abc_limit": {2, 3, 8},
        "initial_window": {"rfc6928"},
        "limited_transmit": {False},
        "nagle": {False},
        "recovery_algorithm": {"rfc9937"},
        "slow_start_after_idle": {True},
        "sack": {False},
    }
    assert {key: {value for other, value in chosen if other == key} for key in rules} == rules
    # After an idle time more is written.
    idle = [plan for plan in made if "slow_start_after_idle" in dict(plan.settings)]
    assert idle and all(any(act.after >= 2_000_000 and act.call.name == "write" for act in it.acts) for it in idle)


def test_what_is_recorded_is_saved_without_states() -> None:
    (recording,) = Toy().record_inputs_or_scripts([Inputs((), (Input(0, make_unrecorded_call("listen", 3, 1)),))])
    assert script_without_trace(recording.text) == b"--tolerance_usecs=0\n+0 listen(3, 1) = 0\n"


def test_times_count_from_the_input_before() -> None:
    events = (
        Input(100_000, make_dataless_inbound_packet("S", 0, None, 9, (TcpOption("sackOK"),))),
        Input(350_001, make_unrecorded_call("close", 4)),
    )
    script = Inputs((("mss", 536),), events, is_exact=False).script_octets()
    assert script == b"+0.1 < S 0:0(0) win 9 <sackOK>\n+0.250001 close(4) = 0\n"


def peer_of(receiver: ReceiverPlan, *options: TcpOption) -> Peer:
    """The peer of a plan that has this receiver and these options of its SYN."""
    handshake = Handshake(options, 1_000, 100_000)
    return Peer(Scenario((), handshake, Network(100_000), receiver, (), (), Ending.NONE, 4))


def test_the_peer_acknowledges_in_order_and_tells_holes_by_blocks_the_newest_first() -> None:
    peer = peer_of(ReceiverPlan(each=2, windows=((0, 32_768), (2, 0))), TcpOption("wscale", (7,)))
    assert [peer.receive_segment_and_decide_ack((1, 1_001)), peer.receive_segment_and_decide_ack((1_001, 2_001))] == [
        False,
        True,
    ]
    assert str(peer.make_ack()) == "< . 1:1(0) ack 2001 win 256"
    assert peer.receive_segment_and_decide_ack((3_001, 4_001)) and peer.receive_segment_and_decide_ack((5_001, 6_001))
    assert str(peer.make_ack()) == "< . 1:1(0) ack 2001 win 256 <sack 5001:6001 3001:4001>"
    assert peer.receive_segment_and_decide_ack((2_001, 3_001))
    assert str(peer.make_ack()) == "< . 1:1(0) ack 4001 win 0 <sack 5001:6001>"
    assert (
        str(peer.make_irregular_packet_and_count_fin(IrregularPacket(0, Irregularity.FIN)))
        == "< F. 1:1(0) ack 4001 win 0"
    )
    assert (
        str(peer.make_irregular_packet_and_count_fin(IrregularPacket(0, Irregularity.EARLY_ACK)))
        == "< . 2:2(0) ack 6002 win 0"
    )
    blocks = "<sack 5501:5601 5001:5101 4501:4601>"
    assert (
        str(peer.make_irregular_packet_and_count_fin(IrregularPacket(0, Irregularity.SMALL_BLOCKS, 99)))
        == f"< . 2:2(0) ack 4001 win 0 {blocks}"
    )


def test_a_peer_may_tell_each_segment_as_a_block_of_its_own() -> None:
    peer = peer_of(ReceiverPlan(joins_blocks=False))
    assert peer.receive_segment_and_decide_ack((2_001, 3_001)) and peer.receive_segment_and_decide_ack((3_001, 4_001))
    assert str(peer.make_ack()) == "< . 1:1(0) ack 1 win 65535 <sack 3001:4001>"


def test_packets_that_are_lost_come_to_no_peer_and_late_ones_later() -> None:
    network = Network(100_000, lost=frozenset((0,)), late={1: 30_000})
    write = (PlannedCall(0, make_unrecorded_call("write", 4, "...", 2_000)),)
    acts = Scenario((), Handshake((), 1_000, 100_000), network, ReceiverPlan(), write, (), Ending.NONE, 6)
    (played,) = play_input_steps_in_joint_recordings([play_scenario(acts)], Toy())
    acks = [(it.at, it.what.ack) for it in played.inputs.events if isinstance(it.what, Packet)][2:]
    assert acks == [(330_000, 1), (1_300_000, 2_001)]


def test_a_peer_that_goes_on_counts_from_what_it_acknowledged_before() -> None:
    peer = peer_of(ReceiverPlan())
    peer.resume_at_numbers(3_001, 4_001, 2)
    assert (
        str(peer.make_irregular_packet_and_count_fin(IrregularPacket(0, Irregularity.SAME_ACK)))
        == "< . 2:2(0) ack 3001 win 65535"
    )
    assert (
        str(peer.make_irregular_packet_and_count_fin(IrregularPacket(9, Irregularity.OLD_ACK)))
        == "< . 2:2(0) ack 3000 win 65535"
    )
    assert (
        str(peer.make_irregular_packet_and_count_fin(IrregularPacket(0, Irregularity.EARLY_ACK)))
        == "< . 2:2(0) ack 4002 win 65535"
    )


STATE = (
    "+0 close(4) = 0\n//= at 0.100000 CLOSING una:1 DupAcks:2 recovery:RFC6675 pipe:0 FlightSize:10 expiry:0.300000\n"
)


@pytest.mark.parametrize(
    ("pattern", "is_in"),
    [
        ("state:CLOSING DupAcks:2", True),
        ("DupAcks:2 pipe:?", True),
        ("recovery:RFC*", True),
        ("state:CLOSING DupAcks:3", False),
        ("cwnd:1", False),
    ],
)
def test_a_pattern_is_facts_of_one_state(pattern: str, is_in: bool) -> None:
    found = parse_state_pattern_if_valid(pattern)
    assert found is not None and found.is_reached_in(STATE) is is_in
    test = ReachesTest(found).find_or_none_for_each_input([Inputs((), ())], [Recording(STATE)])
    assert (test[0] is not None) is is_in


@pytest.mark.parametrize("text", ["", "CLOSING", "state:", ":1", "una:1 x"])
def test_what_says_no_facts_is_no_pattern(text: str) -> None:
    assert parse_state_pattern_if_valid(text) is None


def test_what_is_reached_is_counted_by_states() -> None:
    reached = Coverage()
    reached.count_reached_by_input(
        STATE + "+0.2 > . 1:2(1)\n//= at 0.300000 TIME-WAIT una:1 expiry:none\n", ["mss"], ["sack"]
    )
    # Before a connection is established, only a SYN/ACK is on the way, and no data.
    reached.count_reached_by_input(
        "+0 > S. 0:0(0) ack 1\n//= at 0.100000 SYN-RECEIVED una:0 FlightSize:1 expiry:1.100000\n", [], []
    )
    assert {name: share for name, share in reached.input_shares_by_reached_name.items() if share} == {
        "data in flight": 0.5,
        "a recovery": 0.5,
        "an expiry": 0.5,
        "closed by both at once": 0.5,
    }
    assert (
        list(reached.input_shares_by_reached_name) == list(SHARES)
        and reached.options == {"mss": 1}
        and reached.settings == {"sack": 1}
    )


@pytest.fixture
def tree(tmp_path: Path) -> Tree:
    """A tree in which nothing is proved, with fake programs, and a folder `new` with a changed one."""
    tree = Tree(tmp_path)
    new = tmp_path / "new"
    new.mkdir()
    for folder in (tree.bin, new):
        for name in ("pdrecord", "pdregress"):
            shutil.copy(SENDER, folder / name)
    (new / "change").write_text("late")
    return tree


def search(tree: Tree, *words: str | Path, seconds: str = "60") -> Called:
    """Searches for what distinguishes the fake program from the changed one."""
    return tree.call("compare", "--base", tree.bin, "--search", seconds, "--seed", "1", *words)


def test_a_saved_script_passes_before_and_fails_after(tree: Tree) -> None:
    called = search(tree, "--with", "new", "--save", "suite/found.pkt")
    lines = called.out.splitlines()
    assert called.status == 1 and lines[0] == "a script fails under the sender after" and lines[1] == "  no settings"
    assert any(line.startswith("  after: line ") and ": fail seq: " in line for line in lines)
    assert lines[-2].startswith("reached: data in flight ") and lines[-1].endswith(" s, seed 1")
    saved = (tree.suite / "found.pkt").read_text().splitlines()
    # It ends with the line that fails, which its comment names.
    assert saved[0] == f"// Recorded by {tree.bin}." and saved[1].startswith(f"// It fails (fail {len(saved)} ")
    assert "found after " in lines[-1] and " s, cut down in " in lines[-1]
    runs = [tree.call("run", "suite", PDSUITE_PROGRAMS=str(it)) for it in (tree.bin, tree.suite.parent / "new")]
    assert [it.status for it in runs] == [0, 1]


@pytest.fixture
def unproved(tree: Tree, monkeypatch: pytest.MonkeyPatch) -> Sender:
    """The tree as a sender."""
    for name in ("PATH", "NOTES"):
        monkeypatch.setenv(name, tree.environment[name])
    return Sender("the tree", None, tree.top)


def test_a_tree_that_is_not_proved_is_built_once(tree: Tree, unproved: Sender) -> None:
    inputs = [Inputs((("mss", size),), (Input(0, make_unrecorded_call("listen", 3, 1)),)) for size in (536, 536, 1_000)]
    refused = Inputs((), (Input(0, make_dataless_inbound_packet("S", 0, None, 9)),))
    with Stop(()) as stop, open_oracles_building_missing_programs([unproved], stop) as (oracle,):
        recordings = oracle.record_inputs_or_scripts([*inputs, refused])
        scripts = [ConfiguredScript(it.settings, script_without_trace(one.text)) for it, one in zip(inputs, recordings)]
        wrong = ConfiguredScript((), b"+0 listen(3, 1) = 7\n")
        rows = oracle.run_scripts_for_rows([*scripts, wrong])
        reported = oracle.explanation_lines_of_script(wrong)
        oracle.require_that_rules_are_listed()
        rules = oracle.list_rules_of_scripts([scripts[0], ConfiguredScript((), b"+0 close(3) = 0\n")])
    assert rules == [{2: ("rfc9293.state.listen",)}, {}]
    assert [bool(it.text) for it in recordings] == [True, True, True, False]
    assert [str(it) for it in rows] == ["pass 1", "pass 1", "pass 1", "fail seq"] and reported == ["fail seq: so it is"]
    assert tree.builds() == 1


def test_where_programs_end_on_a_start_others_of_the_same_build_go_on(tree: Tree, unproved: Sender) -> None:
    texts = [b"+0 listen(3, 1) = 0\n", b"+0 abort() = 0\n", b"+0 listen(3, 1) = 0\n"]
    with Stop(()) as stop, open_oracles_building_missing_programs([unproved], stop) as (oracle,):
        rows = oracle.run_scripts_for_rows([ConfiguredScript((), it) for it in texts])
    assert [str(it) for it in rows] == ["pass 1", "error: the programs ended on it", "pass 1"]
    assert tree.builds() == 1


def test_a_tree_that_does_not_compile_is_told_with_its_errors(tree: Tree, unproved: Sender) -> None:
    (tree.top / "crates/pdregress/src/main.rt").touch()
    with Stop(()) as stop, pytest.raises(BuildError, match="unproved: NotCompiled: .*\n.*wrong"):
        with open_oracles_building_missing_programs([unproved], stop):
            pass


def test_a_search_builds_a_sender_once(tree: Tree) -> None:
    words = ("--base", "new", "--with", tree.top, "--search", "60", "--seed", "1", "--save", "suite/found.pkt")
    called = tree.call("compare", *words)
    assert called.status == 1 and called.out.startswith("a script fails under the sender after\n  no settings\n")
    assert called.out.endswith(", seed 1 UNPROVED\n") and tree.builds() == 1


def test_a_state_is_searched_for_with_one_sender(tree: Tree) -> None:
    called = tree.call("search", "--for", "state:ESTABLISHED una:1001", "--with", tree.bin, "--seed", "1")
    assert called.status == 0 and called.out.startswith("an input reaches state:ESTABLISHED una:1001\n")
    missed = tree.call("search", "--for", "cwnd:1", "--with", tree.bin, "--seed", "1", "--seconds", "1")
    assert missed.status == 1 and missed.out.startswith("no input reaches cwnd:1\nstates: ")


@pytest.mark.parametrize(
    ("words", "message"),
    [
        (("compare",), "Missing argument 'PATHS...', or --search"),
        (("compare", "--search", "1", "suite"), "--search makes scripts, and takes no PATH or --only"),
        (("compare", "--search", "1", "--json"), "without --html, --json, --markdown, --affected and --rules"),
        (("compare", "--search", "1", "--rules"), "without --html, --json, --markdown, --affected and --rules"),
        (("compare", "--seed", "1", "suite"), "--seed and --save are of --search"),
        (("search", "--for", "CLOSING"), "--for: CLOSING: no facts as NAME:VALUE"),
        (("search", "--for", "una:1", "--save", "x"), "--save: x: no name of a script"),
        (("search", "--for", "una:1", "--save", "none/x.pkt"), "none/x.pkt: the folder above it isn't there"),
    ],
)
def test_words_that_do_not_go_together_are_refused(tree: Tree, words: tuple[str, ...], message: str) -> None:
    called = tree.call(*words)
    assert called.status == 2 and message in called.err


def test_a_script_is_not_saved_where_it_would_run_under_other_settings(tree: Tree) -> None:
    for text, status in (("mss = 1000\n", 2), ('["found.pkt"]\nstrict = true\n', 2), ('["x.pkt"]\nmss = 64\n', 1)):
        (tree.suite / "pdsuite.toml").write_text(text)
        called = search(tree, "--with", "new", "--save", "suite/found.pkt", seconds="1")
        assert called.status == status and ("a pdsuite.toml has settings for it" in called.err) is (status == 2)
