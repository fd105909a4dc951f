"""The emphasis of a search, and that the same seed draws the same inputs: plain functions, and a fake program."""

from itertools import islice

from pdsuite.compare.divergence import parse_played_events
from pdsuite.search.candidates import CandidateLists
from pdsuite.search.generate import scenario_lists_of_sizes
from pdsuite.search.relevance import emphasis_of_changes, script_name_and_comment_of_changed_rule
from pdsuite.search.scenario import Emphasis, Theme
from pdsuite.search.search import play_input_steps_in_joint_recordings
from pdsuite.search.states import parse_state, state_steps_in, states_before_inputs_and_at_end
from tests.test_input_search import Toy

CHANGED = {"name": "restart", "sections": ["RFC 5681, section 4.1"], "changed": ["restart", "u32"], "whole": ["widest"]}
OTHER = {"name": "x", "sections": [], "changed": ["u32"], "whole": ["widest"]}
TRACE = (
    "+0 listen(3, 1) = 0\n//= at 0.000000 LISTEN\n"
    "+0.1 < . 1:1(0) ack 1 win 9\n//= at 0.100000 ESTABLISHED una:1 top:1 cwnd:4000\n"
    "+0 > . 1:1001(1000) ack 1\n//= at 0.100000 ESTABLISHED una:1 top:1001 cwnd:4000 sent_by:line2\n"
    "+0.1 < . 1:1(0) ack 1001 win 9\n//= at 0.200000 ESTABLISHED una:1001 top:1001 cwnd:5000\n"
)


def test_what_the_changed_lines_name_comes_first_or_else_what_all_that_changed_names() -> None:
    found = emphasis_of_changes([CHANGED], frozenset({"mss"}))
    assert "slow_start_after_idle" in found.keys and found.themes == {Theme.IDLE} and found.fixed == {"mss"}
    assert emphasis_of_changes([OTHER], frozenset()).themes == {Theme.WINDOW, Theme.SMALL}
    assert emphasis_of_changes([], frozenset({"mss"})) == Emphasis(fixed=frozenset({"mss"}))


def test_a_script_is_offered_by_the_name_and_the_sections_of_what_changed() -> None:
    assert script_name_and_comment_of_changed_rule([OTHER, CHANGED]) == [
        "restart.pkt",
        "// RFC 5681, section 4.1: restart: WHAT THE SECTION ASKS FOR.",
        "// If it fails, WHAT IS WRONG THEN.",
    ]
    assert script_name_and_comment_of_changed_rule([OTHER]) == []


def test_settings_that_come_first_are_drawn_in_most_plans_and_fixed_ones_in_none() -> None:
    (made,) = scenario_lists_of_sizes(
        3, [200], Emphasis(frozenset({"recovery_algorithm"}), frozenset(), frozenset({"mss"}))
    )
    keys = [[key for key, _ in it.settings] for it in made]
    assert sum("recovery_algorithm" in it for it in keys) > 100 and not any("mss" in it for it in keys)


def drawn(seed: int) -> list[object]:
    """The inputs that are tried in three lists, where all that was played is learnt from."""
    drawing = CandidateLists(seed, [12, 12, 24])
    tried: list[object] = []
    for games in drawing.input_list_for_each_size():
        played = play_input_steps_in_joint_recordings(games, Toy())
        tried += [it.inputs for it in played]
        drawing.keep_inputs_with_new_steps(played)
    return tried


def test_the_same_seed_tries_the_same_inputs_in_the_same_order_variations_too() -> None:
    one, again, other = drawn(5), drawn(5), drawn(6)
    assert one == again and len(one) == 48 and one != other


def test_the_state_before_each_input_is_the_one_after_all_that_left_before() -> None:
    played = list(parse_played_events(TRACE))
    assert [it.fact_as_number_or_default("una") for it in states_before_inputs_and_at_end(played)] == [0, 0, 1, 1001]
    assert [it.is_open for it in states_before_inputs_and_at_end(played)] == [False, False, True, True]
    assert parse_state(played[1].state).fact_as_number_or_default("cwnd") == 4000
    # A packet that leaves in the same kind of state is no step.
    steps = list(islice(state_steps_in(TRACE), 9))
    assert [what for _, what, _ in steps][:2] == ["listen", ". "] and len({it[2] for it in steps}) >= 3
