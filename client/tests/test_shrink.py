"""How inputs of a search go on and are made smaller: plain functions of inputs and their recordings."""

from collections.abc import Callable, Sequence
from dataclasses import replace
from typing import Any

import pytest

from pdsuite.packetdrill.items import SECOND, Call, Packet, TcpOption
from pdsuite.programs.recorder import Recording
from pdsuite.programs.verdict import Row
from pdsuite.search.continuations import continued_inputs_of_find
from pdsuite.search.find import Find
from pdsuite.search.inputs import Input, Inputs, make_dataless_inbound_packet, make_unrecorded_call
from pdsuite.search.oracle import ConfiguredScript
from pdsuite.search.shrink import shrink_find
from pdsuite.search.simulate import LONGEST_GAP, LONG_GAPS, TICK

WRITE = make_unrecorded_call("write", 4, "...", 3_000)
ACK = make_dataless_inbound_packet(".", 1, 1, 1_000)
RECORDED = (
    "+0 > P. 1:1001(1000) ack 1\n//= at 0.000000 ESTABLISHED una:1 next:1001 top:1001\n"
    "+1 > P. 1001:3001(2000) ack 1\n//= at 1.000000 ESTABLISHED una:1 next:3001 top:3001\n"
)


def inputs_of(*events: tuple[int, Packet | Call], is_exact: bool = False) -> Inputs:
    return Inputs((), tuple(Input(at, what) for at, what in events), is_exact)


class RecordingSender:
    """Is recorded the same on all inputs."""

    def record_inputs_or_scripts(self, inputs: Sequence[Inputs | ConfiguredScript]) -> list[Recording]:
        return [Recording("a\n")] * len(inputs)

    def run_scripts_for_rows(self, scripts: Sequence[ConfiguredScript]) -> list[Row]:
        raise NotImplementedError

    def explanation_lines_of_script(self, script: ConfiguredScript) -> list[str]:
        raise NotImplementedError


class Finds:
    """Finds the inputs that are good."""

    def __init__(self, is_good: Callable[[Inputs], bool]) -> None:
        self.is_good = is_good

    def find_or_none_for_each_input(
        self, inputs: Sequence[Inputs], recordings: Sequence[Recording]
    ) -> list[Find | None]:
        return [Find(it, "") if self.is_good(it) else None for it in inputs]


def least(inputs: Inputs, is_good: Callable[[Inputs], bool]) -> Inputs:
    """The least inputs that are good."""
    return shrink_find(Find(inputs, ""), Finds(is_good), RecordingSender(), 60).inputs


def test_what_follows_an_event_that_goes_keeps_its_moment() -> None:
    events = (0, TICK), (SECOND, ACK), (2 * SECOND + 3, WRITE)
    found = least(inputs_of(*events), lambda it: it.events[-1:] == (Input(2 * SECOND + 3, WRITE),))
    assert found == inputs_of((2 * SECOND + 3, WRITE))


def test_what_follows_a_shorter_gap_moves_along() -> None:
    events = (7 * SECOND, TICK), (8 * SECOND, ACK)
    found = least(inputs_of(*events), lambda it: len(it.events) == 2 and it.events[1].at - it.events[0].at == SECOND)
    assert [it.at for it in found.events] == [0, SECOND]


@pytest.mark.parametrize(
    ("what", "is_good", "wanted"),
    [
        (WRITE, lambda it: True, make_unrecorded_call("write", 4, "...", 1)),
        (
            make_unrecorded_call("write", 4, "...", 3_456),
            lambda it: int(it.arguments[-1]) >= 1_500,
            make_unrecorded_call("write", 4, "...", 2_000),
        ),
        (make_dataless_inbound_packet("F.", 1, 1, 257), lambda it: True, make_dataless_inbound_packet(".", 1, 1, 257)),
        (
            make_dataless_inbound_packet(".", 1, 1, 257, (TcpOption("sack", (1, 2, 3, 4)),)),
            lambda it: bool(it.options) and 3 in it.options[0].numbers,
            make_dataless_inbound_packet(".", 1, 1, 257, (TcpOption("sack", (3, 4)),)),
        ),
        (
            make_dataless_inbound_packet(".", 1, 1, 257, (TcpOption("sack", (1, 2, 3, 4, 5, 6)),)),
            lambda it: bool(it.options) and 1 in it.options[0].numbers,
            make_dataless_inbound_packet(".", 1, 1, 257, (TcpOption("sack", (1, 2)),)),
        ),
        (
            make_dataless_inbound_packet(".", 1, 1, 5_555),
            lambda it: it.win > 257,
            make_dataless_inbound_packet(".", 1, 1, 1_000),
        ),
    ],
)
def test_an_event_gets_simpler(what: Packet | Call, is_good: Callable[[Any], bool], wanted: Packet | Call) -> None:
    found = least(inputs_of((0, what)), lambda it: len(it.events) == 1 and is_good(it.events[0].what))
    assert found == inputs_of((0, wanted))


def test_a_whole_round_goes_with_the_numbers_that_it_moved() -> None:
    """Of four ACKs none goes by itself, since the last one has to acknowledge a segment more than the one before."""
    acks = [make_dataless_inbound_packet(".", 1, number, 257) for number in (1, 1_001, 2_001, 3_001)]
    states = [(1, 1_001), (1_001, 2_001), (2_001, 3_001), (3_001, 4_001)]
    recording = "".join(
        f"+0 {it}\n//= at 0.000000 ESTABLISHED una:{una} top:{top} cwnd:4000\n" for it, (una, top) in zip(acks, states)
    )
    test = Finds(lambda it: [str(one.what) for one in it.events] == [str(one) for one in acks[:2]])
    found = shrink_find(Find(inputs_of(*((0, it) for it in acks)), recording), test, RecordingSender(), 60)
    assert [str(it.what) for it in found.inputs.events] == [str(it) for it in acks[:2]]


@pytest.mark.parametrize(
    ("last", "least_last"),
    [("write", make_unrecorded_call("write", 4, "...", 1)), ("close", make_unrecorded_call("close", 4))],
)
def test_another_call_shows_sooner_what_waits_show(last: str, least_last: Call) -> None:
    """Five waits show a find, of which none can go; so does a call in their place."""

    def is_good(it: Inputs) -> bool:
        (what, *others) = (one.what for one in it.events) or (None,)
        return what == ACK and (len(others) >= 5 or any(isinstance(one, Call) and one.name == last for one in others))

    waits = [(number * SECOND, TICK) for number in range(1, 6)]
    assert least(inputs_of((0, ACK), *waits), is_good) == inputs_of((0, ACK), (0, least_last))


def test_settings_and_exact_times_go_where_nothing_needs_them() -> None:
    inputs = replace(inputs_of((0, ACK), is_exact=True), settings=(("mss", 100), ("sack", False)))
    found = least(inputs, lambda it: len(it.events) == 1 and dict(it.settings).get("sack") is False)
    assert (found.settings, found.is_exact) == ((("sack", False),), False)


def test_inputs_go_on_with_acks_of_all_that_was_sent_at_the_last_state() -> None:
    endings = list(continued_inputs_of_find(Find(inputs_of((0, TICK), (SECOND, WRITE)), RECORDED)))
    acks = [it.events[2].what for it in endings if isinstance(it.events[2].what, Packet)]
    assert [(it.start, it.ack) for it in acks] == [(1, 3_001), (2, 3_001)]
    assert all(it.events[1] == Input(SECOND, WRITE) and it.events[2].at > SECOND for it in endings)
    ends = [it.events[-1].at - 2 * SECOND for it in endings]
    assert ends == [10 * SECOND] * 5 + [LONG_GAPS * LONGEST_GAP] * 2


def test_inputs_without_a_state_go_on_with_the_first_number() -> None:
    acks = [
        it.what
        for ending in continued_inputs_of_find(Find(inputs_of(), ""))
        for it in ending.events
        if isinstance(it.what, Packet)
    ]
    assert [it.ack for it in acks] == [1, 1]
