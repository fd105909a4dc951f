"""How inputs go on, so that a packet which no line of their script takes meets a line that it fails."""

from collections.abc import Iterator
from dataclasses import replace

from pdsuite.compare.divergence import parse_played_events
from pdsuite.packetdrill.items import SECOND
from pdsuite.search.find import Find
from pdsuite.search.inputs import Input, Inputs, make_dataless_inbound_packet, make_unrecorded_call
from pdsuite.search.simulate import LONGEST_GAP, LONG_GAPS, TICK

_WRITE = make_unrecorded_call("write", 4, "...", 20_000)
_CLOSE = make_unrecorded_call("close", 4)


def continued_inputs_of_find(find: Find) -> Iterator[Inputs]:
    """Inputs that begin as these do, and go on: by a wait, a write, a close, an ACK, or hours of nothing."""
    inputs = find.inputs
    last = inputs.events[-1].at + SECOND if inputs.events else 0
    wait = Input(last + 10 * SECOND, TICK)
    top = _last_state_top_or_one(find.recording)
    yield _append_events(inputs, wait)
    yield _append_events(inputs, Input(last, _WRITE), wait)
    yield _append_events(inputs, Input(last, _CLOSE), wait)
    for number in (1, 2):
        yield _append_events(
            inputs, Input(last, make_dataless_inbound_packet(".", number, top, 257)), Input(last, _WRITE), wait
        )
    for first in ((), (Input(last, _CLOSE),)):
        yield _append_events(inputs, *first, *ticks_past_all_timers(last))


def ticks_past_all_timers(begin: int) -> Iterator[Input]:
    """Calls that change nothing, until no timer that runs could still have left a packet to take."""
    yield from (Input(begin + number * LONGEST_GAP, TICK) for number in range(1, LONG_GAPS + 1))


def _append_events(inputs: Inputs, *events: Input) -> Inputs:
    return replace(inputs, events=(*inputs.events, *events))


def _last_state_top_or_one(recording: str) -> int:
    """The number after all that was sent, where the last state has it."""
    facts = [it.state.split(" ") for it in parse_played_events(recording)][-1:]
    return next((int(it[4:]) for words in facts for it in words if it.startswith("top:")), 1)
