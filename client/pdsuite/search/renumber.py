"""Takes a round out of inputs: what arrives later acknowledges as much less as the sender then sends less."""

from collections.abc import Iterator, Sequence
from dataclasses import replace

from pdsuite.packetdrill.items import Call, Packet, TcpOption
from pdsuite.search.inputs import Input, Inputs, options_text
from pdsuite.search.states import TracedState

# The numbers by which a round is measured: how far all is acknowledged, and how far all is sent.
_NUMBERS = ("una", "top")


def inputs_less_one_round(inputs: Inputs, states: Sequence[TracedState]) -> Iterator[Inputs]:
    """The inputs without some that follow one another, the longest rounds first; with the state before each."""
    count = len(inputs.events)
    opened = next((place for place, it in enumerate(states) if it.is_open), count)
    for length in range(count - opened, 1, -1):
        for first in range(opened, count - length + 1):
            last = first + length
            for octets in dict.fromkeys(
                states[last].fact_as_number_or_default(it) - states[first].fact_as_number_or_default(it)
                for it in _NUMBERS
            ):
                if octets > 0:
                    yield _remove_round(inputs, first, last, octets)


def _remove_round(inputs: Inputs, first: int, last: int, octets: int) -> Inputs:
    events = inputs.events
    gone = events[last].at - events[first].at if last < len(events) else 0
    later = [Input(it.at - gone, _lower_ack_and_sack_numbers(it.what, octets)) for it in events[last:]]
    return replace(inputs, events=(*events[:first], *later))


def _lower_ack_and_sack_numbers(what: Packet | Call, octets: int) -> Packet | Call:
    """A packet whose numbers of the sender's octets are so much lower."""
    if isinstance(what, Call) or what.ack is None or what.ack <= octets:
        return what
    options = tuple(_lower_sack_numbers(it, octets) for it in what.options)
    return replace(what, ack=what.ack - octets, options=options, options_text=options_text(options))


def _lower_sack_numbers(it: TcpOption, octets: int) -> TcpOption:
    if it.name != "sack":
        return it
    return replace(it, numbers=tuple(max(number - octets, 0) for number in it.numbers))
