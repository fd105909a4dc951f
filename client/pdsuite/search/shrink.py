"""Shrinks inputs to the least that are still a find: events go, settings, options and numbers get simpler."""

import time
from collections.abc import Iterable, Iterator, Sequence
from dataclasses import dataclass, replace
from itertools import islice

from pdsuite.compare.divergence import parse_played_events
from pdsuite.packetdrill.items import Call, Packet, TcpOption
from pdsuite.search.find import TRACE, Find, FindTest
from pdsuite.search.inputs import Input, Inputs, make_unrecorded_call, options_text
from pdsuite.search.oracle import SenderOracle
from pdsuite.search.renumber import inputs_less_one_round
from pdsuite.search.simulate import TICK
from pdsuite.search.states import states_before_inputs_and_at_end

_GAPS = (0, 1_000, 100_000, 200_000, 1_000_000, 10_000_000)
_WINDOWS = (257, 32_792, 1_000)
_SIZES = (1, 100, 1_000, 2_000, 3_000, 4_000, 5_000, 8_000, 10_000)
_WRITE = "write"
# The last call on a connection, one of these: it shows whether that is reset, and sends what a window lets go.
_LAST = (make_unrecorded_call(_WRITE, 4, "...", 1_000), make_unrecorded_call("close", 4))
# So many inputs without a round are tried at once.
_AT_ONCE = 96
_NOT_ZERO = tuple(b"%d" % digit for digit in range(1, 10))
# How simple inputs are: the events, settings and octets that they have, and how round their numbers are.
_Size = tuple[int, int, int, int, int]


@dataclass(frozen=True, slots=True)
class _EventChange:
    """A change of the event at a place: it goes, is another one, or comes so long after the one before."""

    place: int
    goes: bool = False
    what: Packet | Call | None = None
    gap: int | None = None


# Changes that are made together.
_Changes = tuple[_EventChange, ...]


def shrink_find(find: Find, test: FindTest, before: SenderOracle, seconds: float) -> Find:
    """The least find that is reached from this one, or the last in so many seconds."""
    until = time.monotonic() + seconds
    while time.monotonic() < until and (smaller := _smaller_find(find, test, before)) is not None:
        find = smaller
    return find


def size_of_inputs(it: Inputs) -> _Size:
    """How simple inputs are; the least are the simplest."""
    text = it.script_octets()
    return (len(it.events), len(it.settings), int(it.is_exact), len(text), sum(map(text.count, _NOT_ZERO)))


def _lines_until_failure_and_inputs_size(it: Find) -> tuple[int, _Size]:
    """How simple a find is: the lines of its script up to the one that fails, and its inputs."""
    lines = it.recording.count(TRACE) if it.row is None or it.row.line is None else it.row.line
    return lines, size_of_inputs(it.inputs)


def _smaller_find(find: Find, test: FindTest, before: SenderOracle) -> Find | None:
    """A smaller find, if there is one: without events or rounds, then under fewer rules, then with simpler events."""
    whole = find.inputs
    for changes in (list(_piece_removals(whole)), list(_single_removals(whole))):
        if (found := _smaller_find_by_all_or_fewer_good_changes(find, changes, test, before)) is not None:
            return found
    states = states_before_inputs_and_at_end(list(parse_played_events(find.recording)))
    if len(states) == len(whole.events) + 1:
        rounds = inputs_less_one_round(whole, states)
        while some := list(islice(rounds, _AT_ONCE)):
            if (found := _least_smaller_find_among_candidates(find, some, test, before)) is not None:
                return found
    for others in (list(_without_one_setting_or_exactness(whole)), list(_rest_replaced_by_write_or_close(whole))):
        if (found := _least_smaller_find_among_candidates(find, others, test, before)) is not None:
            return found
    return _smaller_find_by_all_or_fewer_good_changes(find, list(_simpler_event_changes(whole)), test, before)


def _smaller_find_by_all_or_fewer_good_changes(
    find: Find, changes: Sequence[_Changes], test: FindTest, before: SenderOracle
) -> Find | None:
    """The find that all changes lead to which lead to one by themselves, or else half of these, and so on."""
    size, least = size_of_inputs(find.inputs), _lines_until_failure_and_inputs_size(find)
    tried = [it for it in changes if size_of_inputs(_apply_changes(find.inputs, it)) < size]
    found = _record_and_test_candidates([_apply_changes(find.inputs, it) for it in tried], test, before)
    good = [(_lines_until_failure_and_inputs_size(it), number) for number, it in enumerate(found) if it is not None]
    chosen = [number for smaller, number in sorted(good) if smaller < least]
    while len(chosen) > 1:
        together = _apply_changes(find.inputs, [change for number in chosen for change in tried[number]])
        (both,) = _record_and_test_candidates([together], test, before)
        if both is not None and _lines_until_failure_and_inputs_size(both) < least:
            return both
        chosen = chosen[: len(chosen) // 2]
    return found[chosen[0]] if chosen else None


def _least_smaller_find_among_candidates(
    find: Find, candidates: Sequence[Inputs], test: FindTest, before: SenderOracle
) -> Find | None:
    least = _lines_until_failure_and_inputs_size(find)
    there = [
        it
        for it in _record_and_test_candidates(candidates, test, before)
        if it is not None and _lines_until_failure_and_inputs_size(it) < least
    ]
    return min(there, key=_lines_until_failure_and_inputs_size) if there else None


def _record_and_test_candidates(
    candidates: Sequence[Inputs], test: FindTest, before: SenderOracle
) -> list[Find | None]:
    return (
        test.find_or_none_for_each_input(candidates, before.record_inputs_or_scripts(candidates)) if candidates else []
    )


def _apply_changes(inputs: Inputs, changes: Iterable[_EventChange]) -> Inputs:
    """The inputs after changes, of which the first of each kind counts for an event. Events after a gap move along."""
    gone: set[int] = set()
    whats: dict[int, Packet | Call] = {}
    gaps: dict[int, int] = {}
    for it in changes:
        if it.goes:
            gone.add(it.place)
        if it.what is not None:
            whats.setdefault(it.place, it.what)
        if it.gap is not None:
            gaps.setdefault(it.place, it.gap)
    events: list[Input] = []
    before = at = 0
    for place, event in enumerate(inputs.events):
        at += gaps.get(place, event.at - before)
        before = event.at
        if place not in gone:
            events.append(Input(at, whats.get(place, event.what)))
    return replace(inputs, events=tuple(events))


def _piece_removals(it: Inputs) -> Iterator[_Changes]:
    """Without pieces of half of the events, a quarter, and so on."""
    count = len(it.events)
    length = count // 2
    while length >= 4:
        for first in range(0, count, length):
            yield tuple(_EventChange(place, goes=True) for place in range(first, min(first + length, count)))
        length //= 2


def _single_removals(it: Inputs) -> Iterator[_Changes]:
    """Without one event."""
    for place in range(len(it.events)):
        yield (_EventChange(place, goes=True),)


def _without_one_setting_or_exactness(it: Inputs) -> Iterator[Inputs]:
    """Without one setting, or with packets that may leave a little earlier or later."""
    for place in range(len(it.settings)):
        yield replace(it, settings=it.settings[:place] + it.settings[place + 1 :])
    if it.is_exact:
        yield replace(it, is_exact=False)


def _rest_replaced_by_write_or_close(it: Inputs) -> Iterator[Inputs]:
    """With a write or a close in place of all that follows an event, and with a wait that what these send meets."""
    for place in range(1, len(it.events)):
        at = it.events[place - 1].at
        for what in _LAST:
            wait = Input(at + _GAPS[-1], TICK)
            yield from (replace(it, events=(*it.events[:place], Input(at, what), *more)) for more in ((), (wait,)))


def _simpler_event_changes(it: Inputs) -> Iterator[_Changes]:
    """With one event simpler, or at a simpler time."""
    before = 0
    for place, event in enumerate(it.events):
        yield from ((_EventChange(place, what=what),) for what in _simpler_packets_or_calls(event.what))
        yield from ((_EventChange(place, gap=gap),) for gap in _GAPS if gap != event.at - before)
        before = event.at


def _simpler_packets_or_calls(what: Packet | Call) -> Iterator[Packet | Call]:
    if isinstance(what, Call):
        if what.name == _WRITE and what.arguments[-1].isdecimal():
            yield from (replace(what, arguments=(*what.arguments[:-1], str(it))) for it in _SIZES)
        return
    for options in _options_less_one_or_less_one_sack_block(what.options):
        yield replace(what, options=options, options_text=options_text(options))
    if what.win is not None:
        yield from (replace(what, win=it) for it in _WINDOWS)
    if what.flags == "F.":
        yield replace(what, flags=".")


def _options_less_one_or_less_one_sack_block(options: tuple[TcpOption, ...]) -> Iterator[tuple[TcpOption, ...]]:
    """Without one option, or without one block."""
    for place, option in enumerate(options):
        before, after = options[:place], options[place + 1 :]
        yield (*before, *after)
        blocks = len(option.numbers) // 2 if option.name == "sack" else 0
        for block in range(0, 2 * blocks if blocks > 1 else 0, 2):
            numbers = option.numbers[:block] + option.numbers[block + 2 :]
            yield (*before, TcpOption("sack", numbers), *after)
