"""A recording beside its script: which packet each event met, and how the sender stood after it."""

import re
from collections.abc import Iterator, Mapping, Sequence
from dataclasses import dataclass
from math import inf

from pdsuite.packetdrill.alignment import Fields, best_sent_place_by_awaited_place, comparable_fields_of_packet
from pdsuite.packetdrill.items import SECOND, HeaderOption, Packet, Time
from pdsuite.packetdrill.layout import Event

_TRACE = re.compile(
    r"^//= at (?P<whole>[0-9]+)\.(?P<part>[0-9]{6}) (?P<name>[A-Z0-9-]+)(?P<facts>(?: [A-Za-z_]+:[A-Za-z0-9.]+)*)\n?",
    re.MULTILINE,
)
_BEFORE = re.compile(r"(?:[ \t\r\n]+|//[^\n]*|/\*.*?\*/|--[^ \t\r\n]*)*", re.DOTALL)
_TIME = re.compile(r"\S+ ")
# As all packets of a recording are written.
_PACKET = re.compile(
    r"\S+ (?P<arrow>[<>]) (?P<flags>[A-Z.-]+) (?P<start>\d+):(?P<end>\d+)\(\d+\)(?: ack (?P<ack>\d+))?"
    r"(?: win (?P<win>\d+))?(?: (?P<options><[^<>]*>))?(?=[ \t\r\n/]|$)",
    re.MULTILINE,
)
_TOLERANCE = "tolerance_usecs"
_NO_FIELDS = Fields(frozenset(), (0, 0), None, None, None)


@dataclass(frozen=True, slots=True)
class SenderState:
    """How a sender stands: the name of its state, and facts as they are shown."""

    name: str
    facts: Mapping[str, str]


@dataclass(frozen=True, slots=True)
class RecordedEvent:
    """An event of a recording: where it and its action begin, its packet ends, and its lines end with their trace.

    And its moment in microseconds, the sender after it, and of a packet that left what sent it, as the trace says it.
    """

    start: int
    action: int
    end: int
    after: int
    is_input: bool  # a packet that arrives, or a call
    moment: int
    state: SenderState
    sent_by: str | None = None
    fields: Fields | None = None  # of a packet


@dataclass(frozen=True, slots=True)
class MatchedEvent:
    """An event of a script, and what it is in the recording: nothing where nothing was sent for it."""

    event: Event
    recorded: RecordedEvent | None
    after: RecordedEvent | None  # the recorded event that was met last when this one was over
    first: float = 0  # the first moment of the event's time, and the last
    last: float = inf


def recorded_events_in(recording: str) -> tuple[RecordedEvent, ...]:
    """The events of a recording that was made with a trace, whose line comes after each."""
    begin = 0
    each: list[RecordedEvent] = []
    for found in _TRACE.finditer(recording):
        each.append(_make_event_before_trace_line(recording, begin, found))
        begin = found.end()
    return tuple(each)


def strip_trace(recording: str) -> str:
    """A recording without the lines of its trace."""
    return _TRACE.sub("", recording)


def _make_event_before_trace_line(recording: str, begin: int, trace: "re.Match[str]") -> RecordedEvent:
    """The event before a line of the trace; comments and the header may come before it."""
    gap = _BEFORE.match(recording, begin, trace.start())
    start = begin if gap is None else gap.end()
    packet = _PACKET.match(recording, start, trace.start())
    time = _TIME.match(recording, start, trace.start())
    facts = dict(it.split(":", 1) for it in trace["facts"].split())
    sent_by = facts.pop("sent_by", None)
    return RecordedEvent(
        start=start,
        action=start if time is None else time.end(),
        end=trace.start() if packet is None else packet.end(),
        after=trace.end(),
        is_input=packet is None or packet["arrow"] == "<",
        moment=int(trace["whole"]) * SECOND + int(trace["part"]),
        state=SenderState(trace["name"], facts),
        sent_by=sent_by,
        fields=None if packet is None else _packet_fields_from_regex_match(packet),
    )


def _packet_fields_from_regex_match(packet: "re.Match[str]") -> Fields:
    ack, win = (None if packet[it] is None else int(packet[it]) for it in ("ack", "win"))
    octets = int(packet["start"]), int(packet["end"])
    return Fields(frozenset(packet["flags"]) - {"-"}, octets, ack, win, "".join((packet["options"] or "").split()))


def tolerance_from_header_or_settings(items: Sequence[Event], settings: int) -> int:
    """The tolerance in microseconds: the last one of the header, else that of the settings."""
    header = [it.item.what for it in items if isinstance(it.item.what, HeaderOption)]
    values = [it.value for it in header if it.name == _TOLERANCE and it.value is not None and it.value.isdecimal()]
    return int(values[-1]) if values else settings


def match_events(
    events: Sequence[Event], recorded: Sequence[RecordedEvent], passed: int, tolerance: int, begin: int = 0
) -> Iterator[MatchedEvent]:
    """Matches each event with its event in the recording, if it has one. The first `passed` events have passed.

    Packets are met in the order in which they left. Later events meet the packets that are most alike, where these left
    before the last moments of the events, give or take the tolerance.
    """
    inputs = [place for place, it in enumerate(recorded) if it.is_input]
    pairs = _pair_outputs_in_order_then_by_likeness(events, recorded, passed)
    base = clock = begin
    after: RecordedEvent | None = None
    for number, event in enumerate(events):
        first, end = _first_moment_or_zero(event.item.time, base), _last_moment_or_infinity(event.item.time, base)
        if event.is_input:
            found = inputs.pop(0) if inputs else None
            base = _first_moment_or_base(event.item.time, base)
        else:
            until = inputs[0] if inputs else len(recorded)
            last = inf if number < passed else max(clock, end + tolerance)
            place = pairs.get(number)
            found = (
                place
                if place is not None and _is_before_next_input_and_by_last_moment(recorded, place, until, last)
                else None
            )
            base = _time_base_after_event(event.item.time, base, None if found is None else recorded[found].moment)
        if found is not None:
            after = recorded[found]
            clock = max(clock, after.moment)
        yield MatchedEvent(event, None if found is None else recorded[found], after, first, end)


def _pair_outputs_in_order_then_by_likeness(
    events: Sequence[Event], recorded: Sequence[RecordedEvent], passed: int
) -> dict[int, int]:
    """The place of the packet beside each event that awaits one: those that passed met theirs in order."""
    awaited = [number for number, it in enumerate(events) if not it.is_input]
    outputs = [place for place, it in enumerate(recorded) if not it.is_input]
    taken = min(sum(number < passed for number in awaited), len(outputs))
    pairs = dict(zip(awaited[:taken], outputs[:taken]))
    left, sent = awaited[taken:], outputs[taken:]
    until = _next_input_place_after_each_event(events, recorded)
    wanted = [
        comparable_fields_of_packet(it.item.what) if isinstance(it.item.what, Packet) else None
        for it in (events[n] for n in left)
    ]
    there = [recorded[place].fields for place in sent]
    found = best_sent_place_by_awaited_place(
        [it or _NO_FIELDS for it in wanted],
        [it or _NO_FIELDS for it in there],
        lambda one, other: sent[other] < until[left[one]],
    )
    return pairs | {left[one]: sent[other] for one, other in found.items()}


def _next_input_place_after_each_event(events: Sequence[Event], recorded: Sequence[RecordedEvent]) -> list[int]:
    """For each event the place of the next input after it in the recording, or its end."""
    inputs = [place for place, it in enumerate(recorded) if it.is_input]
    untils, count = [], 0
    for it in events:
        count += it.is_input
        untils.append(inputs[count] if count < len(inputs) else len(recorded))
    return untils


def _is_before_next_input_and_by_last_moment(
    recorded: Sequence[RecordedEvent], place: int, until: int, last: float
) -> bool:
    return place < until and recorded[place].moment <= last


def _first_moment_or_base(time: Time | None, base: int) -> int:
    if time is None or time.first is None:
        return base
    return base + time.first if time.is_relative else time.first


def _first_moment_or_zero(time: Time | None, base: int) -> float:
    return 0 if time is None or time.first is None else _first_moment_or_base(time, base)


def _last_moment_or_infinity(time: Time | None, base: int) -> float:
    if time is None or time.first is None:
        return inf
    last = time.first if time.last is None else time.last
    return base + last if time.is_relative else last


def _time_base_after_event(time: Time | None, base: int, moment: int | None) -> int:
    if time is not None and time.is_single_moment:
        return _first_moment_or_base(time, base)
    return base if moment is None else max(base, moment)


def last_script_input_due_before_moment(events: Sequence[Event], moment: int) -> Event | None:
    """The last call or packet that arrives before a moment in microseconds, where times that aren't fixed take none."""
    base, found = 0, None
    for it in events:
        base = _time_base_after_event(it.item.time, base, None)
        if base >= moment:
            break
        if it.is_input:
            found = it
    return found
