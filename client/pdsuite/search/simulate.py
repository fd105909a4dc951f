"""Plays a scenario: a peer and a network answer, round trip by round trip, what a sender is recorded to send."""

import heapq
import re
from collections.abc import Generator, Iterator
from dataclasses import dataclass, replace
from itertools import count

from pdsuite.compare.divergence import PlayedEvent, parse_played_events
from pdsuite.packetdrill.items import SECOND, Call, Packet
from pdsuite.programs.recorder import Recording
from pdsuite.search.inputs import Input, Inputs, make_dataless_inbound_packet, make_unrecorded_call
from pdsuite.search.peer import Peer
from pdsuite.search.scenario import Ending, Handshake, IrregularPacket, Irregularity, Scenario
from pdsuite.search.states import TracedState, parse_state

SYN_AT = 100_000
# A call that changes nothing.
TICK = make_unrecorded_call("fcntl", 3, "F_SETFL", "O_RDWR")
LISTENING = (
    make_unrecorded_call("socket", "...", "SOCK_STREAM", "IPPROTO_TCP"),
    make_unrecorded_call("bind", 3, "...", "..."),
    make_unrecorded_call("listen", 3, 1),
)
ACCEPT = make_unrecorded_call("accept", 3, "...", "...")

# The longest time between two events, so many of which have more expiries than a sender keeps packets.
LONGEST_GAP = 3_600 * SECOND
LONG_GAPS = 18
_LONG_WRITE = 20_000
_TRIES = 4
_SENT = re.compile(r"\S+ > (\S+) (\d+):(\d+)\(\d+\)")
_REFUSED = re.compile(r"(?:.*: )?(?:unsupported|limit|fail|syntax) (\d+)")
_WRITABLE = ("ESTABLISHED", "CLOSE-WAIT")


@dataclass(frozen=True)
class PlayedInputs:
    """The inputs that came of a scenario, and their recording."""

    inputs: Inputs
    recording: Recording


# Requests a recording of inputs, and gets it.
InputSteps = Generator[Inputs, Recording, PlayedInputs]


@dataclass(order=True)
class _Due:
    """An event due at a moment: an input, a segment for the peer, an irregular packet, or an ACK that waited."""

    at: int
    place: int
    what: "Call | Packet | IrregularPacket | _Arrival | None" = None


@dataclass(frozen=True)
class _Arrival:
    """A segment that reaches the peer."""

    start: int
    end: int


def play_scenario(scenario: Scenario) -> InputSteps:
    """The inputs of a scenario, by recordings of those before."""
    return (yield from _Simulation(scenario).play())


def play_on_from_inputs(scenario: Scenario, begun: Inputs) -> InputSteps:
    """Inputs that begin as these do, and go on by a scenario; its moments count from where these end.

    Where no connection is open at their end, they are all.
    """
    return (yield from _Simulation(_adopt_settings_and_syn_options(scenario, begun)).play_on_from_inputs(begun))


def play_inputs_dropping_refused(inputs: Inputs) -> InputSteps:
    """Inputs as they are, without what the sender doesn't run."""
    events = list(inputs.events)
    recording = Recording("", "nothing is recorded yet")
    for _ in range(_TRIES):
        recording = yield replace(inputs, events=tuple(events))
        place = _refused_input_place(recording, inputs, len(events))
        if place is None:
            break
        del events[place]
    return PlayedInputs(replace(inputs, events=tuple(events)), recording)


def _refused_input_place(recording: Recording, inputs: Inputs, count: int) -> int | None:
    """The place of the input that a sender doesn't run, if that is why there is no recording."""
    refused = _REFUSED.match(recording.fault)
    if recording.text or refused is None or not count:
        return None
    return min(int(refused[1]) - 1 - inputs.header_line_count, count - 1)


def _adopt_settings_and_syn_options(scenario: Scenario, begun: Inputs) -> Scenario:
    """A scenario with the settings of inputs, and the options of their SYN."""
    syns = [it.what for it in begun.events if isinstance(it.what, Packet) and it.what.flags == "S"]
    options = syns[0].options if syns else ()
    return replace(scenario, settings=begun.settings, handshake=replace(scenario.handshake, options=options))


class _Simulation:
    """A scenario that is played: what was put in, what is due, and what the sender has sent."""

    def __init__(self, scenario: Scenario) -> None:
        self._scenario = scenario
        self._peer = Peer(scenario)
        self._places = count()
        self._due: list[_Due] = []
        self._events = [Input(0, it) for it in LISTENING]
        self._state = ""
        self._expiry: int | None = None
        self._now = 0
        self._sent = 0
        self._seen = 0
        self._idle = list(scenario.idle)
        self._rto: int | None = None
        self._last_sent = 0
        self._established_at = SYN_AT + scenario.handshake.takes
        self._recording = Recording("", "nothing is recorded yet")

    def play(self) -> InputSteps:
        for at, what in _handshake_inputs(self._scenario.handshake, self._peer.window_field):
            self._schedule(at, what)
        return (yield from self._play_calls_irregular_packets_and_end())

    def play_on_from_inputs(self, begun: Inputs) -> InputSteps:
        """Takes up inputs where they end: what is outstanding then is on its way to the peer."""
        taken = yield from play_inputs_dropping_refused(begun)
        self._events, self._recording = list(taken.inputs.events), taken.recording
        played = list(parse_played_events(self._recording.text))
        state = parse_state(played[-1].state) if played else TracedState("CLOSED")
        if not state.is_open:
            return PlayedInputs(self._inputs_so_far(), self._recording)
        self._note_sender_state(played[-1])
        self._established_at = self._now
        una = state.fact_as_number_or_default("una", 1)
        self._peer.resume_at_numbers(
            una, state.fact_as_number_or_default("top", 1), 2 if any(_has_fin(it.what) for it in begun.events) else 1
        )
        segments = list(_sent_data_and_fin_segments_of(played))
        self._seen = len(segments)
        for start, end in dict.fromkeys((start, end) for _, start, end in segments if end > una):
            self._schedule_arrival_unless_lost(self._now, start, end)
        return (yield from self._play_calls_irregular_packets_and_end())

    def _play_calls_irregular_packets_and_end(self) -> InputSteps:
        """Plays the calls, the irregular packets and the end."""
        for it in self._scenario.acts:
            self._schedule(self._established_at + it.after, it.call)
        for irregular in self._scenario.irregular:
            self._schedule(self._established_at + irregular.after, irregular)
        for _ in range(self._scenario.rounds):
            if not self._add_due_inputs_or_expiry_wait_if_any():
                break
            yield from self._record_inputs_and_deliver_segments()
        self._events = [it for it in self._events[:-1] if it.what is not TICK] + self._events[-1:]
        self._events += self._ending_waits_and_write()
        yield from self._record_inputs_and_deliver_segments()
        return PlayedInputs(self._inputs_so_far(), self._recording)

    def _inputs_so_far(self) -> Inputs:
        return Inputs(self._scenario.settings, tuple(self._events))

    def _schedule(self, at: int, what: "Call | Packet | IrregularPacket | _Arrival | None") -> None:
        heapq.heappush(self._due, _Due(at, next(self._places), what))

    def _add_due_inputs_or_expiry_wait_if_any(self) -> bool:
        """Puts in what is due before the sender could be answered; whether there was anything."""
        while True:
            if not self._due and self._expiry is None:
                self._schedule_idle_write()
            first = self._due[0].at if self._due else None
            expiry = None if self._expiry is None else self._moment_after_outage(self._expiry)
            if expiry is not None and (first is None or expiry < first):
                self._events.append(Input(expiry, TICK))
                return True
            if first is None:
                return False
            # Until then nothing that was sent could have been answered.
            horizon = max(first, self._established_at) + self._scenario.network.round_trip
            put = len(self._events)
            while self._due and self._due[0].at < max(horizon, first + 1):
                due = heapq.heappop(self._due)
                self._handle_due_arrival_ack_or_input(due)
            if len(self._events) > put:
                return True

    def _schedule_idle_write(self) -> None:
        """Where nothing is due, writes an RTO after what was sent last, give or take what the scenario says."""
        if self._idle and self._rto is not None and self._state in _WRITABLE:
            act = self._idle.pop(0)
            self._schedule(max(self._last_sent + self._rto + act.after, self._now + 1), act.call)

    def _moment_after_outage(self, at: int) -> int:
        begin, end = (self._established_at + it for it in self._scenario.network.outage)
        return end if begin <= at < end else at

    def _handle_due_arrival_ack_or_input(self, due: _Due) -> None:
        if isinstance(due.what, _Arrival):
            if self._peer.receive_segment_and_decide_ack((due.what.start, due.what.end)):
                self._add_ack_input_unless_lost(due.at)
            elif self._peer.waiting == 1:
                self._schedule(due.at + self._scenario.receiver.delay, None)
        elif due.what is None:
            if self._peer.waiting:
                self._add_ack_input_unless_lost(due.at)
        elif isinstance(due.what, IrregularPacket):
            self._add_input_unless_closed_to_packets(due.at, self._peer.make_irregular_packet_and_count_fin(due.what))
        else:
            self._add_input_unless_closed_to_packets(due.at, due.what)

    def _add_ack_input_unless_lost(self, at: int) -> None:
        number = self._peer.ack_count
        ack = self._peer.make_ack()
        if number not in self._scenario.network.lost_acks:
            self._add_input_unless_closed_to_packets(at, ack)

    def _add_input_unless_closed_to_packets(self, at: int, what: Packet | Call) -> None:
        if isinstance(what, Packet) and self._state == "CLOSED" and len(self._events) > len(LISTENING) + 1:
            return  # a closed connection takes no packet
        self._events.append(Input(at, what))

    def _record_inputs_and_deliver_segments(self) -> Generator[Inputs, Recording, None]:
        """Has what was put in recorded, without what the sender doesn't run, and sends what left to the peer."""
        for _ in range(_TRIES):
            inputs = self._inputs_so_far()
            self._recording = yield inputs
            place = _refused_input_place(self._recording, inputs, len(self._events))
            if place is None:
                break
            del self._events[place]
        played = list(parse_played_events(self._recording.text))
        if played:
            self._note_sender_state(played[-1])
        segments = list(_sent_data_and_fin_segments_of(played))
        for at, start, end in segments[self._seen :]:
            self._schedule_arrival_unless_lost(at, start, end)
        self._seen = len(segments)
        self._last_sent = segments[-1][0] if segments else self._now

    def _note_sender_state(self, last: PlayedEvent) -> None:
        state = parse_state(last.state)
        self._state = state.name
        self._expiry = state.fact_as_moment("expiry")
        self._rto = state.fact_as_moment("RTO")
        self._now = max(self._events[-1].at, _event_moment_microseconds(last))

    def _schedule_arrival_unless_lost(self, at: int, start: int, end: int) -> None:
        """Hands a segment to the network."""
        network = self._scenario.network
        number, self._sent = self._sent, self._sent + 1
        begin, ends = (self._established_at + it for it in network.outage)
        if number in network.lost or begin <= at < ends:
            return
        takes = network.round_trip + network.more[number % len(network.more)] + network.late.get(number, 0)
        self._schedule(at + takes, _Arrival(start, end))

    def _ending_waits_and_write(self) -> Iterator[Input]:
        """The end: a wait in which expiries show the timer, or after which none could come."""
        ending = self._scenario.ending
        at = max(self._now, self._events[-1].at)
        if self._expiry is None and self._state == "CLOSED" and ending is not Ending.NONE:
            yield from (Input(at + number * LONGEST_GAP, TICK) for number in range(1, LONG_GAPS + 1))
        elif self._expiry is not None and ending is not Ending.NONE:
            yield Input(self._expiry + (self._expiry - at) // 2 + 1, TICK)
        elif ending is Ending.WRITE and self._state in _WRITABLE:
            yield Input(at + 1_000, make_unrecorded_call("write", 4, "...", _LONG_WRITE))
            yield Input(at + 10 * SECOND, TICK)


def _handshake_inputs(it: Handshake, window: int) -> Iterator[tuple[int, Call | Packet]]:
    """The handshake, and the accepted connection."""
    yield SYN_AT, make_dataless_inbound_packet("S", 0, None, it.window, it.options)
    if it.accepts_early:
        yield SYN_AT, ACCEPT
    for irregular in it.irregular:
        yield SYN_AT + irregular.after, _irregular_handshake_packet(irregular)
    yield SYN_AT + it.takes, make_dataless_inbound_packet("F." if it.has_fin else ".", 1, 1, window)
    yield SYN_AT + it.takes, ACCEPT


def _irregular_handshake_packet(irregular: IrregularPacket) -> Packet:
    match irregular.kind:
        case Irregularity.OLD_ACK:
            return make_dataless_inbound_packet(".", 1, 0, 1_000)
        case Irregularity.EARLY_ACK:
            return make_dataless_inbound_packet(".", 1, 2 + irregular.number, 1_000)
        case Irregularity.BARE:
            return make_dataless_inbound_packet("-", 1, None, 1_000)
        case Irregularity.RESET:
            return make_dataless_inbound_packet("R", 1, None, 1_000)
        case Irregularity.RESET_NEAR:
            return make_dataless_inbound_packet("R", 2 + irregular.number % 100, None, 1_000)
        case Irregularity.BELOW:
            return make_dataless_inbound_packet(".", 0, 1, 1_000)
        case _:
            return make_dataless_inbound_packet(".", 70_000, 1, 1_000)


def _has_fin(what: Packet | Call) -> bool:
    return isinstance(what, Packet) and "F" in what.flags


def _sent_data_and_fin_segments_of(played: list[PlayedEvent]) -> Iterator[tuple[int, int, int]]:
    """The moments and octets of segments with data or a FIN."""
    for it in played:
        if found := _SENT.match(it.line):
            flags, start, end = found[1], int(found[2]), int(found[3]) + ("F" in found[1])
            if start < end and "S" not in flags:
                yield _event_moment_microseconds(it), start, end


def _event_moment_microseconds(it: PlayedEvent) -> int:
    whole, _, part = it.moment.partition(".")
    return int(whole) * SECOND + int(part)
