"""From a recording to the strokes of a time-sequence diagram: nothing is drawn here."""

from collections.abc import Callable, Iterator, Sequence
from dataclasses import dataclass

from pdsuite.diagram.failing_line import FailingLine
from pdsuite.diagram.timeline_parts import Arrival, ExpectedSegment, FailedExpectation, Flag, Note, RecoverySpan
from pdsuite.diagram.timeline_parts import SackBlock, Segment, SegmentKind, Stair, Timeline
from pdsuite.packetdrill.items import Packet
from pdsuite.programs.trace import TracedEvent

# The initial slow start threshold, as high as can be (RFC 5681, section 3.1); it says nothing.
_NO_THRESHOLD = 1 << 30
# The states in which the peer's FIN was taken (RFC 9293, section 3.3.2).
_AFTER_FIN = ("CLOSE-WAIT", "CLOSING", "LAST-ACK", "TIME-WAIT")
_RECOVERY = {"RFC6675": "loss: SACK recovery", "RFC5681": "loss: fast recovery"}


@dataclass(frozen=True, slots=True)
class _Moment:
    """An event at its moment, and whether it comes after the failing line."""

    at: int
    event: TracedEvent
    is_later: bool


def timeline_if_any_packet(events: Sequence[TracedEvent], failing: FailingLine | None = None) -> Timeline | None:
    """The strokes of a recording, or None where it has no packet."""
    first = next((it.moment for it in events if isinstance(it.what, Packet)), None)
    if first is None:
        return None
    moments = [
        _Moment(it.moment, it, is_later)
        for it, is_later in zip(events, _after_failing_line_flags(events, failing))
        if it.moment >= first
    ]
    failure = None if failing is None else _failed_expectation(failing, moments, first)
    ends = [moments[-1].at]
    if failure is not None and failure.expected is not None:
        ends.append(failure.expected.last)
    return Timeline(
        begin=first,
        end=max(ends),
        segments=tuple(_segments_less_failing(moments, failing)),
        arrivals=tuple(_arrivals_with_octet_and_flag(moments)),
        blocks=tuple(_sack_blocks(moments)),
        acknowledged=_stairs_of_value_changes(moments, lambda it: it.numeric_fact("una")),
        edge=_stairs_of_value_changes(moments, _window_edge),
        cwnd=_stairs_of_value_changes(moments, lambda it: it.numeric_fact("cwnd")),
        ssthresh=_stairs_of_value_changes(moments, _finite_ssthresh),
        flight_size=_stairs_of_value_changes(moments, _flight_size_without_pipe),
        pipe=_stairs_of_value_changes(moments, lambda it: it.numeric_fact("pipe")),
        spans=tuple(_recovery_spans(moments)),
        notes=_all_notes_in_time_order(moments),
        failure=failure,
    )


def _after_failing_line_flags(events: Sequence[TracedEvent], failing: FailingLine | None) -> Iterator[bool]:
    """Of each event, whether it comes after the failing line: it belongs to a later input, or to an expiry after it."""
    inputs = packets = 0
    is_past = False
    for event in events:
        if failing is None:
            yield False
        elif event.is_input:
            is_past = inputs >= failing.inputs
            inputs += 1
            yield is_past
        else:
            is_met = packets < failing.packets + (failing.actual is not None)
            packets += 1
            yield not is_met and (is_past or (failing.moment is not None and event.moment > failing.moment))


# ---- octets


def _sent_segments(moments: Sequence[_Moment]) -> Iterator[Segment]:
    """All segments that leave."""
    top = 0
    for it in moments:
        packet = it.event.what
        if isinstance(packet, Packet) and not packet.is_inbound:
            start, end = _sequence_range_with_syn_and_fin(packet)
            kind = SegmentKind.EMPTY if start == end else SegmentKind.AGAIN if start < top else SegmentKind.NEW
            top = max(top, end)
            yield Segment(it.at, start, end, kind, _rst_syn_or_fin_flag(packet), it.is_later)


def _segments_less_failing(moments: Sequence[_Moment], failing: FailingLine | None) -> Iterator[Segment]:
    """The segments that leave, but for the one on which the script fails."""
    for number, segment in enumerate(_sent_segments(moments)):
        if failing is None or failing.actual is None or number != failing.packets:
            yield segment


def _sequence_range_with_syn_and_fin(packet: Packet) -> tuple[int, int]:
    """The first octet and the number after the last one; SYN and FIN count as one octet each (RFC 9293)."""
    return packet.start, packet.end + len({"S", "F"} & set(packet.flags))


def _rst_syn_or_fin_flag(packet: Packet) -> Flag:
    return next((it for it in (Flag.RST, Flag.SYN, Flag.FIN) if it.value[0] in packet.flags), Flag.NONE)


def _arrivals_with_octet_and_flag(moments: Sequence[_Moment]) -> Iterator[Arrival]:
    before: TracedEvent | None = None
    for it in moments:
        packet = it.event.what
        if isinstance(packet, Packet) and packet.is_inbound:
            flag = _rst_syn_or_fin_flag(packet)
            is_duplicate = _is_duplicate_ack(packet, before, it.event)
            is_dropped = before is not None and _is_fin_or_rst_without_effect(flag, before, it.event)
            yield Arrival(
                it.at,
                _acceptable_ack_number_or_una(packet, before, it.event),
                flag,
                is_duplicate,
                it.is_later,
                is_dropped,
            )
        before = it.event


def _acceptable_ack_number_or_una(packet: Packet, before: TracedEvent | None, after: TracedEvent) -> int:
    """The number that a segment acknowledges, if it is from `una` to `top`; else `una`."""
    numbers = after if before is None or before.numeric_fact("una") is None else before
    una, top = numbers.numeric_fact("una") or 0, numbers.numeric_fact("top") or 0
    return packet.ack if packet.ack is not None and una <= packet.ack <= top else una


def _is_fin_or_rst_without_effect(flag: Flag, before: TracedEvent, after: TracedEvent) -> bool:
    """Whether a FIN or RST changes nothing: no state is entered that it leads to."""
    if flag is Flag.FIN:
        return before.state in _AFTER_FIN or after.state not in _AFTER_FIN
    return flag is Flag.RST and (_is_connection_reset_after(before) or not _is_connection_reset_after(after))


def _is_connection_reset_after(event: TracedEvent) -> bool:
    return event.facts.get("connection") == "reset"


def _is_duplicate_ack(packet: Packet, before: TracedEvent | None, after: TracedEvent) -> bool:
    """Whether an ACK acknowledges nothing new while octets are outstanding, with the same window (RFC 5681)."""
    if before is None or packet.flags != ".":
        return False
    is_outstanding = (before.numeric_fact("FlightSize") or 0) > 0
    return (
        is_outstanding
        and packet.ack == before.numeric_fact("una")
        and before.numeric_fact("rwnd") == after.numeric_fact("rwnd")
    )


def _sack_blocks(moments: Sequence[_Moment]) -> Iterator[SackBlock]:
    for it in moments:
        packet = it.event.what
        if isinstance(packet, Packet) and packet.is_inbound:
            for option in packet.options:
                if option.name == "sack":
                    edges = option.numbers
                    yield from (SackBlock(it.at, *pair, it.is_later) for pair in zip(edges[::2], edges[1::2]))


# ---- stairs


def _stairs_of_value_changes(
    moments: Sequence[_Moment], value_of: Callable[[TracedEvent], int | None]
) -> tuple[Stair, ...]:
    """A value after each event, where it isn't what it was before; of one moment the last counts."""
    steps: list[Stair] = []
    for it in moments:
        step = Stair(it.at, value_of(it.event), it.is_later)
        if steps and (steps[-1].value, steps[-1].is_later) == (step.value, step.is_later):
            continue
        if not steps and step.value is None:
            continue
        if steps and (steps[-1].at, steps[-1].is_later) == (step.at, step.is_later):
            steps.pop()
        steps.append(step)
    return tuple(steps)


def _window_edge(event: TracedEvent) -> int | None:
    """The number after the last octet that the peer's window lets leave."""
    una, window = event.numeric_fact("una"), event.numeric_fact("rwnd")
    return None if una is None or window is None else una + window


def _finite_ssthresh(event: TracedEvent) -> int | None:
    value = event.numeric_fact("ssthresh")
    return None if value is None or value >= _NO_THRESHOLD else value


def _flight_size_without_pipe(event: TracedEvent) -> int | None:
    """Once the connection is established, and where no pipe counts in its place."""
    return event.numeric_fact("FlightSize") if "cwnd" in event.facts and "pipe" not in event.facts else None


# ---- notes


def _all_notes_in_time_order(moments: Sequence[_Moment]) -> tuple[Note, ...]:
    found = (
        *_timeout_notes(moments),
        *_notes_where_recovery_begins(moments),
        *_notes_of_dropped_fin_and_rst_arrivals(moments),
        *_note_of_first_reset(moments),
    )
    return tuple(sorted(found, key=lambda it: it.at))


def _notes_of_dropped_fin_and_rst_arrivals(moments: Sequence[_Moment]) -> Iterator[Note]:
    """A note for each FIN or RST that arrives and isn't taken."""
    for it in _arrivals_with_octet_and_flag(moments):
        if it.is_dropped:
            yield Note(it.at, f"{it.flag.value} dropped", it.is_later)


def _timeout_notes(moments: Sequence[_Moment]) -> Iterator[Note]:
    """The expiries of the retransmission timer: a packet leaves at a moment that neither an input nor another has."""
    last: _Moment | None = None
    for it in moments:
        if not it.event.is_input and (last is None or it.at > last.at):
            rto = "" if last is None else last.event.facts.get("RTO", "")
            yield Note(it.at, f"timeout, RTO {_trim_zeros_of_seconds_text(rto)}" if rto else "timeout", it.is_later)
        last = it


def _notes_where_recovery_begins(moments: Sequence[_Moment]) -> Iterator[Note]:
    for begin, _ in _begin_and_end_moments_of_recoveries(moments):
        yield Note(begin.at, _RECOVERY[begin.event.facts["recovery"]], begin.is_later)


def _recovery_spans(moments: Sequence[_Moment]) -> Iterator[RecoverySpan]:
    for begin, end in _begin_and_end_moments_of_recoveries(moments):
        yield RecoverySpan(begin.at, end.at, begin.is_later)


def _begin_and_end_moments_of_recoveries(moments: Sequence[_Moment]) -> Iterator[tuple[_Moment, _Moment]]:
    """Where recoveries begin and end."""
    begin: _Moment | None = None
    for it in moments:
        is_in = it.event.facts.get("recovery") in _RECOVERY
        if is_in and begin is None:
            begin = it
        elif begin is not None and not is_in:
            yield begin, it
            begin = None
    if begin is not None:
        yield begin, moments[-1]


def _note_of_first_reset(moments: Sequence[_Moment]) -> Iterator[Note]:
    """Where an RST has ended the connection."""
    found = next((it for it in moments if _is_connection_reset_after(it.event)), None)
    if found is not None:
        yield Note(found.at, "reset", found.is_later)


def _trim_zeros_of_seconds_text(text: str) -> str:
    """Seconds without the zeros at their end."""
    return f"{text.rstrip('0').rstrip('.')} s"


# ---- the failing line


def _failed_expectation(failing: FailingLine, moments: Sequence[_Moment], first: int) -> FailedExpectation:
    done = [it.at for it in moments if not it.is_later]
    at = max(done, default=first) if failing.moment is None else max(first, failing.moment)
    return FailedExpectation(
        failing.line, at, _expected_segment(failing, at, first), _actual_segment(failing, moments, at)
    )


def _expected_segment(failing: FailingLine, at: int, first: int) -> ExpectedSegment | None:
    awaited = failing.expected
    if awaited is None:
        return None
    begin = at if awaited.first is None else max(first, awaited.first)
    end = begin if awaited.last is None else max(begin, awaited.last)
    return ExpectedSegment(begin, end, *_sequence_range_with_syn_and_fin(awaited.packet))


def _actual_segment(failing: FailingLine, moments: Sequence[_Moment], at: int) -> Segment | None:
    if failing.actual is None:
        return None
    sent = list(_sent_segments(moments))[failing.packets : failing.packets + 1]
    start, end = _sequence_range_with_syn_and_fin(failing.actual)
    kind = sent[0].kind if sent else SegmentKind.NEW
    return Segment(at, start, end, kind, _rst_syn_or_fin_flag(failing.actual))
