"""Code actions for a script that doesn't pass or has warnings: new texts for it, by explanations and recordings."""

from collections.abc import Iterator, Sequence
from dataclasses import dataclass


from pdsuite.lsp.comments import comment_extents_up_to_syntax_fault
from pdsuite.lsp.documents import text_edit_json
from pdsuite.lsp.json_values import Json
from pdsuite.lsp.packets_sent import (
    SentPacket,
    event_lines_for_packets,
    parse_sent_packet,
    parse_sent_packets,
    event_text_replaced_by_sent_packet,
)
from pdsuite.lsp.positions import DocumentLines
from pdsuite.packetdrill.items import SECOND
from pdsuite.packetdrill.layout import Event, Layout
from pdsuite.packetdrill.lines import Extent
from pdsuite.packetdrill.recorded import RecordedEvent, recorded_events_in, strip_trace
from pdsuite.packetdrill.tokens import ScriptSyntaxError, tokens_of
from pdsuite.programs.protocol import Cause
from pdsuite.programs.verdict import Row, Verdict
from pdsuite.run.locate_row import find_failing_event_of_row

QUICK = "quickfix"
REWRITE = "refactor.rewrite"
_PACKET_KINDS = ("time", "flags", "seq", "ack", "win", "options")


@dataclass(frozen=True, slots=True)
class CodeAction:
    """A new text for a script, how many lines come before the line that failed, and what people read."""

    title: str
    kind: str
    text: str
    shift: int = 0


@dataclass(frozen=True)
class FailingScript:
    """A script that doesn't pass, or passes with a warning: its text, its row, and the program's explanation."""

    lines: DocumentLines
    layout: Layout
    row: Row
    cause: Cause

    @property
    def event(self) -> Event | None:
        """The event that the row is about."""
        return find_failing_event_of_row(self.row, self.cause, self.layout)

    @property
    def newline(self) -> str:
        """How the text ends its lines."""
        return "\r\n" if "\r\n" in self.lines.text else "\n"


def leads_past_failing_line(action: CodeAction, before: Row, after: Row) -> bool:
    """Whether a script's new row is past the line that failed. A text that was a script stays one."""
    if after.verdict is Verdict.PASS:
        return True
    if after.verdict is Verdict.SYNTAX and before.verdict is not Verdict.SYNTAX:
        return False
    return after.line is not None and before.line is not None and after.line > before.line + action.shift


def actions_taking_actual_packet_or_result(failing: FailingScript) -> Iterator[CodeAction]:
    """Actions that take over what was sent or answered, in place of what the line says, or before it; best first."""
    event = failing.event
    if event is None:
        return
    sent = parse_sent_packet(failing.cause.get("actual_packet"))
    unmatched = parse_sent_packets(failing.cause.get("untaken_packets"))
    if sent is not None and failing.row.word in _PACKET_KINDS:
        packets = [sent, *unmatched]
        count = failing.cause.get("unasked_packets")
        unexpected = packets[:count] if isinstance(count, int) else packets
        each = [
            _action_inserting_packets_before_event(failing, event, unexpected),
            _action_replacing_event_by_sent_packet(failing, event, sent),
        ]
        yield from each if count else reversed(each)
    result = failing.cause.get("actual_result")
    if isinstance(result, str) and "result" in event.field_extents:
        place = event.field_extents["result"]
        yield CodeAction(
            f"Take the result {result}", QUICK, _text_with_extent_replaced(failing.lines.text, place, result)
        )


def _action_replacing_event_by_sent_packet(failing: FailingScript, event: Event, sent: SentPacket) -> CodeAction:
    text = failing.lines.text
    with_time = failing.row.word == "time"
    packet = event_text_replaced_by_sent_packet(text, event, sent, with_time)
    time = event.field_extents["time"]
    is_time_alone = _text_with_extent_replaced(text, time, sent.time)[event.item.start :].startswith(packet)
    title = "Take the time at which it was sent" if with_time and is_time_alone else "Take the packet that was sent"
    return CodeAction(title, QUICK, _text_with_extent_replaced(text, event.extent, packet))


def _action_inserting_packets_before_event(
    failing: FailingScript, event: Event, packets: Sequence[SentPacket]
) -> CodeAction:
    """Before the line come packets that no line takes."""
    text = failing.lines.text
    start = event.item.start
    indent = text[failing.lines.line_start(failing.lines.line_of(start)) : start]
    between = failing.newline + (indent if not indent.strip() else "")
    put = "".join(line + between for line in event_lines_for_packets(packets))
    what = "a packet that was sent" if len(packets) == 1 else f"{len(packets)} packets that were sent"
    return CodeAction(f"Insert {what} before it", QUICK, text[:start] + put + text[start:], len(packets))


def commenting_out_actions(failing: FailingScript) -> Iterator[CodeAction]:
    """The event as a comment, with all that stands in its lines; one between other events in a comment of its own."""
    line = failing.row.line
    if line is None:
        return
    lines, event = failing.lines, failing.event
    first = min(line, lines.line_count) - 1
    begun = _broken_off_event_line_or_line_count(failing)
    if begun < first:
        yield _action_commenting_lines(lines, begun, first - 1, begun - first)
        yield _action_commenting_lines(lines, begun, first)
    last = first if event is None else max(first, lines.line_of(event.item.end))
    if event is not None and _needs_inline_comment(failing, event, first, last):
        inside = lines.text[event.item.start : event.item.end]
        yield CodeAction(
            "Switch it off as a comment", QUICK, _text_with_extent_replaced(lines.text, event.extent, f"/* {inside} */")
        )
        return
    yield _action_commenting_lines(lines, first, last)


def _action_commenting_lines(lines: DocumentLines, first: int, last: int, shift: int = 0) -> CodeAction:
    text = lines.text
    for number in range(min(last, lines.line_count - 1), first - 1, -1):
        start = lines.line_start(number)
        text = f"{text[:start]}// {text[start:]}"
    title = "Switch the line off as a comment" if first == last else "Switch the lines off as comments"
    return CodeAction(title, QUICK, text, shift)


def _broken_off_event_line_or_line_count(failing: FailingScript) -> int:
    """The line in which the event begins that the text breaks off in; a large number where it isn't that."""
    if failing.row.verdict is not Verdict.SYNTAX:
        return failing.lines.line_count
    text = failing.lines.text
    end = failing.layout.items[-1].item.end if failing.layout.items else 0
    token = next(_token_starts_from_place_to_syntax_fault(text, end), None)
    return failing.lines.line_count if token is None else failing.lines.line_of(token)


def _token_starts_from_place_to_syntax_fault(text: str, start: int) -> Iterator[int]:
    """Where the tokens of a text begin from a place on, up to where none does."""
    try:
        yield from (start + it.start for it in tokens_of(text[start:]))
    except ScriptSyntaxError:
        return


def _needs_inline_comment(failing: FailingScript, event: Event, first: int, last: int) -> bool:
    """Whether other items begin or end in these lines, and this one can stand in a comment of its own."""
    lines = failing.lines
    begin, end = lines.line_start(first), lines.line_end(last)
    others = [it for it in failing.layout.items if it is not event]
    is_shared = any(it.item.start < end and it.item.end > begin for it in others)
    has_comment = any(
        event.item.start <= it.start < event.item.end for it in comment_extents_up_to_syntax_fault(lines.text)
    )
    return is_shared and not has_comment


def mend_all_actions(failing: FailingScript, mended: str) -> Iterator[CodeAction]:
    """The script with as little changed as makes it pass."""
    if mended:
        yield CodeAction("Mend each line that fails", REWRITE, _with_script_newlines(failing, mended))


def record_all_actions(failing: FailingScript, recording: str) -> Iterator[CodeAction]:
    """The whole script as it is recorded."""
    if recording:
        yield CodeAction("Record the whole script", REWRITE, _with_script_newlines(failing, strip_trace(recording)))


def actions_recording_unmatched_outputs(failing: FailingScript, mended: str, recording: str) -> Iterator[CodeAction]:
    """A script that passes, with a line for each packet that it leaves: as it stands but for these, or recorded."""
    outputs = sum(not it.is_input for it in recorded_events_in(recording))
    if outputs <= sum(it.is_expected_outbound_packet for it in failing.layout.packets_and_calls):
        return
    added = _with_script_newlines(failing, mended)
    if added in ("", failing.lines.text):
        added = _with_script_newlines(failing, strip_trace(recording))
    yield CodeAction("Record what leaves", QUICK, added)
    yield from record_all_actions(failing, recording)


def actions_recording_from_failing_event_on(failing: FailingScript, recording: str) -> Iterator[CodeAction]:
    """Actions that keep the text before the event, and record the rest: its first time as it is, a moment or `*`."""
    event, events = failing.event, failing.layout.packets_and_calls
    recorded = recorded_events_in(recording)
    if event is None or event not in events or not recorded:
        return
    passed = events[: events.index(event)]
    if not passed:
        return
    front = _text_through_event_line(failing, passed[-1])
    outputs = sum(not it.is_input for it in passed)
    place = _event_index_after_inputs_and_outputs(recorded, len(passed) - outputs, outputs)
    unmatched = [it for it in recorded[:place] if not it.is_input][outputs:]
    stars = [f"* {recording[it.action : it.end]}\n" for it in unmatched]
    begin = recorded[place - 1].after if place else 0
    rests = [recording[begin:]]
    if place < len(recorded):
        it = recorded[place]
        moment = it.moment
        times = [f"{moment // SECOND}.{moment % SECOND:06}".rstrip("0").rstrip(".")]
        times += [] if it.is_input else ["*"]
        rests += [f"{recording[begin : it.start]}{time} {recording[it.action :]}" for time in times]
    for rest in rests[1:] if unmatched and len(rests) > 1 else rests:
        text = front + _with_script_newlines(failing, "".join(stars) + strip_trace(rest))
        yield CodeAction("Record from here to the end", QUICK, text)


def _event_index_after_inputs_and_outputs(recorded: Sequence[RecordedEvent], inputs: int, outputs: int) -> int:
    """The place after so many inputs and so many packets that left."""
    place = 0
    for it in recorded:
        if inputs <= 0 and outputs <= 0:
            break
        inputs -= it.is_input
        outputs -= not it.is_input
        place += 1
    return place


def _text_through_event_line(failing: FailingScript, last: Event) -> str:
    """The text up to the end of the line in which the last event that stays ends."""
    lines = failing.lines
    line = lines.line_of(last.item.end)
    end = lines.line_end(line)
    following = [it for it in failing.layout.items if it.item.start >= last.item.end]
    if following and following[0].item.start < end:
        return lines.text[: last.item.end] + failing.newline
    return lines.text[:end].removesuffix("\r") + failing.newline


def _with_script_newlines(failing: FailingScript, text: str) -> str:
    """A recording with the ends of lines that the script has."""
    return text.replace("\n", failing.newline)


def _text_with_extent_replaced(text: str, place: Extent, put: str) -> str:
    return text[: place.start] + put + text[place.end :]


def single_whole_line_edit_to_text(lines: DocumentLines, text: str) -> list[Json]:
    """The edit that makes another text: what lies between equal first and equal last characters, in whole lines."""
    old = lines.text
    most = min(len(old), len(text))
    front = next((it for it in range(most) if old[it] != text[it]), most)
    front = old.rfind("\n", 0, front) + 1
    most -= front
    back = next((it for it in range(most) if old[-1 - it] != text[-1 - it]), most)
    back -= _length_to_line_end_unless_at_line_begin(old, text, len(old) - back)
    return [text_edit_json(lines, front, len(old) - back, text[front : len(text) - back])]


def _length_to_line_end_unless_at_line_begin(old: str, text: str, end: int) -> int:
    """How much of what is equal at the end belongs to a line that isn't."""
    if end == 0 or old[end - 1 : end] == "\n":
        return 0
    newline = old.find("\n", end)
    return (newline + 1 if newline >= 0 else len(old)) - end
