"""The program's explanation of a script by keys, in the words and lines of its blocks."""

import re
from collections.abc import Iterator, Mapping
from itertools import chain, repeat

from pdsuite.output.octets import printable_text
from pdsuite.programs.protocol import Cause

# The keys of an explanation, in the order of a block, each with its words.
WORDS = {
    "script_packet": "script packet",
    "actual_packet": "actual packet",
    "call": "call",
    "expected_result": "expected result",
    "actual_result": "actual result",
    "event": "event",
    "moment_us": "its moment",
    "before_us": "lies before",
    "awaited_from_us": "awaited from",
    "awaited_until_us": "awaited until",
    "tolerance_us": "tolerance",
    "early_us": "early by",
    "timer_us": "timer expires",
    "rto_words": "RTO",
    "reason_words": "reason",
    "recovery_words": "recovery",
    "sacked_words": "SACKed",
    "rule_words": "rule",
    "limit": "limit",
}
# The sender's numbers after the name of its state, likewise.
STATE = {
    **{it: it for it in ("connection", "una", "next", "top", "end", "cwnd", "ssthresh", "rwnd")},
    "flight_size": "FlightSize",
    **{it: it for it in ("pipe", "prr_delivered", "prr_out")},
    "dup_acks": "DupAcks",
    "rto_us": "RTO",
    "expiry_us": "expiry",
    "recovery": "recovery",
}
_NULLS = {"awaited_until_us": "any time", "timer_us": "never, it doesn't run"}
_MICROSECONDS = "_us"
_SECOND = 1_000_000
# A line is cut at so many shown octets; so many of them are before a mark that is far along it.
_MOST, _BEFORE_MARK = 200, 100
_CUT = ".."
_ESCAPE = re.compile(r"\\x[0-9A-Fa-f]{2}")
_ESCAPED = 4


def explanation_lines_below_first(cause: Cause) -> tuple[str, ...]:
    """The lines of a block below its first one, safe to print (docs/EXPLAIN.md)."""
    lines = [_cut_end_of_long_line(it) for it in _cause_lines_without_state(cause)]
    state = cause.get("state")
    if isinstance(state, Mapping):
        line = _state_line(state)
        lines.append(line if "prr_out" in state else _cut_end_of_long_line(line))
    return tuple(map(make_printable, lines))


def value_in_words_without_unit(key: str, value: object) -> str:
    """The value of a key in words; moments and spans are in seconds."""
    if value is None:
        return _NULLS.get(key, "none")
    if key.endswith(_MICROSECONDS) and isinstance(value, int):
        return f"{value // _SECOND}.{value % _SECOND:06}"
    return str(value)


def dropped_segment_lines_and_rules(cause: Cause) -> Iterator[str]:
    """The segments that checks dropped before a missing packet, each with its line and its check."""
    found = cause.get("dropped_segments")
    for it in found if isinstance(found, list) else []:
        if isinstance(it, Mapping):
            yield f"line {it.get('line')}: {it.get('rule_words')}"


def origin_and_rule_in_words(origin: object) -> str:
    """The line or the timer that sent a packet, and by which rule, as far as that is known; empty where neither is."""
    if not isinstance(origin, Mapping):
        return ""
    sender = f"line {origin['line']}" if "line" in origin else "the timer"
    return f"{sender}: {origin['rule_words']}" if has_rule(origin) else sender


def has_rule(origin: object) -> bool:
    """Whether the rule is known by which a packet was sent: some programs don't name it."""
    return isinstance(origin, Mapping) and "rule_words" in origin


def unmatched_packets_with_origins(cause: Cause) -> Iterator[tuple[str, object]]:
    """The unmatched packets that are listed, each with what sent it, where that is known."""
    packets, origins = cause.get("untaken_packets"), cause.get("untaken_sent_by")
    senders = chain(origins if isinstance(origins, list) else [], repeat(None))
    for packet, origin in zip(packets if isinstance(packets, list) else [], senders):
        if isinstance(packet, str):
            yield packet, origin


def packet_with_origin_and_rule(packet: str, origin: object) -> str:
    """A packet with what sent it, and by which rule, as far as that is known."""
    sender = origin_and_rule_in_words(origin)
    return f"{packet}, sent by {sender}" if sender else packet


def make_printable(text: str) -> str:
    """The text itself where it is printable, as the program makes it, else as people see it."""
    return text if text.isprintable() else printable_text(text)


def _cause_lines_without_state(cause: Cause) -> Iterator[str]:
    yield from _mend_by_inserting_lines(cause)
    for key, words in WORDS.items():
        if key in cause:
            value = value_in_words_without_unit(key, cause[key])
            if key == "actual_packet":
                value = packet_with_origin_and_rule(value, cause.get("sent_by"))
            yield f"{words}: {value}"
    if "text" in cause:
        yield from _line_with_mark(str(cause["text"]), cause.get("column"))
    if "found" in cause:
        yield f"found: {cause['found']}"
    for key in ("runs", "mend", "expected"):
        if key in cause:
            found = cause[key]
            yield f"{key}:{_join_with_or(found)}" if isinstance(found, list) else f"{key}: {found}"
    for it in dropped_segment_lines_and_rules(cause):
        yield f"dropped: {it}"
    for packet, origin in unmatched_packets_with_origins(cause):
        yield f"untaken packet: {packet_with_origin_and_rule(packet, origin)}"
    if more := cause.get("more_untaken_packets"):
        yield f"more untaken packets: {more}"


def _state_line(state: Mapping[str, object]) -> str:
    numbers = (
        f"{words}:{value_in_words_without_unit(key, state[key])}" for key, words in STATE.items() if key in state
    )
    return " ".join([f"state: {state.get('name')}", *numbers])


def _mend_by_inserting_lines(cause: Cause) -> Iterator[str]:
    """The packets that no line expects: the one that differs, and those unmatched that follow it."""
    count = cause.get("unasked_packets")
    if isinstance(count, int):
        packets = [str(cause.get("actual_packet")), *(packet for packet, _ in unmatched_packets_with_origins(cause))]
        yield from (f"mend by inserting: {it}" for it in packets[:count])


def _line_with_mark(text: str, column: object) -> Iterator[str]:
    """A line, and below it a mark at a column, or that it is the end of the text."""
    if not isinstance(column, int):
        yield from (text, "at the end of the text")
        return
    start = _shown_start(text, column)
    end = _shown_end(text, start)
    before, after = _CUT if start else "", _CUT if end < len(text) else ""
    yield f"{before}{text[start:end]}{after}"
    yield " " * (max(0, column - start) + len(before)) + "^"


def _join_with_or(items: list[object]) -> str:
    """Items as a list in a sentence, after a blank."""
    *first, last = map(str, items or [""])
    return f" {', '.join(first)} or {last}" if first else f" {last}".rstrip()


def _cut_end_of_long_line(line: str) -> str:
    end = _shown_end(line, 0)
    return line if end == len(line) else line[:end] + _CUT


def _shown_start(line: str, mark: int) -> int:
    """Where what is shown of a line begins: a little before a mark that is far along it, and behind no torn escape."""
    if mark < _MOST - _BEFORE_MARK // 2:
        return 0
    start = min(mark - _BEFORE_MARK, max(0, len(line) - _MOST))
    torn = _torn_escape_start_or_none(line, start)
    return start if torn is None else torn + _ESCAPED


def _shown_end(line: str, start: int) -> int:
    """Where what is shown from a place on ends, before an escape that would be torn."""
    end = min(start + _MOST, len(line))
    torn = _torn_escape_start_or_none(line, end)
    return end if torn is None else torn


def _torn_escape_start_or_none(line: str, place: int) -> int | None:
    """Where the escape begins that a cut at a place would tear."""
    backs = (place - it for it in range(1, _ESCAPED) if place >= it)
    return next((it for it in backs if _ESCAPE.match(line, it)), None)
