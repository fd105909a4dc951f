"""The outcome of a script as diagnostics: where in its text, how grave, and why in a few lines."""

import re
from collections.abc import Iterator, Mapping
from dataclasses import dataclass, replace

from pdsuite.lsp.json_values import Json
from pdsuite.lsp.positions import DocumentLines
from pdsuite.packetdrill.layout import Event, Layout
from pdsuite.packetdrill.lines import Extent
from pdsuite.packetdrill.recorded import last_script_input_due_before_moment
from pdsuite.programs.cause_text import (
    WORDS,
    dropped_segment_lines_and_rules,
    has_rule,
    packet_with_origin_and_rule,
    unmatched_packets_with_origins,
    value_in_words_without_unit,
)
from pdsuite.programs.protocol import Cause
from pdsuite.programs.verdict import Verdict
from pdsuite.reports.outcome_text import row_text_with_expected_row, warning_texts
from pdsuite.run.locate_row import locate_row_field_event_or_line
from pdsuite.run.outcomes import ScriptOutcome

SOURCE = "pdsuite"
ERROR, WARNING, HINT = 1, 2, 4
_SEVERITY = {
    Verdict.FAIL: ERROR,
    Verdict.SYNTAX: ERROR,
    Verdict.ERROR: ERROR,
    Verdict.UNSUPPORTED: WARNING,
    Verdict.LIMIT: WARNING,
}
# The keys that the lines below the first leave out, since the text has them, or the range that they are about.
_LEFT_OUT = ("script_packet", "call", "expected_result", "event", "tolerance_us")
_MORE = {it: it for it in ("found", "runs", "mend")}
_HIDDEN = re.compile(r"\s+")


@dataclass(frozen=True, slots=True)
class Related:
    """Something that stands elsewhere in the text and belongs to a diagnostic."""

    extent: Extent
    message: str


@dataclass(frozen=True)
class Diagnostic:
    """A problem, and its place in a text."""

    extent: Extent
    severity: int
    code: str
    message: str
    related: tuple[Related, ...] = ()

    def as_json(self, uri: str, lines: DocumentLines, has_related: bool) -> Json:
        """The diagnostic as the protocol has it."""
        found: Json = {
            "range": lines.range_json(self.extent),
            "severity": self.severity,
            "code": self.code,
            "source": SOURCE,
            "message": self.message,
        }
        if has_related and self.related:
            found["relatedInformation"] = [
                {"location": {"uri": uri, "range": lines.range_json(it.extent)}, "message": it.message}
                for it in self.related
            ]
        return found


def diagnostics_of(
    outcome: ScriptOutcome, cause: Cause | None, layout: Layout, lines: DocumentLines
) -> Iterator[Diagnostic]:
    """One diagnostic where a script's row isn't `pass` or isn't the one that is expected, and one for each warning."""
    row = outcome.row
    if row.verdict is Verdict.NOT_RUN:
        return
    if row.verdict is not Verdict.PASS or outcome.has_unexpected_row:
        yield Diagnostic(
            locate_row_field_event_or_line(row, cause, layout, lines).extent,
            _severity(outcome),
            row.word or row.verdict.value,
            _diagnostic_message(outcome, cause),
        )
    for words in warning_texts(outcome):
        yield Diagnostic(lines.line_extent_after_indent(0), ERROR if outcome.is_strict else WARNING, "warning", words)


def with_unmatched_packets(diagnostic: Diagnostic, layout: Layout, cause: Cause) -> Diagnostic:
    """The diagnostic with the packets that stay unmatched, each at the event after which it left."""
    found = [
        (_sending_event(origin, layout), _packet_with_origin_if_rule_is_known(packet, origin))
        for packet, origin in unmatched_packets_with_origins(cause)
    ]
    related = [Related(event.extent, f"untaken packet: {packet}") for event, packet in found if event is not None]
    return replace(diagnostic, related=tuple(related))


def _packet_with_origin_if_rule_is_known(packet: str, origin: object) -> str:
    """A packet with what sent it, by which rule; alone where no rule is named, since its place says what sent it."""
    return packet_with_origin_and_rule(packet, origin) if has_rule(origin) else packet


def _sending_event(origin: object, layout: Layout) -> Event | None:
    """The event that sent a packet; of one that the timer sent, the last input before that, as far as times say."""
    match origin:
        case {"line": int(line)}:
            return next((it for it in layout.packets_and_calls if it.item.line == line and it.is_input), None)
        case {"timer_us": int(moment)}:
            return last_script_input_due_before_moment(layout.packets_and_calls, moment)
    return None


def _severity(outcome: ScriptOutcome) -> int:
    return HINT if outcome.is_known_failure else _SEVERITY.get(outcome.row.verdict, ERROR)


def _diagnostic_message(outcome: ScriptOutcome, cause: Cause | None) -> str:
    words = row_text_with_expected_row(outcome)
    if outcome.row.verdict is Verdict.ERROR:
        words = outcome.row.word if outcome.expected is None else words
    first = f"{words}: {_row_meaning_or_expected_tokens(cause)}" if cause is not None and "what" in cause else words
    return "\n".join([first, *_cause_fact_lines(cause or {})])


def _row_meaning_or_expected_tokens(cause: Mapping[str, object]) -> str:
    """The meaning of a row, or the tokens that are expected where a text is no script, as `run` says them."""
    match cause.get("expected"):
        case [*before, last]:
            end = " at the end of the text" if cause.get("column") is None else ""
            listed = ", ".join(map(str, before))
            return f"expected {listed} or {last}{end}" if before else f"expected {last}{end}"
    return str(cause["what"])


def _cause_fact_lines(cause: Mapping[str, object]) -> Iterator[str]:
    for key, words in {**WORDS, **_MORE}.items():
        if key in cause and key not in _LEFT_OUT:
            value = _shown_value(key, cause[key])
            if key == "actual_packet":
                value = packet_with_origin_and_rule(value, cause.get("sent_by"))
            yield f"{words}: {value}"
    for it in dropped_segment_lines_and_rules(cause):
        yield f"dropped: {it}"
    count = len(list(unmatched_packets_with_origins(cause)))
    more = cause.get("more_untaken_packets")
    count += more if isinstance(more, int) else 0
    if count:
        yield f"untaken packets: {count}"


def _shown_value(key: str, value: object) -> str:
    if isinstance(value, list):
        return ", ".join(map(str, value))
    return _HIDDEN.sub(" ", value_in_words_without_unit(key, value))
