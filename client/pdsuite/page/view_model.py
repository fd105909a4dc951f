"""The page of a script, as values: all that comes from scripts stands there as it is shown."""

from collections.abc import Iterator, Mapping
from dataclasses import dataclass

from pdsuite.output.octets import printable_octets, printable_path
from pdsuite.packetdrill.columns import Mark, PacketColumns, PacketField, marked_field_columns_of_both_packets
from pdsuite.page.diagram_choice import Plot
from pdsuite.page.diagrams import Diagram
from pdsuite.page.links import page_file_name_of
from pdsuite.programs.cause_text import (
    STATE,
    WORDS,
    dropped_segment_lines_and_rules,
    make_printable,
    origin_and_rule_in_words,
    packet_with_origin_and_rule,
    unmatched_packets_with_origins,
    value_in_words_without_unit,
)
from pdsuite.programs.protocol import Cause
from pdsuite.programs.verdict import Verdict
from pdsuite.reports.outcome_text import (
    explanation_or_line_below_row,
    explained_reason_or_meaning_of_row,
    warning_texts,
)
from pdsuite.run.line_diff import DiffLine, LineDiff
from pdsuite.run.outcomes import CountedAs, ScriptOutcome
from pdsuite.scripts.settings import value_as_toml
from pdsuite.scripts.text import ScriptText

_LONGEST_LINE = 160

# The keys that the page shows elsewhere than below the packets.
_ELSEWHERE = ("script_packet", "actual_packet", "reason_words")
# The page's glosses on the sender's state and its numbers, by their keys.
_GLOSSES = {
    "name": "as RFC 9293 names it",
    "una": "the oldest octet that isn't acknowledged",
    "next": "where sending goes on",
    "top": "the number after all that was sent",
    "end": "the number after all that is queued",
    "cwnd": "the congestion window, in octets",
    "ssthresh": "the slow start threshold, in octets",
    "rwnd": "the peer's window, in octets",
    "flight_size": "top less una, in octets",
    "pipe": "octets that count as on the way",
    "prr_delivered": "octets that reached the peer in this recovery",
    "prr_out": "octets that were sent in it",
    "dup_acks": "duplicates counted; 4 stands for more too",
    "rto_us": "the retransmission timeout",
    "expiry_us": "when the timer expires next",
    "recovery": "from losses, and by which RFC",
}


@dataclass(frozen=True, slots=True)
class PageEntry:
    """A script for the page: what came of it, its text where it was run, and whether its diagram is drawn.

    And its explanation by keys, where that is known already.
    """

    outcome: ScriptOutcome
    text: ScriptText | None = None
    plot: Plot = Plot.NONE
    cause: Cause | None = None


@dataclass(frozen=True, slots=True)
class TableRow:
    """A script in the table; `expected` is what the report says of the row that is expected."""

    path: str
    file: str
    verdict: Verdict
    counted_as: Verdict | CountedAs
    kind: str
    line: int | None
    text: str
    why: str
    expected: str


@dataclass(frozen=True, slots=True)
class NamedFact:
    """Something that the page shows: its name, its value and, where that helps, what it is."""

    name: str
    value: str
    gloss: str = ""


@dataclass(frozen=True, slots=True)
class ScriptLine:
    """A line of a script."""

    number: int
    text: str
    is_named: bool  # by the row


@dataclass(frozen=True, slots=True)
class RefusedText:
    """Where a text is no script: the line, in front of the token and from there on, and what could stand there."""

    before: str
    after: str
    expected: tuple[str, ...]


@dataclass(frozen=True)
class ScriptView:
    """A script's page."""

    row: TableRow
    events: int | None
    lines: tuple[ScriptLine, ...]
    settings: tuple[NamedFact, ...]
    packets: tuple[tuple[str, PacketColumns], ...]
    reason: str
    refused: RefusedText | None
    facts: tuple[NamedFact, ...]
    unmatched: tuple[str, ...]
    more_unmatched: int
    state: tuple[NamedFact, ...]
    below: tuple[str, ...]  # the explanation in lines, where there is none by keys
    diagram: Diagram
    met: tuple[DiffLine, ...]  # the line diff, where the script fails

    @property
    def marks(self) -> list[Mark]:
        """The marks that its packets have."""
        used = {part.mark for _, packet in self.packets for part in packet}
        return [it for it in Mark if it in used and it is not Mark.NONE]


def table_row_of(outcome: ScriptOutcome) -> TableRow:
    """The row of a script in the table."""
    row = outcome.row
    return TableRow(
        printable_path(outcome.path),
        page_file_name_of(outcome.path),
        row.verdict,
        outcome.counted_as,
        "" if row.verdict is Verdict.ERROR else row.word,
        outcome.explained_or_row_line_number,
        _stripped_text_of_row_line(outcome),
        _error_word_or_warnings_or_reason(outcome),
        _known_failure_row_with_reason(outcome),
    )


def _stripped_text_of_row_line(outcome: ScriptOutcome) -> str:
    """The line of its text that the row is about, as it is shown."""
    if outcome.explained_or_row_line_number != outcome.row.line and outcome.block_lines:
        return outcome.block_lines[0].strip()  # the program marks another one than the row has
    return "" if outcome.text is None else printable_octets(outcome.text.expandtabs().strip(), _LONGEST_LINE)


def script_view_of(entry: PageEntry, cause: Cause | None, diagram: Diagram, met: LineDiff | None = None) -> ScriptView:
    """The page of a script, with the program's explanation, and what its lines were met by."""
    outcome, explanation = entry.outcome, cause or {}
    return ScriptView(
        row=table_row_of(outcome),
        events=outcome.row.number if outcome.row.verdict is Verdict.PASS else None,
        lines=tuple(_numbered_script_lines(entry.text, outcome.explained_or_row_line_number)) if entry.text else (),
        settings=tuple(NamedFact(key, make_printable(value_as_toml(value))) for key, value in outcome.settings),
        packets=_script_packet_and_sent_one_if_any(explanation),
        reason=_printable_text_of_key_or_empty(explanation, "reason_words"),
        refused=_refused_text_split_at_column(explanation),
        facts=tuple(_cause_facts(explanation)),
        unmatched=tuple(_unmatched_sent_packet_texts(explanation)),
        more_unmatched=_number_of_key_or_zero(explanation, "more_untaken_packets"),
        state=tuple(_state_facts(explanation)),
        below=() if explanation else tuple(explanation_or_line_below_row(outcome)),
        diagram=diagram,
        met=() if met is None else met.lines,
    )


def _cause_facts(explanation: Cause) -> Iterator[NamedFact]:
    if sender := origin_and_rule_in_words(explanation.get("sent_by")):
        yield NamedFact("sent by", make_printable(sender))
    for key, words in WORDS.items():
        if key in explanation and key not in _ELSEWHERE:
            yield NamedFact(words, _value_text_with_unit_of_seconds(key, explanation[key]))
    for it in dropped_segment_lines_and_rules(explanation):
        yield NamedFact("dropped", make_printable(it))


def _unmatched_sent_packet_texts(explanation: Cause) -> Iterator[str]:
    return (
        make_printable(packet_with_origin_and_rule(packet, origin))
        for packet, origin in unmatched_packets_with_origins(explanation)
    )


def _known_failure_row_with_reason(outcome: ScriptOutcome) -> str:
    """Which row is expected, and why, where one is."""
    expected = outcome.expected
    if expected is None or outcome.row.verdict is Verdict.NOT_RUN:
        return ""
    return expected.reason if outcome.is_known_failure else f'"{expected.row}" is expected ({expected.reason})'


def _error_word_or_warnings_or_reason(outcome: ScriptOutcome) -> str:
    """Why a row is so, as far as that is explained, or what is warned of."""
    if outcome.row.verdict is Verdict.ERROR:
        return outcome.row.word
    return "; ".join(warning_texts(outcome)) or explained_reason_or_meaning_of_row(outcome)


def _numbered_script_lines(text: ScriptText, named: int | None) -> Iterator[ScriptLine]:
    for number, line in enumerate(text.octets.split(b"\n")[: text.lines], 1):
        yield ScriptLine(number, printable_octets(line.removesuffix(b"\r").expandtabs()), number == named)


def _script_packet_and_sent_one_if_any(explanation: Cause) -> tuple[tuple[str, PacketColumns], ...]:
    """The packet of the script, and below it the one that was sent, if one was."""
    script, actual = _printable_text_of_key_or_empty(explanation, "script_packet"), _printable_text_of_key_or_empty(
        explanation, "actual_packet"
    )
    if not script:
        return ()
    if not actual:
        return (("script packet", (PacketField(script),)), ("actual packet", ()))
    one, other = marked_field_columns_of_both_packets(
        script, actual, _printable_text_of_key_or_empty(explanation, "kind")
    )
    return ("script packet", one), ("actual packet", other)


def _refused_text_split_at_column(explanation: Cause) -> RefusedText | None:
    if "expected" not in explanation:
        return None
    text, column = _printable_text_of_key_or_empty(explanation, "text"), explanation.get("column")
    place = column if isinstance(column, int) else len(text)
    return RefusedText(text[:place], text[place:], _printable_texts_of_key(explanation, "expected"))


def _state_facts(explanation: Cause) -> Iterator[NamedFact]:
    state = explanation.get("state")
    if isinstance(state, Mapping):
        for key, word in {"name": "state", **STATE}.items():
            if key in state:
                yield NamedFact(word, _value_text_with_unit_of_seconds(key, state[key]), _GLOSSES.get(key, ""))


def _value_text_with_unit_of_seconds(key: str, value: object) -> str:
    """A value as people see it, with the unit of moments and spans."""
    unit = " s" if key.endswith("_us") and value is not None else ""
    return f"{make_printable(value_in_words_without_unit(key, value))}{unit}"


def _printable_text_of_key_or_empty(explanation: Cause, key: str) -> str:
    value = explanation.get(key)
    return make_printable(value) if isinstance(value, str) else ""


def _printable_texts_of_key(explanation: Cause, key: str) -> tuple[str, ...]:
    values = explanation.get(key)
    return tuple(make_printable(it) for it in values if isinstance(it, str)) if isinstance(values, list) else ()


def _number_of_key_or_zero(explanation: Cause, key: str) -> int:
    value = explanation.get(key)
    return value if isinstance(value, int) else 0
