"""The hover at a place in a script: what was sent there, how the sender stands after it, and what documents say.

Below that it has the rules of the sender that the events of the line come to.
"""

import re
from collections.abc import Iterator, Mapping, Sequence
from dataclasses import dataclass

from pdsuite.lsp import doc_lookup
from pdsuite.packetdrill.items import SECOND, Call, HeaderOption
from pdsuite.packetdrill.layout import Event
from pdsuite.packetdrill.lines import Extent
from pdsuite.packetdrill.recorded import MatchedEvent, RecordedEvent, SenderState
from pdsuite.programs.protocol import RulesByLine
from pdsuite.rules.rule_list import load_sender_rules

_MARKS = re.compile(r"^```.*\n?|`|\*\*", re.MULTILINE)
_FIELDS = ("flags", "options", "ack", "win", "seq")
_TIMER = "timer"


@dataclass(frozen=True)
class Hover:
    """The hover at a place, in Markdown: words about an extent, and the rules of the sender at its line."""

    words: str
    extent: Extent
    rules: str = ""


def hover_of_event(event: Event, offset: int, met: Sequence[MatchedEvent], recording: str) -> str:
    """The hover over an event, in Markdown; `met` has the script's events, with what the recording has of each."""
    parts = [
        _sent_packet_words(event, met, recording),
        _state_after_event_with_changes(event, met),
        _doc_of_place(event, offset),
    ]
    return "\n\n".join(it for it in parts if it)


def _index_in_matched_events(event: Event, met: Sequence[MatchedEvent]) -> int | None:
    return next((place for place, it in enumerate(met) if it.event is event), None)


def _sent_packet_words(event: Event, met: Sequence[MatchedEvent], recording: str) -> str:
    """The packet that an expected one met, with its moment."""
    place = _index_in_matched_events(event, met)
    if place is None or not event.is_expected_outbound_packet:
        return ""
    recorded = met[place].recorded
    if recorded is None:
        return "Nothing was sent for it."
    packet = f"`{recording[recorded.action : recorded.end]}` was sent at {seconds_with_six_decimals(recorded.moment)}"
    return f"{packet}{_sent_by_words(place, met)}"


def _sent_by_words(place: int, met: Sequence[MatchedEvent]) -> str:
    """Says what sent a packet: the timer, or the last input before it, by its line in the script."""
    recorded = met[place].recorded
    if recorded is None or recorded.sent_by is None:
        return ""
    if recorded.sent_by == _TIMER:
        return ", by the timer"
    inputs = [it for it in met if it.recorded and it.recorded.is_input and it.recorded.start < recorded.start]
    return f", by line {inputs[-1].event.item.line}" if inputs else ""


def _state_after_event_with_changes(event: Event, met: Sequence[MatchedEvent]) -> str:
    """How the sender stands after an event, with what was otherwise after the event before."""
    place = _index_in_matched_events(event, met)
    if place is None or (after := met[place].after) is None:
        return ""
    before = met[place - 1].after if place else None
    moment = "" if event.is_expected_outbound_packet else f" at {seconds_with_six_decimals(after.moment)}"
    facts = "\n".join(_facts_with_changes(after.state, _state_or_none(before)))
    return (
        f"After it{moment}: {_state_name_with_former_name(after.state, _state_or_none(before))}\n```text\n{facts}\n```"
    )


def _state_or_none(recorded: RecordedEvent | None) -> SenderState | None:
    return None if recorded is None else recorded.state


def _state_name_with_former_name(after: SenderState, before: SenderState | None) -> str:
    was = f", was {before.name}" if before is not None and before.name != after.name else ""
    return f"{after.name}{was}"


def _facts_with_changes(after: SenderState, before: SenderState | None) -> Iterator[str]:
    old: Mapping[str, str] = {} if before is None else before.facts
    width = max(map(len, after.facts), default=0)
    for name, value in after.facts.items():
        was = f"  was {old[name]}" if name in old and old[name] != value else ""
        new = "  new" if before is not None and name not in old else ""
        yield f"{name:<{width}}  {value}{was}{new}"


def _doc_of_place(event: Event, offset: int) -> str:
    """The line of the documents about the header option, the call or the field at a place."""
    what = event.item.what
    if isinstance(what, HeaderOption):
        return doc_lookup.doc_of_packet_field_or_script_header("header")
    if isinstance(what, Call):
        return doc_lookup.doc_of_call(what.name) if offset in event.field_extents["call"] else ""
    return next(
        (
            doc_lookup.doc_of_packet_field_or_script_header(it)
            for it in _FIELDS
            if it in event.field_extents and offset in event.field_extents[it]
        ),
        "",
    )


def rules_of_line_as_list(line: int, rules: RulesByLine) -> str:
    """The rules that the events of a line come to, each with its words, in Markdown; empty where they come to none."""
    names = rules.get(line, ())
    if not names:
        return ""
    words = {it.name: f": {it.words}" for it in load_sender_rules()}
    return "\n".join([f"Rules of the sender at line {line}:", *(f"- `{it}`{words.get(it, '')}" for it in names)])


def strip_markdown(words: str) -> str:
    """The same without the marks of Markdown."""
    return _MARKS.sub("", words)


def seconds_with_six_decimals(microseconds: int) -> str:
    """A moment as the programs show it."""
    return f"{microseconds // SECOND}.{microseconds % SECOND:06}"
