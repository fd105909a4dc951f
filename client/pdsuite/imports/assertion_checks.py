"""Assertions of an imported script beside the sender's states, as `pdrecord --trace` writes them after each event."""

import re
from collections.abc import Iterator, Mapping, Sequence
from dataclasses import dataclass

from pdsuite.imports.assertions import Assertion, assertion_in_comment
from pdsuite.imports.packets import LEAST_SMSS, script_smss_from_first_syn
from pdsuite.packetdrill.reader import parse_items_until_syntax_error
from pdsuite.programs.trace import TracedEvent, traced_events_in

_LINE = re.compile(r"^.*$", re.MULTILINE)


@dataclass(frozen=True, slots=True)
class CheckedState:
    """The sender after an event: its facts by their names, and whether it repairs what an expiry lost."""

    facts: Mapping[str, str]
    is_lossy: bool = False


@dataclass(frozen=True, slots=True)
class CheckedAssertion:
    """An assertion at a line of its script: whether it holds, or None where it isn't compared, and what was seen."""

    line: int
    assertion: Assertion
    holds: bool | None
    seen: str = ""

    def __str__(self) -> str:
        return f"line {self.line} asserts {self.assertion}: {self.seen}"


@dataclass(frozen=True, slots=True)
class _Input:
    """A packet that arrives or a call: where it ends, the state after it, and whether an expiry follows it."""

    end: int
    state: CheckedState
    expires: bool


def assertions_in(script: str) -> list[tuple[int, Assertion]]:
    """The assertions of an imported script, with their lines."""
    return [(line, found) for line, text in enumerate(script.split("\n"), 1) if (found := assertion_in_comment(text))]


def check_assertions(script: str, recording: str, row_line: int | None, mss: int) -> list[CheckedAssertion]:
    """The assertions of a script, each beside the state after the last input before it.

    Not compared are those after the line of the script's row, and those beside an expiry.
    """
    asserted = assertions_in(script)
    places = [(it.start(), found) for it in _LINE.finditer(recording) if (found := assertion_in_comment(it[0]))]
    if [it for _, it in asserted] != [it for _, it in places]:
        return [CheckedAssertion(line, it, None) for line, it in asserted]
    smss = script_smss_from_first_syn(parse_items_until_syntax_error(script).items, mss)
    inputs = list(_inputs_with_states(recording))
    compared = []
    for (line, assertion), (place, _) in zip(asserted, places):
        before = [it for it in inputs if it.end <= place]
        if not before or before[-1].expires or (row_line is not None and row_line <= line):
            compared.append(CheckedAssertion(line, assertion, None))
        else:
            compared.append(_check_by_state(line, assertion, before[-1].state, smss))
    return compared


def _check_by_state(line: int, assertion: Assertion, state: CheckedState, smss: int) -> CheckedAssertion:
    facts = state.facts
    if "cwnd" not in facts or smss < LEAST_SMSS:
        return CheckedAssertion(line, assertion, None)
    match assertion.name:
        case "tcpi_snd_cwnd":
            holds = int(facts["cwnd"]) // smss == int(assertion.value)
            return CheckedAssertion(line, assertion, holds, f"cwnd is {facts['cwnd']}, and SMSS {smss}")
        case "tcpi_unacked":
            return CheckedAssertion(line, assertion, facts["FlightSize"] == "0", f"FlightSize is {facts['FlightSize']}")
    is_in = "TCP_CA_Recovery" if facts["recovery"] != "none" else "TCP_CA_Loss" if state.is_lossy else "TCP_CA_Open"
    return CheckedAssertion(line, assertion, is_in == assertion.value, f"it is in {is_in}")


def _inputs_with_states(recording: str) -> Iterator[_Input]:
    """The inputs of a recording, with the state after each."""
    events = traced_events_in(recording)
    lossy = list(_expiry_repair_flag_of_each_event(events))
    acts = [number for number, it in enumerate(events) if it.is_input]
    for number, after in zip(acts, [*acts[1:], len(events)]):
        event = events[number]
        expires = any(it.moment != event.moment for it in events[number + 1 : after])
        yield _Input(event.end, CheckedState(event.facts, lossy[number]), expires)


def _expiry_repair_flag_of_each_event(events: Sequence[TracedEvent]) -> Iterator[bool]:
    """Whether the sender repairs what an expiry lost, after each event; a moment that no input has is an expiry's."""
    lost: int | None = None
    moment = 0
    for event in events:
        top = event.numeric_fact("top")
        if event.is_input:
            moment = event.moment
        elif event.moment != moment and "cwnd" in event.facts:
            lost = top
        una = event.numeric_fact("una")
        if lost is not None and (una is None or una >= lost):
            lost = None
        yield lost is not None
