"""Groups of scripts that differ: by the first field or state in which their recordings do, and the event of it."""

from collections.abc import Mapping, Sequence
from dataclasses import dataclass
from itertools import zip_longest

from pdsuite.compare.comparison import ComparedScript
from pdsuite.compare.divergence import PlayedEvent, parse_played_events
from pdsuite.packetdrill.columns import Mark, marked_field_columns_of_both_packets

_LESS = "nothing more is played"
_UNKNOWN = "no recording tells"
_CALL = "an answer"
_TIME = "time"


@dataclass(frozen=True)
class Group:
    """Scripts that differ first in this, at an event of this kind, in their order."""

    field: str
    event: str
    scripts: tuple[ComparedScript, ...]

    @property
    def title(self) -> str:
        """The field and the event that the scripts have in common."""
        return f"{self.field}, at {self.event}" if self.event else self.field


def group_by_first_difference(scripts: Sequence[ComparedScript]) -> list[Group]:
    """The groups of scripts that differ, the largest first, and then in the order of their first scripts."""
    found: dict[tuple[str, str], list[ComparedScript]] = {}
    for it in scripts:
        found.setdefault(first_differing_field_and_event_kind(*it.recordings), []).append(it)
    groups = [Group(*key, tuple(mine)) for key, mine in found.items()]
    return sorted(groups, key=lambda it: -len(it.scripts))


def first_differing_field_and_event_kind(before: str, after: str) -> tuple[str, str]:
    """The first field of an event, or fact of a state, in which two recordings differ, and the kind of the event."""
    if not before or not after:
        return _UNKNOWN, ""
    previous: PlayedEvent | None = None
    for one, other in zip_longest(parse_played_events(before), parse_played_events(after)):
        if one is None or other is None:
            return _LESS, _event_kind(one or other, previous)
        if (one.line, one.moment) != (other.line, other.moment):
            return _first_differing_event_field_name(one, other), _event_kind(one, previous)
        if one.state != other.state:
            return _first_differing_state_fact_name(one.state, other.state), _event_kind(one, previous)
        previous = one
    return _UNKNOWN, ""


def _first_differing_state_fact_name(one: str, other: str) -> str:
    """The first fact in which two states differ."""
    facts, others = _facts_of_state(one), _facts_of_state(other)
    return next(name for name in {**facts, **others} if facts.get(name) != others.get(name))


def _facts_of_state(state: str) -> Mapping[str, str]:
    name, *facts = state.split(" ")
    return {"state": name} | dict(it.split(":", 1) for it in facts)


def _first_differing_event_field_name(one: PlayedEvent, other: PlayedEvent) -> str:
    """The first field in which two events differ."""
    if _is_call(one) and _is_call(other):
        return _CALL
    if one.line.split(" ", 2)[1:2] != other.line.split(" ", 2)[1:2]:
        return "what leaves"
    parts, _ = marked_field_columns_of_both_packets(one.line, other.line, "")
    names = dict(zip(("time", "flags", "seq", "ack", "win", "options"), parts))
    differing = [name for name, it in names.items() if it.mark is not Mark.NONE]
    return differing[0] if differing else _TIME


def _is_call(it: PlayedEvent) -> bool:
    return it.line.split(" ", 2)[1:2] not in ([">"], ["<"])


def _event_kind(it: PlayedEvent | None, previous: PlayedEvent | None) -> str:
    """The kind of an event, by the event and the one before it."""
    if it is None:
        return ""
    words = it.line.split(" ")
    state = previous.state.partition(" ")[0] if previous is not None else ""
    if words[1:2] == [">"]:
        return "a packet that leaves"
    if words[1:2] != ["<"]:
        return f"a call of {words[1].partition('(')[0]}" if len(words) > 1 else "a call"
    return _arriving_packet_kind(words[2], "sack " in it.line, state)


def _arriving_packet_kind(flags: str, has_blocks: bool, state: str) -> str:
    if "S" in flags:
        return "the SYN"
    if "R" in flags:
        return "an RST"
    if "F" in flags:
        return "a FIN"
    if state == "SYN-RECEIVED":
        return "the ACK that establishes"
    return "an ACK with SACK blocks" if has_blocks else "an ACK"
