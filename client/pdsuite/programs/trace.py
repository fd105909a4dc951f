"""A recording as `pdrecord --trace` writes it: its events, each with its moment and the sender's state after it."""

from collections.abc import Mapping
from dataclasses import dataclass

from pdsuite.packetdrill.items import Call, Packet
from pdsuite.packetdrill.reader import parse_items_until_syntax_error
from pdsuite.packetdrill.recorded import recorded_events_in


@dataclass(frozen=True, slots=True)
class TracedEvent:
    """A packet or a call: where it ends in the recording, its moment in microseconds, and the sender after it."""

    what: Packet | Call
    end: int
    moment: int
    state: str
    facts: Mapping[str, str]

    @property
    def is_input(self) -> bool:
        """Whether it is a packet that arrives or a call."""
        return not isinstance(self.what, Packet) or self.what.is_inbound

    def numeric_fact(self, name: str) -> int | None:
        """A fact that is a number, where the state has it."""
        value = self.facts.get(name, "")
        return int(value) if value.isdecimal() else None


def traced_events_in(recording: str) -> tuple[TracedEvent, ...]:
    """The events of a recording, or none where one of them has no state."""
    items = [
        (it.what, it.end)
        for it in parse_items_until_syntax_error(recording).items
        if isinstance(it.what, Packet | Call)
    ]
    recorded = recorded_events_in(recording)
    if len(items) != len(recorded):
        return ()
    each = zip(items, recorded)
    return tuple(TracedEvent(what, end, it.moment, it.state.name, it.state.facts) for (what, end), it in each)
