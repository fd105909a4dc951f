"""The events of a script, its calls and packets, as far as they can be run here."""

from __future__ import annotations

import re
from collections.abc import Iterator
from dataclasses import dataclass

from pdsuite.packetdrill.items import SECOND, Call, Code, Command, HeaderOption, Item, Packet, Time
from pdsuite.packetdrill.reader import parse_items_until_syntax_error
from pdsuite.packetdrill.tokens import line_number_at

NOT_RUN = frozenset("UEWC")


class UnsupportedScript(Exception):
    """A script that can't be run here, with the line and the reason."""

    def __init__(self, line: int, reason: str) -> None:
        super().__init__(f"line {line}: {reason}")
        self.line = line


@dataclass(frozen=True)
class TimedEvent:
    """One event and the line at which it begins."""

    line: int
    time: Time
    action: Packet | Call

    @property
    def is_kernel_packet(self) -> bool:
        """Whether it is a packet of the kernel."""
        return isinstance(self.action, Packet) and not self.action.is_inbound

    def span_in_seconds(self, base: float) -> tuple[float, float]:
        """The first and the last moment of an event in seconds, where relative times count from a base.

        >>> parse_script_into_runnable_events("+.5~+1 > . 1:1(0)")[0].span_in_seconds(2.0)
        (2.5, 3.0)
        """
        origin = base if self.time.is_relative else 0.0
        first = self.time.first or 0
        last = first if self.time.last is None else self.time.last
        return origin + to_seconds(first), origin + to_seconds(last)


def to_seconds(microseconds: int) -> float:
    whole, part = divmod(microseconds, SECOND)
    return whole + part / SECOND


def parse_script_into_runnable_events(text: str) -> tuple[TimedEvent, ...]:
    """The events of a text that can be run here.

    >>> parse_script_into_runnable_events("0 listen(3, 1) = -1 EINVAL")[0].action
    Call(name='listen', arguments=('3', '1'), result=-1, error='EINVAL')
    """
    reading = parse_items_until_syntax_error(text)
    events = tuple(runnable_events(reading.items))
    if (fault := reading.fault) is not None:
        reason = f"{fault.words}: {fault.what}" if fault.what else fault.words
        raise UnsupportedScript(line_number_at(text, fault.place), reason)
    return events


def runnable_events(items: tuple[Item, ...]) -> Iterator[TimedEvent]:
    """The events among items; a tolerance counts for nothing here."""
    in_header = True
    for item in items:
        match item.what:
            case HeaderOption("tolerance_usecs", str(value)) if in_header and re.fullmatch("[0-9]+", value):
                continue
            case HeaderOption() | Command() | Code() if in_header and item.time is None:
                raise UnsupportedScript(item.line, "an option or command of the header that isn't run")
            case Packet() | Call():
                in_header = False
                yield runnable_event(item, item.what)
            case _:
                raise UnsupportedScript(item.line, "commands and code aren't run")


def runnable_event(item: Item, action: Packet | Call) -> TimedEvent:
    """An event that can be run."""
    event = TimedEvent(item.line, item.time or Time(0), action)
    if item.is_blocking:
        raise UnsupportedScript(item.line, "a blocking call isn't run")
    if isinstance(action, Packet) and not NOT_RUN.isdisjoint(action.flags):
        raise UnsupportedScript(item.line, "the flags U, E, W and C aren't run")
    if not event.is_kernel_packet and not event.time.is_single_moment:
        raise UnsupportedScript(item.line, "what is done needs one moment")
    return event
