"""Inputs for a sender: calls and packets that arrive, each at its moment, under settings."""

from collections.abc import Iterator
from dataclasses import dataclass

from pdsuite.packetdrill.items import Call, Packet, TcpOption, Time
from pdsuite.scripts.settings import Settings

# Lets no packet leave at another moment than the recorded one.
EXACT = "--tolerance_usecs=0"


@dataclass(frozen=True, slots=True)
class Input:
    """A call, or a packet that arrives, at a moment in microseconds since the start of the run."""

    at: int
    what: Packet | Call

    def __str__(self) -> str:
        return call_text(self.what) if isinstance(self.what, Call) else str(self.what)


@dataclass(frozen=True, slots=True)
class Inputs:
    """The inputs of a sender, in the order of moments. If exact, packets have to leave at their very moments."""

    settings: Settings
    events: tuple[Input, ...]
    is_exact: bool = True

    def script_octets(self) -> bytes:
        """The script of these inputs alone."""
        header = [EXACT] if self.is_exact else []
        return "".join(f"{line}\n" for line in [*header, *self._event_lines()]).encode()

    @property
    def header_line_count(self) -> int:
        """How many lines of the script come before the first input."""
        return 1 if self.is_exact else 0

    def _event_lines(self) -> Iterator[str]:
        before = 0
        for it in self.events:
            yield f"{Time(it.at - before)} {it}"
            before = it.at


def make_unrecorded_call(name: str, *arguments: str | int) -> Call:
    """A call, whose result a recording fills in."""
    return Call(name, tuple(map(str, arguments)), 0)


def call_text(it: Call) -> str:
    """A call as a script has it."""
    return f"{it.name}({', '.join(it.arguments)}) = {it.result}"


def make_dataless_inbound_packet(
    flags: str, start: int, ack: int | None, win: int, options: tuple[TcpOption, ...] = ()
) -> Packet:
    """A packet without data that arrives; its FIN and SYN don't count in its length."""
    return Packet(True, flags, start, start, ack, win, options, options_text(options))


def options_text(options: tuple[TcpOption, ...]) -> str:
    """A list of options as a script has it."""
    return f"<{','.join(map(_option_text, options))}>" if options else ""


def _option_text(it: TcpOption) -> str:
    numbers = it.numbers
    if it.name == "sack":
        return "sack " + " ".join(f"{left}:{right}" for left, right in zip(numbers[::2], numbers[1::2]))
    if it.name == "TS":
        return f"TS val {numbers[0]} ecr {numbers[1]}"
    return " ".join([it.name, *map(str, numbers)])
