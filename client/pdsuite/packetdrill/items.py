"""The items of a script: options, commands and code, packets and calls, each with its place, and events with a time."""

from dataclasses import dataclass

SECOND = 1_000_000


@dataclass(frozen=True, slots=True)
class Time:
    """When an event is due, in microseconds: after the start or after the event before; without `first` at any time."""

    first: int | None
    last: int | None = None
    is_relative: bool = True

    @property
    def is_single_moment(self) -> bool:
        """Whether it is one moment, and no range."""
        return self.first is not None and self.last is None

    def __str__(self) -> str:
        """The time as a script has it."""
        if self.first is None:
            return "*"
        sign = "+" if self.is_relative else ""
        end = "" if self.last is None else f"~{sign}{_seconds_text(self.last)}"
        return f"{sign}{_seconds_text(self.first)}{end}"


@dataclass(frozen=True, slots=True)
class TcpOption:
    """A TCP option of a packet, with its numbers."""

    name: str
    numbers: tuple[int, ...] = ()


@dataclass(frozen=True, slots=True)
class Packet:
    """A packet: its numbers, and its options as values and as they are written."""

    is_inbound: bool
    flags: str
    start: int
    end: int
    ack: int | None = None
    win: int | None = None
    options: tuple[TcpOption, ...] = ()
    options_text: str = ""

    @property
    def length(self) -> int:
        return self.end - self.start

    @property
    def takes_any_options(self) -> bool:
        """Whether its options stand for any: `<...>`."""
        return "..." in self.options_text

    def __str__(self) -> str:
        """The packet as a script has it."""
        arrow = "<" if self.is_inbound else ">"
        numbers = f"{self.start}:{self.end}({self.length})"
        ack = "" if self.ack is None else f" ack {self.ack}"
        win = "" if self.win is None else f" win {self.win}"
        options = f" {self.options_text}" if self.options_text else ""
        return f"{arrow} {self.flags or '-'} {numbers}{ack}{win}{options}"


@dataclass(frozen=True, slots=True)
class Call:
    """A system call: its name, its arguments as they are written, its result, and the error that is named with it."""

    name: str
    arguments: tuple[str, ...]
    result: int
    error: str | None = None


@dataclass(frozen=True, slots=True)
class HeaderOption:
    """An option of the header, `--NAME` or `--NAME=VALUE`."""

    name: str
    value: str | None


@dataclass(frozen=True, slots=True)
class Command:
    """A shell command, without its backquotes."""

    text: str


@dataclass(frozen=True, slots=True)
class Code:
    """Code, without `%{` and `}%`."""

    text: str


What = Packet | Call | HeaderOption | Command | Code


@dataclass(frozen=True, slots=True)
class Item:
    """A piece of a script: what it is, where it begins and ends, and where its action begins.

    Only an event has a time; only a blocking call has an end, whose value nobody needs.
    """

    what: What
    line: int
    start: int
    end: int
    action: int
    time: Time | None = None
    is_blocking: bool = False


def _seconds_text(microseconds: int) -> str:
    whole, part = divmod(microseconds, SECOND)
    return f"{whole}.{part:06}".rstrip("0") if part else str(whole)
