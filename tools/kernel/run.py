"""One run of a script against the kernel: what is done at which moment, and where the kernel does otherwise."""

from __future__ import annotations

from collections.abc import Set
from contextlib import closing
from dataclasses import dataclass, field

from kernel.calls import Sockets
from kernel.compare import (
    Difference,
    TimeSpan,
    differing_fields,
    has_expected_sequence_and_syn_fin_rst,
    tolerance_from_awaited_seconds,
)
from kernel.device import Device, open_device
from kernel.script import TimedEvent, UnsupportedScript
from kernel.settings import Tuning
from kernel.wire import SeenPacket
from pdsuite.packetdrill.items import Call, Packet

LONGEST_WAIT = 65.0
LATE = 0.005


@dataclass(frozen=True)
class RunOutcome:
    """The outcome of a run: where it differed, what was seen, and how late the tool itself was at worst."""

    differences: tuple[Difference, ...] = ()
    seen: tuple[str, ...] = ()
    late: float = 0.0

    @property
    def is_disturbed(self) -> bool:
        """Whether the machine was too busy for the script's times."""
        return self.late > LATE


@dataclass
class RunningScript:
    """A run under way. Relative times count from `base`: when the event before really happened."""

    device: Device
    sockets: Sockets
    ignored: Set[str]
    base: float = 0.0
    ended: bool = False
    differences: list[Difference] = field(default_factory=list)
    seen: list[str] = field(default_factory=list)

    def play_event(self, event: TimedEvent) -> None:
        """Makes the call or sends the packet of an event, or awaits the packet that it expects."""
        first, last = event.span_in_seconds(self.base)
        if isinstance(event.action, Packet) and not event.action.is_inbound:
            self.expect_packet(event, event.action, first, last)
            return
        self.device.queue_packets_until(first)
        self.base = self.device.now()
        if isinstance(event.action, Call):
            self.make_call(event.line, event.action)
        else:
            self.device.inject_packet(event.action)

    def make_call(self, line: int, call: Call) -> None:
        try:
            answer = self.sockets.make_call(call)
        except UnsupportedScript as fault:
            raise UnsupportedScript(line, str(fault)) from fault
        self.seen.append(f"{self.device.now():.6f} line {line}: {call.name} = {answer}")
        if not answer.is_expected_by(call):
            self.add_difference(line, "result", str(answer))
            self.ended = answer.result != call.result

    def expect_packet(self, event: TimedEvent, packet: Packet, first: float, last: float) -> None:
        """Takes the next packet of the kernel and compares it."""
        is_any = event.time.first is None
        slack = tolerance_from_awaited_seconds(last - self.base)
        limit = self.base + LONGEST_WAIT if is_any else last + slack
        seen = self.device.take_oldest_packet_waiting_until(limit)
        if seen is None:
            self.end_run_noting_missing_or_late_packet(event.line, last - self.base)
            return
        self.seen.append(f"{seen.at:.6f} line {event.line}: {seen}")
        span = None if is_any else TimeSpan(first - slack, last + slack)
        for name in differing_fields(packet, seen, span, self.ignored):
            self.add_difference(event.line, name, f"at {seen.at:.3f}: {seen}")
        self.ended = not has_expected_sequence_and_syn_fin_rst(packet, seen)
        self.base = seen.at

    def end_run_noting_missing_or_late_packet(self, line: int, awaited: float) -> None:
        """Notes that no packet came in time, and which one came later."""
        seen: SeenPacket | None = self.device.take_oldest_packet_waiting_until(
            self.device.now() + max(1.0, 2 * awaited)
        )
        words = f"at {seen.at:.3f}: {seen}" if seen else "nothing came"
        self.add_difference(line, "missing", words)
        self.ended = True

    def add_difference(self, line: int, name: str, words: str) -> None:
        self.differences.append(Difference(line, name, words))


def run_script(events: tuple[TimedEvent, ...], tuning: Tuning, ignored: Set[str]) -> RunOutcome:
    """Runs a script once, in a namespace of this process's own."""
    run = RunningScript(open_device(tuning), Sockets(tuning.nodelay), ignored)
    with closing(run.device), closing(run.sockets):
        for event in events:
            if run.ended:
                break
            run.play_event(event)
    return RunOutcome(tuple(run.differences), tuple(run.seen), run.device.late)
