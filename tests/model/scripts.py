"""Plays a script of the suite by the second reading, as docs/SCRIPTS.md says how events are run."""

from collections.abc import Iterator, Mapping, Sequence
from dataclasses import dataclass, field
from pathlib import Path
from typing import Any

from kernel.settings import settings_tables_for
from model.rules import Rules
from model.sender import Segment, Sender, Start
from model.spans import Span
from pdsuite.packetdrill.items import SECOND, Call, Item, Packet
from pdsuite.packetdrill.reader import parse_items_until_syntax_error

TOLERANCE = 4_000
NO_MSS = 536
MOST_SHIFT = 14


class Unplayed(Exception):
    """Why the second reading doesn't play a script: it has only a sender of data."""


@dataclass
class Player:
    """A run: the peer's SYN with its moment, the sender from the establishment on, and what no event has taken."""

    settings: Mapping[str, Any]
    syn: Packet | None = None
    syn_at: int = 0
    shift: int = 0
    sender: Sender | None = None
    sent: list[Segment] = field(default_factory=list)
    clock: int = 0

    def play_event_and_answer_what_is_unmet(self, item: Item) -> str:
        """Plays an event; what of it isn't met, if something isn't."""
        time = item.time
        assert time is not None
        base = self.clock if time.is_relative else 0
        first = None if time.first is None else base + time.first
        last = first if time.last is None else base + time.last
        match item.what:
            case Packet(is_inbound=False) as packet:
                return self._await(packet, first, last)
            case Packet() as packet:
                self._pass_to(first or 0)
                self._take_syn_or_ack_of_peer(packet)
            case Call() as call:
                self._pass_to(first or 0)
                self._call(call)
        return ""

    def _pass_to(self, moment: int) -> None:
        """The clock goes on: the expiries up to there come first."""
        self.clock = moment
        while self.sender is not None and self.sender.expiry is not None and self.sender.expiry <= moment:
            self.sent += self.sender.expire()

    def _await(self, packet: Packet, first: int | None, last: int | None) -> str:
        if "S" in packet.flags:
            self.clock = self.clock if first is None else first
            return ""
        if self.sender is None or packet.length == 0 or set(packet.flags) - set("P."):
            raise Unplayed("a packet without data")
        if not self.sent:
            if self.sender.expiry is None or (last is not None and self.sender.expiry > last + TOLERANCE):
                return "missing"
            self.sent += self.sender.expire()
        segment = self.sent.pop(0)
        if (packet.start, packet.end, "P" in packet.flags) != (segment.start, segment.end, segment.has_push):
            return f"{packet} isn't {segment}"
        if first is None or last is None:
            self.clock = segment.at
            return ""
        self.clock = segment.at if first < last else first
        is_in_time = first - TOLERANCE <= segment.at <= last + TOLERANCE
        return "" if is_in_time else f"{segment} isn't between {first} and {last}"

    def _take_syn_or_ack_of_peer(self, packet: Packet) -> None:
        if self.syn is None:
            self.syn, self.syn_at = packet, self.clock
        elif packet.flags != "." or packet.ack is None or packet.start != 1 or packet.win is None:
            raise Unplayed("another packet than an ACK")
        elif self.sender is None:
            self._establish(packet.ack, packet.win)
        elif packet.ack > self.sender.board.top:
            raise Unplayed("an ACK of what wasn't sent")
        else:
            blocks = list(_blocks(packet))
            self.sent += self.sender.acknowledge(self.clock, packet.ack, packet.win << self.shift, blocks)

    def _establish(self, ack: int, field: int) -> None:
        if ack != 1 or self.syn is None or any(it.name == "eol" for it in self.syn.options):
            raise Unplayed("an unusual handshake")
        options = {it.name: it.numbers for it in reversed(self.syn.options)}
        setting = self.settings.get
        self.shift = min(options["wscale"][0], MOST_SHIFT) if "wscale" in options else 0
        rules = Rules(
            min(setting("mss", 1_460), options.get("mss", (NO_MSS,))[0]),
            has_sack="sackOK" in options and setting("sack", True),
            algorithm=setting("recovery_algorithm", "rfc6675"),
            limit=setting("abc_limit", 1),
            restarts=setting("slow_start_after_idle", False),
            transmits_early=setting("limited_transmit", True),
            window_rule=setting("initial_window", "rfc5681"),
            first_ssthresh=setting("initial_ssthresh", 1 << 30),
            least_rto=setting("min_rto_us", SECOND),
            most_rto=setting("max_rto_us", 60 * SECOND),
            granularity=setting("granularity_us", 1_000),
            has_nagle=setting("nagle", True),
        )
        is_resent = self.clock - self.syn_at >= max(SECOND, rules.least_rto)
        window = field << self.shift
        self.sender = Sender(rules, Start(self.syn_at, self.clock, is_resent, self.syn.win or 0, window))

    def _call(self, call: Call) -> None:
        if call.name == "close":
            raise Unplayed(call.name)
        if "TCP_NODELAY" in call.arguments and call.arguments[0] == "4" and self.sender is not None:
            self.sender.has_nagle = call.arguments[3] == "[0]"
        if call.name != "write":
            return
        if self.sender is None or call.result != int(call.arguments[2]):
            raise Unplayed("a write that takes less")
        if call.result:
            self.sent += self.sender.write(self.clock, call.result)


def _blocks(packet: Packet) -> Iterator[Span]:
    if any(it.name == "eol" for it in packet.options):
        raise Unplayed("an end of options")
    for option in packet.options:
        if option.name == "sack":
            yield from zip(option.numbers[::2], option.numbers[1::2])


def fault_of(path: Path) -> str:
    """The first line of a script that isn't met with what is wrong about it, if one isn't."""
    settings: dict[str, Any] = {}
    for table in reversed(list(settings_tables_for(path))):
        settings |= table
    player = Player(settings)
    for item in _events_refusing_a_header(parse_items_until_syntax_error(path.read_text()).items):
        if fault := player.play_event_and_answer_what_is_unmet(item):
            return f"{path}:{item.line}: {fault}"
    return ""


def _events_refusing_a_header(items: Sequence[Item]) -> Iterator[Item]:
    for item in items:
        if item.time is None:
            raise Unplayed("a header")
        yield item
