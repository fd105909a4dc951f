"""The reasons why this profile doesn't run a script, as far as its text shows them: docs/SCRIPTS.md, docs/SENDER.md."""

import re
from collections.abc import Iterable, Iterator, Sequence

from pdsuite.imports.calls import is_run_by_profile, octets_to_write_or_zero, sets_send_buffer, subject_of_call
from pdsuite.imports.findings import Reason
from pdsuite.imports.packets import LEAST_SMSS, mss_of_syn
from pdsuite.packetdrill.items import SECOND, Call, HeaderOption, Item, Packet, Time
from pdsuite.scripts.defaults import KEYS, Number

MOST_TOLERANCE = 1_000_000
_LATEST = 3_600 * SECOND
_MOST_SEQUENCE = (1 << 31) - 1
_MOST_FIELD = 65_535
_MOST_SHIFT = 255
_MOST_OPTIONS = 16
_MOST_BLOCKS = 4
_MOST_WRITTEN = 262_144

# Options of the header that say where packets are sent, or what is printed.
PLACES = ("local_ip", "remote_ip", "gateway_ip", "netmask_ip", "bind_port", "connect_port", "tun_dev", "verbose")
TOLERANCE = "tolerance_usecs"
MSS = "mss"
_DIGITS = re.compile(r"[0-9]+")


def unsupported_reasons(items: Sequence[Item], has_timestamps: bool) -> Iterator[Reason]:
    """The reasons why these items aren't run, if any; commands and code are looked at elsewhere."""
    is_header = True
    for item in items:
        is_header = is_header and item.time is None
        match item.what:
            case HeaderOption():
                yield from _header_option_reasons(item, item.what, is_header)
            case Packet():
                yield from _time_reasons(item, item.what.is_inbound)
                yield from _packet_reasons(item.line, item.what)
            case Call():
                yield from _time_reasons(item, True)
                yield from _call_reasons(item.line, item.what)
    yield from _second_socket_reasons(items)
    yield from _syn_reasons(items, has_timestamps)


def is_dropped_option(option: HeaderOption) -> bool:
    """Whether an option is dropped, since this profile has no addresses and no devices."""
    return option.name in PLACES or (option.name, option.value) == ("ip_version", "ipv4")


def header_tolerance(items: Iterable[Item]) -> int | None:
    """The tolerance in microseconds that a header says."""
    values = _header_values_of(TOLERANCE, items)
    return _tolerance_if_in_range(values[-1]) if values else None


def mss_setting_of_header(items: Iterable[Item]) -> dict[str, int]:
    """The settings that a header says."""
    values = _header_values_of(MSS, items)
    octets = _parse_mss(values[-1]) if values else None
    return {} if octets is None else {MSS: octets}


def _header_values_of(name: str, items: Iterable[Item]) -> list[str | None]:
    """The values of an option of the header."""
    return [it.what.value for it in items if isinstance(it.what, HeaderOption) and it.what.name == name]


def _header_option_reasons(item: Item, option: HeaderOption, is_header: bool) -> Iterator[Reason]:
    what = f"--{option.name}" if option.value is None else f"--{option.name}={option.value}"
    if not is_header:
        yield Reason(item.line, "no script of this language", what)
    elif option.name == "mtu":
        yield Reason(item.line, "MTU", what)
    elif option.name == MSS:
        if _parse_mss(option.value) is None:
            yield Reason(item.line, f"no value of {MSS}, which takes {KEYS[MSS].accepted_values_text}", what)
    elif option.name == "ip_version" and not is_dropped_option(option):
        yield Reason(item.line, "IPv6", what)
    elif not is_dropped_option(option) and not (
        option.name == TOLERANCE and _tolerance_if_in_range(option.value) is not None
    ):
        yield Reason(item.line, "an option of the header", what)


def _tolerance_if_in_range(value: str | None) -> int | None:
    """The microseconds that digits write, where they are no more than a script may say."""
    if value is None or not _DIGITS.fullmatch(value):
        return None
    microseconds = int(value.lstrip("0")[:8] or "0")
    return microseconds if microseconds <= MOST_TOLERANCE else None


def _parse_mss(value: str | None) -> int | None:
    """The octets that digits write, where the setting takes them."""
    octets = int(value.lstrip("0")[:8] or "0") if value is not None and _DIGITS.fullmatch(value) else 0
    takes = KEYS[MSS]
    return octets if isinstance(takes, Number) and takes.least <= octets <= takes.most else None


def _time_reasons(item: Item, acts: bool) -> Iterator[Reason]:
    """The reasons against the time of an event, which either acts or is awaited."""
    time = item.time or Time(None)
    if item.is_blocking:
        yield Reason(item.line, "a blocking call", _call_text(item.what) if isinstance(item.what, Call) else "")
    elif acts and not time.is_single_moment:
        yield Reason(item.line, "a packet that arrives or a call, with no fixed time")
    if max(time.first or 0, time.last or 0) > _LATEST:
        yield Reason(item.line, "a time above an hour")


def _call_text(call: Call) -> str:
    return f"{call.name}({', '.join(call.arguments)})"


def _packet_reasons(line: int, packet: Packet) -> Iterator[Reason]:
    if set(packet.flags) & set("EWC"):
        yield Reason(line, "ECN", str(packet))
    if "U" in packet.flags:
        yield Reason(line, "urgent data", str(packet))
    if packet.is_inbound and packet.length:
        yield Reason(line, "data from the peer", str(packet))
    if _has_number_over_limit(packet):
        yield Reason(line, "a number over its limit", str(packet))


def _has_number_over_limit(packet: Packet) -> bool:
    numbers = [packet.start, packet.end, packet.ack or 0]
    fields = [packet.win or 0]
    shifts = [0]
    blocks = 0
    for option in packet.options:
        match option.name:
            case "sack":
                numbers.extend(option.numbers)
                blocks = max(blocks, len(option.numbers) // 2)
            case "mss":
                fields.extend(option.numbers)
            case "wscale":
                shifts.extend(option.numbers)
    if len(packet.options) > _MOST_OPTIONS or blocks > _MOST_BLOCKS:
        return True
    return max(numbers) > _MOST_SEQUENCE or max(fields) > _MOST_FIELD or max(shifts) > _MOST_SHIFT


def _call_reasons(line: int, call: Call) -> Iterator[Reason]:
    if not is_run_by_profile(call) and not sets_send_buffer(call):
        yield Reason(line, subject_of_call(call), _call_text(call))
    if octets_to_write_or_zero(call) > _MOST_WRITTEN:
        yield Reason(line, "a number over its limit", f"{call.name}({', '.join(call.arguments)})")


def _second_socket_reasons(items: Iterable[Item]) -> Iterator[Reason]:
    """A second socket: there is one connection."""
    sockets = [it for it in items if isinstance(it.what, Call) and it.what.name == "socket"]
    if len(sockets) > 1:
        yield Reason(sockets[1].line, "a second socket")


def _syn_reasons(items: Sequence[Item], has_timestamps: bool) -> Iterator[Reason]:
    """The reasons against the first packet that arrives, and each later SYN; none where a `connect` says it all."""
    if any(isinstance(it.what, Call) and it.what.name == "connect" for it in items):
        return
    arrived = [(it.line, it.what) for it in items if isinstance(it.what, Packet) and it.what.is_inbound]
    for number, (line, packet) in enumerate(arrived):
        if number and "S" in packet.flags:
            yield Reason(line, "a second SYN", str(packet))
        elif not number and (packet.flags, packet.start) != ("S", 0):
            yield Reason(line, "a connection that doesn't begin with the peer's SYN", str(packet))
        elif not number and mss_of_syn(packet) < LEAST_SMSS:
            yield Reason(line, "an MSS below 64", str(packet))
        elif not number and has_timestamps and any(it.name == "TS" for it in packet.options):
            yield Reason(line, "timestamps", str(packet))
