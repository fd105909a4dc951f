"""Packets as octets: TCP over IPv4, as the device takes and gives them."""

from __future__ import annotations

import socket
import struct
from dataclasses import dataclass

from pdsuite.packetdrill.items import Packet, TcpOption

LOCAL, REMOTE = "192.168.0.1", "192.0.2.1"
PORT, PEER_PORT = 8080, 40000
PEER_ISN = 0x10000000
FLAGS = {"F": 1, "S": 2, "R": 4, "P": 8, ".": 16, "U": 32, "E": 64, "W": 128}
TCP = 6
MODULUS = 2**32


@dataclass(frozen=True)
class SeenPacket:
    """A packet that the kernel sent, numbers relative to both initial sequence numbers."""

    at: float
    flags: frozenset[str]
    start: int
    length: int
    ack: int
    window: int
    options: tuple[TcpOption, ...]

    def __str__(self) -> str:
        letters = "".join(sorted(self.flags, key="SFRPUEW.".index)) or "-"
        text = f"{letters} {self.start}:{self.start + self.length}({self.length})"
        text += f" ack {self.ack}" if "." in self.flags else ""
        text += f" win {self.window}"
        return text + (f" <{','.join(map(option_text, self.options))}>" if self.options else "")


def option_text(option: TcpOption) -> str:
    """An option as scripts write it.

    >>> option_text(TcpOption("sack", (1, 5, 7, 9)))
    'sack 1:5 7:9'
    """
    if option.name == "sack":
        pairs = zip(option.numbers[::2], option.numbers[1::2])
        return "sack " + " ".join(f"{left}:{right}" for left, right in pairs)
    if option.name == "TS":
        return f"TS val {option.numbers[0]} ecr {option.numbers[1]}"
    return " ".join([option.name, *map(str, option.numbers)])


def internet_checksum(data: bytes) -> int:
    """The checksum of the internet.

    >>> internet_checksum(bytes([0x45, 0, 0, 20])) == 0xffff - 0x4514
    True
    """
    data += b"\0" * (len(data) % 2)
    total: int = sum(struct.unpack(f"!{len(data) // 2}H", data))
    while total >> 16:
        total = (total & 0xFFFF) + (total >> 16)
    return ~total & 0xFFFF


def encode_option(option: TcpOption, isn: int) -> bytes:
    """An option's octets; the edges of SACK blocks count from the kernel's first number."""
    values = option.numbers
    if option.name == "mss":
        return struct.pack("!BBH", 2, 4, values[0])
    if option.name == "wscale":
        return struct.pack("!BBB", 3, 3, values[0])
    if option.name == "TS":
        return struct.pack("!BBII", 8, 10, *values)
    if option.name == "sack":
        edges = [(isn + edge) % MODULUS for edge in values]
        return struct.pack(f"!BB{len(edges)}I", 5, 2 + 4 * len(edges), *edges)
    return {"sackOK": b"\4\2", "nop": b"\1", "eol": b"\0"}[option.name]


def decode_options(octets: bytes) -> tuple[TcpOption, ...]:
    """The options of a packet of the kernel, up to the end of its header.

    >>> decode_options(bytes([2, 4, 5, 180, 1, 3, 3, 7]))[1:]
    (TcpOption(name='nop', numbers=()), TcpOption(name='wscale', numbers=(7,)))
    """
    found, place = [], 0
    while place < len(octets):
        kind = octets[place]
        if kind < 2:
            found.append(TcpOption("nop" if kind else "eol"))
            place += 1
            continue
        size = octets[place + 1]
        found.append(decode_option(kind, octets[place + 2 : place + size]))
        place += max(size, 2)
    return tuple(found)


def decode_option(kind: int, body: bytes) -> TcpOption:
    if kind == 2:
        return TcpOption("mss", struct.unpack("!H", body))
    if kind == 3:
        return TcpOption("wscale", (body[0],))
    if kind == 4:
        return TcpOption("sackOK")
    if kind == 5:
        edges = struct.unpack(f"!{len(body) // 4}I", body)
        return TcpOption("sack", tuple((edge - PEER_ISN) % MODULUS for edge in edges))
    if kind == 8:
        return TcpOption("TS", struct.unpack("!II", body))
    return TcpOption(f"kind{kind}", tuple(body))


def encode_packet(packet: Packet, isn: int) -> bytes:
    """The octets of a packet that arrives at the kernel, whose first number is `isn`."""
    options = b"".join(encode_option(it, isn) for it in packet.options)
    options += b"\0" * (-len(options) % 4)
    has_ack = "." in packet.flags
    ack = (isn + (packet.ack or 0)) % MODULUS if has_ack else packet.ack or 0
    bits = sum(FLAGS[it] for it in packet.flags)
    numbers = (PEER_PORT, PORT, (PEER_ISN + packet.start) % MODULUS, ack)
    head = (5 + len(options) // 4) << 12 | bits
    tcp = struct.pack("!HHIIHHHH", *numbers, head, packet.win or 0, 0, 0)
    tcp += options + b"x" * packet.length
    ends = socket.inet_aton(REMOTE) + socket.inet_aton(LOCAL)
    total = internet_checksum(ends + struct.pack("!BBH", 0, TCP, len(tcp)) + tcp)
    tcp = tcp[:16] + struct.pack("!H", total) + tcp[18:]
    lead = struct.pack("!BBHHHBBH", 0x45, 0, 20 + len(tcp), 0, 0x4000, 64, TCP, 0)
    lead = lead[:10] + struct.pack("!H", internet_checksum(lead + ends))
    return lead + ends + tcp


def decode_packet(octets: bytes, at: float, isn: int | None) -> tuple[SeenPacket, int] | None:
    """A TCP packet to the peer and the kernel's first number, or None for any other packet.

    The first number is known from the kernel's SYN on. An RST at 0 stands at 0 as it is: it answers a segment without
    the ACK flag.
    """
    if octets[0] >> 4 != 4 or octets[9] != TCP:
        return None
    tcp = octets[(octets[0] & 15) * 4 :]
    _, port, start, ack, head, window = struct.unpack("!HHIIHH", tcp[:16])
    if port != PEER_PORT:
        return None
    flags = frozenset(letter for letter, bit in FLAGS.items() if head & bit)
    first = start if isn is None and "S" in flags else isn or 0
    size = (head >> 12) * 4
    relative = start if "R" in flags and start == 0 else (start - first) % MODULUS
    known = (ack - PEER_ISN) % MODULUS if "." in flags else 0
    seen = SeenPacket(at, flags, relative, len(tcp) - size, known, window, decode_options(tcp[20:size]))
    return seen, first
