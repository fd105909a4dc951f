"""The scenario of a connection: the handshake, the network, the peer and the program that writes."""

from collections.abc import Mapping
from dataclasses import dataclass, field
from enum import StrEnum

from pdsuite.packetdrill.items import Call, TcpOption
from pdsuite.scripts.settings import Settings


class Irregularity(StrEnum):
    """A packet that a peer in order doesn't send: late, repeated, forged or out of its window."""

    OLD_ACK = "an ACK of less than was acknowledged"
    EARLY_ACK = "an ACK of what wasn't sent"
    SAME_ACK = "the last ACK again"
    UPDATE = "the last ACK with another window"
    NEWER = "the last ACK with a higher number of its own"
    BARE = "a packet without ACK"
    OUTSIDE = "a packet at the edge of the receive window"
    BELOW = "a packet below the receive window"
    RESET = "an RST at the next number"
    RESET_NEAR = "an RST elsewhere in the window"
    RESET_FAR = "an RST at the edge of the window"
    FIN = "the peer's FIN"
    OLD_FIN = "the peer's FIN with an old ACK"
    BLOCK_BELOW = "a SACK block of what was acknowledged"
    BLOCK_ABOVE = "a SACK block up to beyond what was sent"
    BLOCK_WITHIN = "a SACK block of some octets on the way"
    SMALL_BLOCKS = "three SACK blocks of few octets each on the way"
    BLOCK_AFTER_END = "a SACK block after the end of the options"


@dataclass(frozen=True, slots=True)
class IrregularPacket:
    """Such a packet, so many microseconds after the handshake, with a number that it may use."""

    after: int
    kind: Irregularity
    number: int = 0


@dataclass(frozen=True, slots=True)
class PlannedCall:
    """A call, so many microseconds after the handshake, or after another moment that is named."""

    after: int
    call: Call


@dataclass(frozen=True, slots=True)
class Handshake:
    """The peer's SYN, and how long the ACK that ends the handshake takes, in microseconds."""

    options: tuple[TcpOption, ...]
    window: int
    takes: int
    irregular: tuple[IrregularPacket, ...] = ()
    accepts_early: bool = False
    has_fin: bool = False


@dataclass(frozen=True, slots=True)
class Network:
    """Times in microseconds; packets of the sender count from 0 after the SYN/ACK, and ACKs of the peer likewise."""

    round_trip: int
    more: tuple[int, ...] = (0,)
    lost: frozenset[int] = frozenset()
    late: Mapping[int, int] = field(default_factory=dict)
    lost_acks: frozenset[int] = frozenset()
    outage: tuple[int, int] = (0, 0)


@dataclass(frozen=True, slots=True)
class ReceiverPlan:
    """How the peer acknowledges: each so many packets or after so many microseconds, with which blocks.

    The windows are in octets, each with the number of the ACK from which it holds.
    """

    each: int = 1
    delay: int = 0
    has_blocks: bool = True
    joins_blocks: bool = True
    windows: tuple[tuple[int, int], ...] = ((0, 65_535),)


class Theme(StrEnum):
    """A circumstance that a connection may meet more often."""

    LOSS = "loss"
    NO_SACK = "no SACK"
    EXPIRY = "expiries"
    IDLE = "idle times"
    CLOSE = "closing"
    IRREGULAR = "odd packets"
    WINDOW = "small windows"
    HANDSHAKE = "odd handshakes"
    SMALL = "small writes"


@dataclass(frozen=True, slots=True)
class Emphasis:
    """The settings and themes that come first in what is drawn, and the settings that aren't drawn."""

    keys: frozenset[str] = frozenset()
    themes: frozenset[Theme] = frozenset()
    fixed: frozenset[str] = frozenset()


class Ending(StrEnum):
    """The end of a scenario, after all the rest."""

    NONE = "nothing"
    WAIT = "a wait"
    WRITE = "a long write and a wait"


@dataclass(frozen=True, slots=True)
class Scenario:
    """All of it, and how many times inputs are recorded at most before the end."""

    settings: Settings
    handshake: Handshake
    network: Network
    receiver: ReceiverPlan
    acts: tuple[PlannedCall, ...]
    irregular: tuple[IrregularPacket, ...]
    ending: Ending
    rounds: int
    # The writes once nothing is outstanding, each so long before or after an RTO since octets were sent last.
    idle: tuple[PlannedCall, ...] = ()
