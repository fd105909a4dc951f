"""Modelled paths: what a table may say, the link beside a plain second model, losses in their shares, and the peer."""

from collections.abc import Sequence
from dataclasses import replace
from fractions import Fraction
from math import exp
from pathlib import Path
from random import Random

import pytest

from pdsuite.faults import Fault
from pdsuite.measure.link import CarriedPacket, Link, LossModel, PacketFate
from pdsuite.measure.paths import (
    FILE,
    HEADER,
    MOST_SEGMENTS,
    NetworkPath,
    load_network_paths_matching,
    parse_network_paths_toml,
)
from pdsuite.measure.receiver import Ack, OctetRange, Receiver

PLAIN = NetworkPath("plain", "a test", rate=8_000_000, delay_us=10_000, queue=10_000, sizes=(14_600,))
TABLE = "[a]\nsource = 'a test'\nrate = 1_000_000\ndelay_us = 10\nqueue = 1\nsizes = [1]\n"


# ---- tables


def test_the_paths_that_come_along_have_their_sources_and_cover_what_is_met() -> None:
    paths = load_network_paths_matching(None)
    assert [it.name for it in paths] == ["lan", "dsl", "mobile", "long_fat", "datacentre", "satellite"]
    assert all(it.source for it in paths)
    assert any(it.burst_us for it in paths) and any(it.reorder for it in paths)


def test_paths_are_chosen_by_patterns_of_their_names() -> None:
    assert [it.name for it in load_network_paths_matching(None, ["l*", "dsl"])] == ["lan", "dsl", "long_fat"]
    with pytest.raises(Fault, match="no path has such a name; there are lan, dsl"):
        load_network_paths_matching(None, ["modem"])


@pytest.mark.parametrize(
    "line, reason",
    [
        ("rates = 1", "a.rates: there is no such key; the nearest is rate"),
        ("loss = 0.6", "a.loss: it takes 0 to 0.5"),
        ("loss = 'much'", "a.loss: it takes a share"),
        ("ack_every = 1.5", "a.ack_every: it takes a whole number"),
        ("window = true", "a.window: it takes a whole number"),
        ("sack = 1", "a.sack: it takes true or false"),
        ("burst_us = 5", "a.burst_us: bursts have burst_us and burst_gap_us"),
        ("reorder = 0.1", "a.reorder: without reorder_us nothing is late"),
        ("write_every_us = 5", "a.write_every_us: without write all is written at once"),
    ],
)
def test_a_key_that_is_unknown_or_takes_something_else_is_refused_at_its_line(line: str, reason: str) -> None:
    with pytest.raises(Fault, match=f"^paths.toml:7: {reason}"):
        list(parse_network_paths_toml("paths.toml", f"{TABLE}{line}\n".encode()))


@pytest.mark.parametrize(
    "text, reason",
    [
        ("[a", "paths.toml: no TOML"),
        ("a = 1\n", "paths.toml:1: a stands in no table"),
        ("['a b']\n", "paths.toml:1: a b: no name of a path"),
        ("[a]\nrate = 1000\n", "paths.toml:1: a: it has no source"),
        (TABLE.replace("[1]", "[]"), "paths.toml:6: a.sizes: it takes a list of numbers of octets"),
        (TABLE.replace("[1]", "[true]"), "paths.toml:6: a.sizes: it takes a list of numbers of octets"),
    ],
)
def test_a_text_that_names_no_path_is_refused(text: str, reason: str) -> None:
    with pytest.raises(Fault) as raised:
        list(parse_network_paths_toml("paths.toml", text.encode()))
    assert str(raised.value).startswith(reason)


def test_a_transfer_that_no_script_holds_is_refused_unless_its_segments_are_larger() -> None:
    size = MOST_SEGMENTS * 1_460
    fits = TABLE.replace("[1]", f"[{size}]")
    assert [it.sizes for it in parse_network_paths_toml("paths.toml", fits.encode())] == [(size,)]
    larger = fits.replace(str(size), str(size + 1))
    with pytest.raises(Fault, match="a script holds 900 segments, here 1,314,000 octets"):
        list(parse_network_paths_toml("paths.toml", larger.encode()))
    list(parse_network_paths_toml("paths.toml", f"{larger}mss = 8_960\n".encode()))
    with pytest.raises(Fault, match="here 657,000 octets"):
        list(parse_network_paths_toml("paths.toml", f"{fits}idle_us = 1\n".encode()))


def test_a_file_that_is_not_there_or_has_no_path_is_a_fault(tmp_path: Path) -> None:
    with pytest.raises(Fault, match="No such file"):
        load_network_paths_matching(tmp_path / "paths.toml")
    (tmp_path / "empty.toml").write_text("")
    with pytest.raises(Fault, match="empty.toml: there is no path in it; each is a table"):
        load_network_paths_matching(tmp_path / "empty.toml")
    assert FILE.is_file()


def test_the_window_is_shifted_as_little_as_lets_its_field_hold_it() -> None:
    for window in (1_000, 65_535, 65_536, 1_048_576, 1_073_725_440):
        path = NetworkPath("a", "", 1, 1, 1, (1,), window=window)
        assert path.window_field <= 65_535 and path.window_field << path.window_shift <= window
        assert path.window_shift == 0 or window >> (path.window_shift - 1) > 65_535


# ---- the link


def second_model(path: NetworkPath, packets: Sequence[OctetRange]) -> list[CarriedPacket]:
    """The same link, plainly: all packets with exact moments, each looked at as the next comes."""
    taken: list[tuple[Fraction, Fraction, int]] = []  # when each begins to leave, has left, and its octets
    found = []
    for at, octets in packets:
        now = Fraction(at)
        waiting = sum(size for begin, _, size in taken if begin > now)
        is_busy = any(begin <= now < end or begin > now for begin, end, _ in taken)
        if is_busy and waiting + octets > path.queue:
            found.append(CarriedPacket(PacketFate.OVERFLOW))
            continue
        begin = max([now, *(end for _, end, _ in taken)])
        end = begin + Fraction(octets * 8 * 1_000_000, path.rate)
        taken.append((begin, end, octets))
        found.append(CarriedPacket(PacketFate.ARRIVES, -int(-end // 1) + path.delay_us, int((begin - now) * 1_000)))
    return found


@pytest.mark.parametrize("seed", range(12))
def test_a_link_does_what_the_second_model_does(seed: int) -> None:
    draw = Random(seed)
    # Rates at which a packet takes whole nanoseconds, so that both models are exact.
    path = NetworkPath(
        "a", "", draw.choice((8_000_000, 100_000_000, 1_000_000_000)), 50, draw.choice((0, 3_000, 20_000)), (1,)
    )
    at, packets = 0, []
    for _ in range(120):
        at += draw.choice((0, 0, 0, 1, 12, 500, 3_000))
        packets.append((at, draw.choice((41, 576, 1_500))))
    link = Link(path, "seed")
    assert [link.carry_packet(*it) for it in packets] == second_model(path, packets)


def test_packets_leave_at_the_rate_and_wait_for_one_another() -> None:
    link = Link(PLAIN, "seed")
    # 1,000 octets take a millisecond.
    assert [link.carry_packet(0, 1_000) for _ in range(3)] == [
        CarriedPacket(PacketFate.ARRIVES, 11_000, 0),
        CarriedPacket(PacketFate.ARRIVES, 12_000, 1_000_000),
        CarriedPacket(PacketFate.ARRIVES, 13_000, 2_000_000),
    ]
    assert link.earliest_arrival_if_leaving_at_or_after(0) == 13_041


def test_the_queue_holds_so_many_octets_beside_the_packet_that_leaves() -> None:
    link = Link(PLAIN, "seed")
    fates = [link.carry_packet(0, 1_000).fate for _ in range(12)]
    assert fates == [PacketFate.ARRIVES] * 11 + [PacketFate.OVERFLOW]
    assert link.carry_packet(999, 1_000).fate is PacketFate.OVERFLOW
    assert link.carry_packet(1_000, 1_000).fate is PacketFate.ARRIVES


def test_a_link_without_a_queue_takes_what_finds_it_idle() -> None:
    link = Link(NetworkPath("a", "", 8_000_000, 1, 0, (1,)), "seed")
    assert [link.carry_packet(at, 1_000).fate for at in (0, 999, 1_000)] == [
        PacketFate.ARRIVES,
        PacketFate.OVERFLOW,
        PacketFate.ARRIVES,
    ]


def test_nothing_arrives_before_what_the_link_says_is_the_earliest() -> None:
    draw = Random(5)
    link = Link(NetworkPath("a", "", 3_333_333, 70, 9_000, (1,), reorder=0.2, reorder_us=900), "seed")
    at = 0
    for _ in range(500):
        at += draw.choice((0, 1, 700, 5_000))
        earliest = link.earliest_arrival_if_leaving_at_or_after(at)
        carried = link.carry_packet(at, draw.choice((HEADER + 1, 700, 1_500)))
        assert not carried.arrives or carried.at >= earliest


def test_a_late_packet_arrives_later_and_delays_no_other() -> None:
    late = NetworkPath("a", "", 8_000_000, 10_000, 10_000, (1,), reorder=1, reorder_us=500)
    link = Link(late, "seed")
    assert [link.carry_packet(at, 1_000) for at in (0, 1_000)] == [
        CarriedPacket(PacketFate.LATE, 11_500),
        CarriedPacket(PacketFate.LATE, 12_500),
    ]


# ---- losses


def lost(path: NetworkPath, count: int, seed: str = "seed") -> list[bool]:
    losses = LossModel(path, seed)
    return [losses.is_next_lost(0) for _ in range(count)]


def test_random_losses_have_their_share_and_a_seed_makes_them_again() -> None:
    path = NetworkPath("a", "", 1, 1, 1, (1,), loss=0.02)
    found = lost(path, 60_000)
    assert sum(found) / len(found) == pytest.approx(0.02, rel=0.1)
    assert found == lost(path, 60_000) != lost(path, 60_000, "another")


def test_bursts_are_as_long_and_as_often_as_the_model_has_them() -> None:
    path = NetworkPath("a", "", 1, 1, 1, (1,), burst_us=4_000, burst_gap_us=36_000)
    losses = LossModel(path, "seed")
    found = [losses.is_next_lost(at) for at in range(0, 80_000_000, 1_000)]
    bursts = [it for it in "".join("x" if it else " " for it in found).split(" ") if it]
    assert sum(found) / len(found) == pytest.approx(0.1, rel=0.1)
    # Of a burst that is seen each millisecond at all, so many milliseconds are lost on the average.
    assert sum(map(len, bursts)) / len(bursts) == pytest.approx(1 / (1 - exp(-1 / 4)), rel=0.1)


def test_a_burst_comes_at_its_moment_however_many_packets_pass_before_and_a_share_of_it_is_lost() -> None:
    path = NetworkPath("a", "", 1, 1, 1, (1,), burst_us=4_000, burst_gap_us=36_000)
    dense, sparse = LossModel(path, "seed"), LossModel(path, "seed")
    each = {at: dense.is_next_lost(at) for at in range(0, 2_000_000, 250)}
    assert all(sparse.is_next_lost(at) is each[at] for at in range(0, 2_000_000, 5_000))
    halves = LossModel(replace(path, burst_loss=0.5), "seed")
    lost_of_burst = [halves.is_next_lost(at) for at, is_lost in each.items() if is_lost]
    assert sum(lost_of_burst) / len(lost_of_burst) == pytest.approx(0.5, abs=0.1)


def test_a_packet_is_lost_whatever_becomes_of_those_before() -> None:
    path = NetworkPath("a", "", 8_000_000, 10, 3_000, (1,), loss=0.3)
    together, apart = Link(path, "seed"), Link(path, "seed")
    in_queue = [together.carry_packet(0, 1_000).fate for _ in range(50)]
    alone = [apart.carry_packet(number * 10_000, 1_000).fate for number in range(50)]
    assert in_queue[4:] == [PacketFate.OVERFLOW] * 46 or PacketFate.LOST in in_queue
    losses = LossModel(path, "seed loss")
    assert [it is PacketFate.LOST for it in alone] == [losses.is_next_lost(0) for _ in range(50)]
    assert all(one is other for one, other in zip(in_queue, alone) if one is not PacketFate.OVERFLOW)


# ---- the peer


class PlainReceiver:
    """The same peer, plainly: a set of octets, each with the number of the segment that it came with first."""

    def __init__(self) -> None:
        self._came: dict[int, int] = {}
        self._segments = 0
        self.next = 1

    def take(self, span: OctetRange) -> None:
        self._segments += 1
        for octet in range(*span):
            self._came.setdefault(octet, self._segments)
        while self.next in self._came:
            self.next += 1

    def blocks(self) -> set[OctetRange]:
        above = sorted(it for it in self._came if it > self.next)
        starts = [it for it in above if it - 1 not in self._came]
        ends = [it + 1 for it in above if it + 1 not in self._came]
        return set(zip(starts, ends))

    @property
    def taken(self) -> int:
        return len(self._came)


@pytest.mark.parametrize("seed", range(12))
def test_the_peer_takes_what_the_second_model_takes(seed: int) -> None:
    draw = Random(seed)
    receiver, plain = Receiver(2, True), PlainReceiver()
    for _ in range(60):
        start = draw.randrange(1, 120)
        span = (start, start + draw.randrange(1, 12))
        had_gap = bool(plain.blocks())
        begin = plain.next
        plain.take(span)
        at_once = receiver.receive_segment_and_check_immediate_ack(span)
        assert at_once or not (had_gap or plain.blocks() or plain.next == begin)
        blocks = receiver.make_ack_and_reset_waiting().blocks
        assert receiver.next == plain.next and receiver.taken == plain.taken
        assert set(blocks) <= plain.blocks() and len(blocks) == min(3, len(plain.blocks()))


def test_each_second_segment_in_order_is_acknowledged() -> None:
    receiver = Receiver(2, True)
    assert [receiver.receive_segment_and_check_immediate_ack((at, at + 1)) for at in (1, 2)] == [False, True]
    assert receiver.make_ack_and_reset_waiting() == Ack(3)
    assert receiver.receive_segment_and_check_immediate_ack((3, 4)) is False


def test_a_gap_is_told_at_once_with_the_newest_block_first_and_so_is_what_fills_it() -> None:
    receiver = Receiver(2, True)
    found = []
    for span in ((11, 21), (31, 41), (51, 61), (21, 31), (1, 11), (41, 51)):
        assert receiver.receive_segment_and_check_immediate_ack(span)
        found.append(receiver.make_ack_and_reset_waiting())
    assert found == [
        Ack(1, ((11, 21),)),
        Ack(1, ((31, 41), (11, 21))),
        Ack(1, ((51, 61), (31, 41), (11, 21))),
        Ack(1, ((11, 41), (51, 61))),
        Ack(41, ((51, 61),)),
        Ack(61),
    ]


def test_octets_that_came_before_are_acknowledged_at_once_and_not_taken_twice() -> None:
    receiver = Receiver(2, False)
    receiver.receive_segment_and_check_immediate_ack((1, 11))
    receiver.receive_segment_and_check_immediate_ack((11, 21))
    receiver.make_ack_and_reset_waiting()
    assert (
        receiver.receive_segment_and_check_immediate_ack((1, 11))
        and receiver.make_ack_and_reset_waiting() == Ack(21)
        and receiver.taken == 20
    )
