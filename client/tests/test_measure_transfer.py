"""Transfers over modelled paths, against the built program: what is known of them beforehand comes out."""

from collections.abc import Callable, Sequence
from dataclasses import replace
from itertools import count
from pathlib import Path
from random import Random
from weakref import WeakKeyDictionary

import pytest

from pdsuite.measure.link import LossModel
from pdsuite.measure.paths import HEADER, NetworkPath, load_network_paths_matching
from pdsuite.measure.transfer import SegmentDeparture, SenderReply, Transfer, TransferResult
from pdsuite.measure.transfer import play_transfer_as_generator
from pdsuite.measure.transfer_batch import TransferOutcome, UnfinishedTransferError, play_transfers
from pdsuite.measure.writer import TransferWriter
from pdsuite.packetdrill.items import Packet
from pdsuite.programs.recorder import TRACE, record_texts
from pdsuite.programs.trace import traced_events_in
from pdsuite.scripts.settings import Settings
from pdsuite.signals import Stop

ROOM = 262_144
DELAY = 50_000
ROUND_TRIP = 2 * DELAY
# Rounds are far longer than all that leaves in one: each acknowledged segment lets two leave.
WIDE = NetworkPath("wide", "a test", 1_000_000_000, DELAY, 1_000_000, (1,), mss=1_000, ack_every=1)
IW_10: Settings = (("initial_window", "rfc6928"),)


def delivered(
    folder: Path, path: NetworkPath, sizes: Sequence[int], settings: Settings = (), seeds: Sequence[str] = ("",)
) -> list[TransferResult]:
    """The results of transfers of these sizes, by each of these seeds."""
    games = [play_transfer_as_generator(path, size, seed, ROOM) for size in sizes for seed in seeds]
    with Stop(()) as stop:
        return [whole(it) for it in play_transfers(games, folder / "pdregress", settings, stop)]


def whole(it: TransferOutcome) -> TransferResult:
    if isinstance(it, UnfinishedTransferError):
        raise it
    return it


@pytest.fixture
def lose(monkeypatch: pytest.MonkeyPatch) -> Callable[..., None]:
    """Has the packets of these numbers lost, counted from 0, and no others."""

    def losing(*numbers: int) -> None:
        packets: WeakKeyDictionary[LossModel, count[int]] = WeakKeyDictionary()
        monkeypatch.setattr(
            LossModel, "is_next_lost", lambda losses, at: next(packets.setdefault(losses, count())) in numbers
        )

    return losing


def rounds_of(it: TransferResult) -> int:
    """How many rounds a transfer took: the last one ends where the peer has all."""
    return round((it.time / DELAY + 1) / 2)


# ---- slow start


@pytest.mark.parametrize(
    "settings, ends", [((), (4, 4 + 8, 4 + 8 + 16, 4 + 8 + 16 + 32)), (IW_10, (10, 10 + 20, 10 + 20 + 40))]
)
def test_slow_start_takes_the_rounds_that_are_counted_by_hand(
    programs: Path, settings: Settings, ends: Sequence[int]
) -> None:
    sizes = range(1, 41)
    by_hand = [next(number for number, end in enumerate(ends, 1) if size <= end) for size in sizes]
    found = delivered(programs, WIDE, [1_000 * it for it in sizes], settings)
    assert [rounds_of(it) for it in found] == by_hand
    assert all(it.time < (2 * rounds - 1) * DELAY + 1_000 for it, rounds in zip(found, by_hand))


def test_a_segment_alone_takes_its_time_on_the_link_and_the_way(programs: Path) -> None:
    slow = replace(WIDE, rate=8_000_000)
    assert [it.time for it in delivered(programs, slow, [1_000 - HEADER])] == [1_000 + DELAY]


def test_an_acknowledgment_that_waits_for_a_second_segment_costs_its_delay(programs: Path) -> None:
    late = replace(WIDE, ack_every=2, ack_delay_us=40_000)
    # With segments of 1,460 octets three leave first (RFC 5681, 3.1), and the third is acknowledged late.
    three = replace(late, mss=1_460)
    (four,), (other,) = delivered(programs, late, [10_000]), delivered(programs, three, [8 * 1_460])
    assert 3 * DELAY < four.time < 3 * DELAY + 1_000
    assert 3 * DELAY + 40_000 < other.time < 3 * DELAY + 41_000


# ---- losses


def test_a_loss_in_a_large_window_costs_a_round_trip_with_sack(programs: Path, lose: Callable[..., None]) -> None:
    size = 60_000
    lose()
    (smooth,) = delivered(programs, WIDE, [size])
    lose(40)
    (once,) = delivered(programs, WIDE, [size])
    assert (smooth.segments_again, once.segments_again, once.octets_again, once.expiries) == (0, 1, 1_000, 0)
    assert once.time - smooth.time == pytest.approx(ROUND_TRIP, rel=0.02)
    assert once.losses == 1 and once.octets == size


def test_two_losses_cost_one_round_trip_with_sack_and_two_or_more_without(
    programs: Path, lose: Callable[..., None]
) -> None:
    lose()
    (smooth,) = delivered(programs, WIDE, [60_000])
    lose(34, 40)
    (with_sack,) = delivered(programs, WIDE, [60_000])
    (without,) = delivered(programs, replace(WIDE, sack=False), [60_000])
    assert with_sack.time - smooth.time == pytest.approx(ROUND_TRIP, rel=0.02)
    assert without.time - smooth.time > 1.9 * ROUND_TRIP


def test_a_loss_without_enough_duplicates_costs_the_timer(programs: Path, lose: Callable[..., None]) -> None:
    lose()
    (smooth,) = delivered(programs, WIDE, [4_000])
    lose(3)
    for rto in (1_000_000, 300_000):
        (late,) = delivered(programs, WIDE, [4_000], (("min_rto_us", rto),))
        # The third ACK, a round trip after its segment, starts the timer again (RFC 6298, 5.3).
        expected = smooth.time + ROUND_TRIP + max(rto, 3 * ROUND_TRIP // 2)
        assert late.time == pytest.approx(expected, rel=0.02), rto
        assert (late.expiries, late.segments_again) == (1, 1)


# ---- what always holds


def test_several_segments_that_the_timer_sends_at_once_are_one_expiry() -> None:
    game = play_transfer_as_generator(WIDE, 1_000, "", ROOM)
    next(game)
    at_once = (SegmentDeparture(300_000, 1, 501, True), SegmentDeparture(300_000, 501, 1_001, True))
    game.send(SenderReply(at_once, None))
    with pytest.raises(StopIteration) as end:
        game.send(SenderReply((), None))
    assert (end.value.value.segments, end.value.value.expiries) == (2, 1)


def odd_path(draw: Random) -> NetworkPath:
    """A path with much of all that there is."""
    write = draw.choice((0, 0, 3_000, 700))
    return NetworkPath(
        "odd",
        "a test",
        rate=draw.choice((500_000, 10_000_000, 1_000_000_000)),
        delay_us=draw.choice((200, 20_000)),
        queue=draw.choice((6_000, 60_000)),
        sizes=(1,),
        loss=draw.choice((0, 0.03)),
        burst_us=(burst := draw.choice((0, 5_000))),
        burst_gap_us=18 * burst,
        reorder=draw.choice((0, 0.1)),
        reorder_us=3_000,
        ack_every=draw.choice((1, 2, 4)),
        ack_gather_us=draw.choice((0, 3_000)),
        ack_loss=draw.choice((0, 0.2)),
        sack=draw.random() < 0.7,
        window=draw.choice((8_000, 65_535, 1_000_000)),
        mss=draw.choice((536, 1_000, 1_460)),
        write=write,
        write_every_us=draw.choice((0, 2_000)) if write else 0,
        idle_us=draw.choice((0, 0, 2_500_000)),
    )


ODD = [odd_path(Random(seed)) for seed in range(24)]


def check(path: NetworkPath, size: int, it: TransferResult) -> None:
    """The peer has exactly what was written, by segments that left, no faster than the link is."""
    total = path.octets_written_doubled_if_idle(size)
    assert it.octets == total
    assert {octet for one in it.departures for octet in range(one.start, one.end)} == set(range(1, total + 1))
    assert sum(one.end - one.start for one in it.departures) == total + it.octets_again
    assert it.octets * 8_000_000 <= path.rate * it.time
    moments = [one.at for one in it.departures]
    assert moments == sorted(moments)
    assert it.segments_again >= it.losses + it.overflows


def test_each_octet_that_is_written_arrives_once_and_none_faster_than_the_rate(programs: Path) -> None:
    for number, path in enumerate(ODD):
        (found,) = delivered(programs, path, [20_000], seeds=[str(number)])
        check(path, 20_000, found)


def test_over_each_path_that_comes_along_so_too(programs: Path) -> None:
    for path in load_network_paths_matching(None):
        for found in delivered(programs, path, path.sizes[:1], seeds=["1", "2"]):
            check(path, found.octets, found)


def sent(recording: str) -> list[SegmentDeparture]:
    """The segments with octets of a recording."""
    packets = [(it.moment, it.what) for it in traced_events_in(recording) if isinstance(it.what, Packet)]
    return [SegmentDeparture(at, it.start, it.end) for at, it in packets if not it.is_inbound and it.start < it.end]


def test_pdrecord_gives_the_same_packets(recording_programs: Path) -> None:
    found = [delivered(recording_programs, path, [20_000], seeds=["7"])[0] for path in ODD]
    with Stop(()) as stop:
        scripts = [it.inputs_only_script_octets() for it in found]
        recordings = list(record_texts(recording_programs / "pdrecord", scripts, (), stop, (TRACE,)))
    for it, recording in zip(found, recordings):
        assert sent(recording.text) == [replace(one, is_by_timer=False) for one in it.departures], recording.fault


class OneMoment(Transfer):
    """The same transfer, plainly: each time the sender is queried after the inputs of one moment."""

    def earliest_peer_arrival_if_sent_at_or_after(self, first: int) -> int:
        return first + 1 - self._path.delay_us


def test_it_makes_no_difference_how_many_inputs_are_put_in_at_once(programs: Path) -> None:
    with Stop(()) as stop:
        games = [OneMoment(path, 12_000, "3", ROOM).play_as_generator() for path in ODD]
        plain = play_transfers(games, programs / "pdregress", (), stop)
    for path, it in zip(ODD, plain):
        assert delivered(programs, path, [12_000], seeds=["3"]) == [it]


def test_transfers_side_by_side_are_as_each_alone(programs: Path) -> None:
    path = replace(WIDE, loss=0.05)
    seeds = [str(it) for it in range(12)]
    together = delivered(programs, path, [30_000], seeds=seeds)
    assert together == [delivered(programs, path, [30_000], seeds=[it])[0] for it in seeds]
    assert len({it.time for it in together}) > 3


# ---- the program that writes


def test_an_idle_time_counts_in_no_time_and_a_window_that_was_opened_stays(programs: Path) -> None:
    (once,) = delivered(programs, WIDE, [12_000])
    (twice,) = delivered(programs, replace(WIDE, idle_us=30_000_000), [12_000])
    # The second time all leaves in one round.
    assert rounds_of(once) == 2 and twice.octets == 24_000
    assert twice.time == pytest.approx(once.time + DELAY, abs=1_000)
    (careful,) = delivered(programs, replace(WIDE, idle_us=30_000_000), [12_000], (("slow_start_after_idle", True),))
    assert careful.time == pytest.approx(2 * once.time, abs=1_000)


def test_writes_that_are_paced_take_as_long_as_their_pace(programs: Path) -> None:
    paced = replace(WIDE, write=1_000, write_every_us=30_000)
    assert [it.time for it in delivered(programs, paced, [10_000])] == [9 * 30_000 + DELAY + 9]


def test_a_program_writes_on_as_the_buffer_has_room(programs: Path) -> None:
    small = [play_transfer_as_generator(WIDE, 100_000, "", 16_384)]
    with Stop(()) as stop:
        (found,) = map(whole, play_transfers(small, programs / "pdregress", (("sndbuf", 16_384),), stop))
    check(WIDE, 100_000, found)
    assert sum(" write(" in f" {it}" for it in found.lines) > 6


def test_a_write_that_found_too_little_room_is_completed_before_the_next() -> None:
    writer = TransferWriter(replace(WIDE, write=3_000, write_every_us=1_000), 9_000, 4_000)
    assert [list(writer.take_due_write_sizes(it)) for it in (0, 1_000)] == [[3_000], []]
    for number, octets in ((1_001, 2_000), (5_001, 1_000)):
        writer.note_acknowledged_and_start_next_part(2_000, number)
        assert list(writer.take_due_write_sizes(2_000)) == [octets]


# ---- what can't be played


def test_a_sender_that_answers_otherwise_is_told(programs: Path) -> None:
    # It thinks of more room than the sender has.
    with Stop(()) as stop:
        (found,) = play_transfers(
            [play_transfer_as_generator(WIDE, 100_000, "", ROOM)], programs / "pdregress", (("sndbuf", 4_096),), stop
        )
    assert isinstance(found, UnfinishedTransferError) and "the call has another result" in str(found)


def test_a_transfer_whose_packets_fit_into_no_script_is_told(programs: Path) -> None:
    with Stop(()) as stop:
        games = [
            play_transfer_as_generator(replace(WIDE, mss=64), 64 * 4_000, "", ROOM),
            play_transfer_as_generator(WIDE, 1_000, "", ROOM),
        ]
        long, short = play_transfers(games, programs / "pdregress", (), stop)
    assert isinstance(long, UnfinishedTransferError) and "don't fit into a script" in str(long)
    assert isinstance(short, TransferResult)
