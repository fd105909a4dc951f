"""With random losses a transfer's goodput follows the square root law, from the first loss on.

The law (Mathis and others, 1997) is MSS/RTT times C/sqrt(p); C is the root of 3/2 where each segment is acknowledged.
Before a release run it over 2,000 transfers: MEASURED_TRANSFERS=2000.
"""

import os
from itertools import count
from math import sqrt
from pathlib import Path

import pytest

from pdsuite.measure.link import LossModel
from pdsuite.measure.paths import NetworkPath
from pdsuite.measure.transfer import TransferResult, play_transfer_as_generator
from pdsuite.measure.transfer_batch import play_transfers
from pdsuite.signals import Stop

TRANSFERS = int(os.environ.get("MEASURED_TRANSFERS", "96"))
SHARES = (0.005, 0.01, 0.02)
CONSTANT = sqrt(3 / 2)
MSS = 1_000
DELAY = 50_000
# Long enough that begin and end count little.
SIZE = 700 * MSS
PIECE = 16


def since_first_loss(path: NetworkPath, seed: str, it: TransferResult) -> tuple[int, int]:
    """How many octets are delivered in how many microseconds, from the moment at which the first packet was lost."""
    losses = LossModel(path, f"{seed} loss")
    first = next(number for number in count() if losses.is_next_lost(0))
    if first >= len(it.departures):
        return 0, 0
    lost = it.departures[first]
    end = it.departures[0].at + it.time - DELAY
    return it.octets + 1 - lost.start, end - lost.at


@pytest.mark.parametrize("share", SHARES)
def test_goodput_follows_the_square_root_law(programs: Path, share: float) -> None:
    path = NetworkPath("law", "a test", 10_000_000_000, DELAY, 10_000_000, (SIZE,), loss=share, mss=MSS, ack_every=1)
    window = CONSTANT / sqrt(share)
    # Slow start ends where the law begins to hold, and no timer is far longer than a round trip.
    settings = (("initial_ssthresh", int(window) * MSS), ("min_rto_us", 2 * DELAY), ("sndbuf", 1_048_576))
    octets = microseconds = 0
    transfers = TRANSFERS // len(SHARES)
    for begin in range(0, transfers, PIECE):
        seeds = [f"{share} {number}" for number in range(begin, min(begin + PIECE, transfers))]
        with Stop(()) as stop:
            found = play_transfers(
                [play_transfer_as_generator(path, SIZE, it, 1_048_576) for it in seeds],
                programs / "pdregress",
                settings,
                stop,
            )
        for seed, it in zip(seeds, found):
            assert isinstance(it, TransferResult), it
            more = since_first_loss(path, seed, it)
            octets, microseconds = octets + more[0], microseconds + more[1]
    goodput = octets / microseconds
    law = window * MSS / (2 * DELAY)
    assert goodput == pytest.approx(law, rel=0.2), f"{goodput / law:.3f} of the law at {share}"
