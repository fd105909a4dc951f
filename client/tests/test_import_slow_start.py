"""The limit of cwnd's growth that a script of a kernel needs, worked out by hand from RFC 3465, section 2.2."""

import pytest

from pdsuite.imports.slow_start import fitting_or_greatest_abc_limit, initial_window_octets
from pdsuite.packetdrill.reader import parse_items_until_syntax_error
from tests.test_import_conversion import OPEN, imported

# Ten segments of 1,000 octets leave.
SENT = f"{OPEN}+0 write(4, ..., 30000) = 30000\n+0 > P. 1:10001(10000) ack 1\n"
LIMITS = {
    # cwnd is 10,000 plus what the ACK acknowledges, but at most L segments more.
    "nothing is sent": (OPEN, 8),
    "each ACK is of one segment": (SENT + "+.1 < . 1:1(0) ack 1001 win 257\n+0 > . 10001:12001(2000) ack 1\n", 8),
    "two for two": (SENT + "+.1 < . 1:1(0) ack 2001 win 257\n+0 > . 10001:14001(4000) ack 1\n", 8),
    "one for two": (SENT + "+.1 < . 1:1(0) ack 2001 win 257\n+0 > . 10001:13001(3000) ack 1\n", 1),
    "two for four": (SENT + "+.1 < . 1:1(0) ack 4001 win 257\n+0 > . 10001:16001(6000) ack 1\n", 2),
    "none for four": (SENT + "+.1 < . 1:1(0) ack 4001 win 257\n+0 > . 10001:14001(4000) ack 1\n", 8),
    "later": (SENT + "+.3 < . 1:1(0) ack 2001 win 257\n+0 > . 10001:13001(3000) ack 1\n", 8),
    # The peer's window is 12 segments, then 11.
    "a window": (SENT + "+.1 < . 1:1(0) ack 4001 win 94\n+0 > . 10001:16001(6000) ack 1\n", 8),
    "a lesser one": (SENT + "+.1 < . 1:1(0) ack 4001 win 86\n+0 > . 10001:15001(5000) ack 1\n", 8),
    "all is sent": (
        SENT.replace("30000", "13000") + "+.1 < . 1:1(0) ack 4001 win 257\n+0 > P. 10001:13001(3000) ack 1\n",
        8,
    ),
    "a short segment waits": (
        SENT.replace("30000", "13500") + "+.1 < . 1:1(0) ack 4001 win 257\n+0 > . 10001:13001(3000) ack 1\n",
        8,
    ),
    "cwnd is asserted": (
        SENT.replace("30000", "10000") + "+.1 < . 1:1(0) ack 4001 win 257\n+0 %{ assert tcpi_snd_cwnd == 13 }%\n",
        3,
    ),
    # The ACK comes after two duplicates, each of which let a segment out.
    "limited transmit": (
        SENT
        + "+.1 < . 1:1(0) ack 1 win 257 <sack 1001:2001,nop,nop>\n+0 > . 10001:11001(1000) ack 1\n"
        + "+.01 < . 1:1(0) ack 1 win 257 <sack 1001:3001,nop,nop>\n+0 > . 11001:12001(1000) ack 1\n"
        + "+.01 < . 1:1(0) ack 3001 win 257\n+0 > . 12001:14001(2000) ack 1\n",
        1,
    ),
    # No ACK with another window is a duplicate.
    "windows": (
        SENT
        + "".join(f"+.01 < . 1:1(0) ack 1 win {win}\n" for win in (258, 259, 260))
        + "+.1 < . 1:1(0) ack 2001 win 257\n+0 > . 10001:13001(3000) ack 1\n",
        1,
    ),
    "a loss": (
        SENT + "+.1 < . 1:1(0) ack 1 win 257 <sack 1001:4001,nop,nop>\n+0 > . 1:1001(1000) ack 1\n"
        "+.1 < . 1:1(0) ack 10001 win 257\n+0 > . 10001:11001(1000) ack 1\n",
        8,
    ),
    "sent again": (
        SENT + "+.2 > . 1:1001(1000) ack 1\n+.1 < . 1:1(0) ack 4001 win 257\n+0 > . 10001:12001(2000) ack 1\n",
        8,
    ),
}


@pytest.mark.parametrize(("text", "limit"), LIMITS.values(), ids=LIMITS)
def test_the_limit_is_the_greatest_under_which_just_that_leaves(text: str, limit: int) -> None:
    reading = parse_items_until_syntax_error(text)
    assert reading.fault is None
    assert fitting_or_greatest_abc_limit(reading.items, 1_000, 10_000) == limit
    assert dict(imported(text).settings)["abc_limit"] == limit
    assert imported(text, {"abc_limit": 5}).settings == (("abc_limit", 5),)


def test_the_first_window_is_that_of_the_setting() -> None:
    assert [initial_window_octets("rfc5681", it) for it in (1_000, 1_460, 4_000)] == [4_000, 4_380, 8_000]
    assert [initial_window_octets("rfc6928", it) for it in (1_000, 1_460, 4_000)] == [10_000, 14_600, 14_600]
