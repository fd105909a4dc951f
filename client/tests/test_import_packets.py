"""Packets that leave as this profile sends them, and assertions of code. Expected values are worked out by hand."""

import pytest

from pdsuite.imports.assertions import Assertion, assertion_comment, assertion_in_comment, parse_assertions
from pdsuite.imports.packets import (
    CUT,
    PUSH,
    WINDOW,
    Sending,
    Write,
    fixed_moments_of_items,
    packets_as_sent,
    script_smss_from_first_syn,
    write_calls_before_each_item,
)
from pdsuite.packetdrill.items import Packet
from pdsuite.packetdrill.reader import parse_items_until_syntax_error

MS = 1_000
# 2,500 octets at 0.1 s and 500 more at 0.2 s.
WRITES = (Write(2501, 100 * MS), Write(3001, 200 * MS))


def sent(text: str, moment: int | None = 200 * MS, smss: int = 1000) -> tuple[list[str], tuple[str, ...]]:
    """The packets that come in the place of one, and what was changed."""
    packet = parse_items_until_syntax_error(f"0 {text}").items[0].what
    assert isinstance(packet, Packet)
    packets, changes = packets_as_sent(packet, Sending(smss, moment, WRITES, 4 * MS))
    return [str(it) for it in packets], changes


def test_a_packet_that_this_profile_sends_stays() -> None:
    for text in ("> . 1:1001(1000) ack 1", "> P. 2001:3001(1000) ack 1", "> F. 3001:3001(0) ack 1 <nop,nop>"):
        assert sent(text) == ([text], ())


def test_a_long_packet_is_cut_at_smss() -> None:
    assert sent("> P. 1:3001(3000) ack 1 <nop>") == (
        ["> . 1:1001(1000) ack 1 <nop>", "> . 1001:2001(1000) ack 1 <nop>", "> P. 2001:3001(1000) ack 1 <nop>"],
        (CUT,),
    )
    assert sent("> . 1:1002(1001) ack 1") == (["> . 1:1001(1000) ack 1", "> . 1001:1002(1) ack 1"], (CUT,))
    assert sent("> FP. 1001:3001(2000) ack 1")[0] == ["> . 1001:2001(1000) ack 1", "> FP. 2001:3001(1000) ack 1"]


def test_a_packet_is_not_cut_where_the_peer_takes_none_so_short() -> None:
    assert sent("> . 1:1001(1000)", smss=63)[0] == ["> . 1:1001(1000)"]


def test_the_window_of_a_packet_is_dropped_and_none_is_invented() -> None:
    assert sent("> S. 0:0(0) ack 1 win 65535 <...>") == (["> S. 0:0(0) ack 1 <...>"], (WINDOW,))


PUSHES = [
    # The last octet that is queued.
    ("> . 2001:3001(1000) ack 1", 200, "> P. 2001:3001(1000) ack 1"),
    ("> F. 2001:3001(1000) ack 1", 200, "> FP. 2001:3001(1000) ack 1"),
    # Octets in the midst of a write, and none at all.
    ("> P. 1:1001(1000) ack 1", 200, "> . 1:1001(1000) ack 1"),
    ("> P. 3001:3001(0) ack 1", 200, "> . 3001:3001(0) ack 1"),
    # The end of an earlier write, when more is queued for longer than the tolerance; else nobody knows.
    ("> P. 2001:2501(500) ack 1", 205, "> . 2001:2501(500) ack 1"),
    ("> P. 2001:2501(500) ack 1", 204, "> P. 2001:2501(500) ack 1"),
    ("> . 2001:2501(500) ack 1", 100, "> . 2001:2501(500) ack 1"),
    ("> P. 2001:2501(500) ack 1", None, "> P. 2001:2501(500) ack 1"),
    # No flag P on a SYN or an RST.
    ("> SP. 0:0(0) ack 1", 200, "> SP. 0:0(0) ack 1"),
    ("> RP. 1:1(0)", 200, "> RP. 1:1(0)"),
]


@pytest.mark.parametrize(("text", "ms", "expected"), PUSHES, ids=range(len(PUSHES)))
def test_p_stands_on_the_last_octet_that_is_queued(text: str, ms: int | None, expected: str) -> None:
    packets, changes = sent(text, None if ms is None else ms * MS)
    assert (packets, changes) == ([expected], () if text == expected else (PUSH,))


def test_smss_is_the_lesser_mss() -> None:
    def smss(options: str) -> int:
        return script_smss_from_first_syn(
            parse_items_until_syntax_error(f"0 > . 1:1(0) <mss 5>\n0 < S 0:0(0) win 1 {options}").items, 1460
        )

    assert [smss(it) for it in ("", "<mss 1000>", "<mss 9000>", "<nop,mss 7,mss 8>")] == [536, 1000, 1460, 7]
    assert smss("<eol,mss 1000>") == 536
    assert script_smss_from_first_syn((), 1460) == 1460


def test_moments_and_writes_are_counted_up() -> None:
    calls = "write(4, ..., 9) = 9", "write(4, ..., 9) = -1 EAGAIN", "write(4, ..., 9) = 5", "close(4) = 0"
    text = f"1 {calls[0]}\n+.5 {calls[1]}\n+0~+1 > . 1:1(0)\n+1 {calls[2]}\n3 {calls[3]}\n+0 `x`\n* > . 1:1(0)"
    items = parse_items_until_syntax_error(text).items
    moments = fixed_moments_of_items(items)
    assert moments == [1_000_000, 1_500_000, None, None, 3_000_000, 3_000_000, None]
    first = (Write(10, 1_000_000),)
    both = (*first, Write(15, None))
    assert write_calls_before_each_item(items, moments) == [(), first, first, first, both, both, both]


ASSERTED: list[tuple[str, list[str], list[str]]] = [
    (" assert tcpi_snd_cwnd == 10, tcpi_snd_cwnd ", ["tcpi_snd_cwnd == 10"], []),
    ("assert tcpi_snd_cwnd == 10, 'cwnd=%d' % tcpi_snd_cwnd", ["tcpi_snd_cwnd == 10"], []),
    (
        "\n  assert tcpi_unacked == 0\n  assert (tcpi_ca_state) == 4\n",
        ["tcpi_unacked == 0", "tcpi_ca_state == TCP_CA_Loss"],
        [],
    ),
    ("assert tcpi_ca_state == TCP_CA_Recovery; print(1)", ["tcpi_ca_state == TCP_CA_Recovery"], ["other code"]),
    ("assert tcpi_ca_state == TCP_CA_Open", ["tcpi_ca_state == TCP_CA_Open"], []),
    ("assert tcpi_ca_state == TCP_CA_CWR", [], ["tcpi_ca_state"]),
    ("assert tcpi_unacked == 2", [], ["tcpi_unacked"]),
    ("assert tcpi_snd_cwnd >= 2", [], ["tcpi_snd_cwnd"]),
    ("assert tcpi_snd_cwnd == True", [], ["tcpi_snd_cwnd"]),
    ("assert tcpi_rto == 200000 and tcpi_rtt < 5", [], ["tcpi_rto and tcpi_rtt"]),
    ("assert x == 1", [], ["other assertions"]),
    ("assert tcpi_snd_cwnd ==", [], ["other code"]),
    ("a\0b", [], ["other code"]),
    ("(" * 300, [], ["other code"]),
    ("-" * 60_000 + "1", [], ["other code"]),
    ("1+" * 30_000 + "1", [], ["other code"]),
    ("assert '\\d'", [], ["other assertions"]),
    ("", [], []),
]


@pytest.mark.parametrize(("code", "compared", "others"), ASSERTED, ids=range(len(ASSERTED)))
@pytest.mark.filterwarnings("error")
def test_code_is_read_and_never_run(code: str, compared: list[str], others: list[str]) -> None:
    found = parse_assertions(code)
    assert ([str(it) for it in found.assertions], list(found.others)) == (compared, others)


def test_an_assertion_becomes_a_comment_of_a_fixed_form_and_back() -> None:
    for name, value in (("tcpi_snd_cwnd", "10"), ("tcpi_unacked", "0"), ("tcpi_ca_state", "TCP_CA_Loss")):
        assertion = Assertion(name, value)
        assert assertion_comment(assertion) == f"// asserts {name} == {value}"
        assert assertion_in_comment(f"\t {assertion_comment(assertion)}\r") == assertion
    for line in ("// asserts tcpi_rto == 1", "// asserts tcpi_unacked == 1", "x // asserts tcpi_unacked == 0", ""):
        assert assertion_in_comment(line) is None
