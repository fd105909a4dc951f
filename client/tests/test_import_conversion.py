"""Imports of each construct by itself: what comes in its place, what is counted, and what isn't imported."""

import pytest

from pdsuite.imports.conversion import ImportSource, Imported, NotImported, convert_script
from pdsuite.imports.findings import Heading
from pdsuite.scripts.settings import Value
from pdsuite.scripts.text import UnfitTextError

OPEN = """0 socket(..., SOCK_STREAM, IPPROTO_TCP) = 3
+0 bind(3, ..., ...) = 0
+0 listen(3, 1) = 0
+0 < S 0:0(0) win 32792 <mss 1000,sackOK,nop,nop,nop,wscale 7>
+0 > S. 0:0(0) ack 1 <...>
+.1 < . 1:1(0) ack 1 win 257
+0 accept(3, ..., ...) = 4
"""


def came(text: str, own: dict[str, Value] | None = None, keep: bool = False) -> Imported | NotImported:
    """Converts a script that has no file beside it."""

    def load(path: str) -> str:
        raise UnfitTextError("No such file or directory")

    return convert_script(ImportSource(text, own, load), keep)


def imported(text: str, own: dict[str, Value] | None = None, keep: bool = False) -> Imported:
    """A script that is imported."""
    found = came(text, own, keep)
    assert isinstance(found, Imported), found
    return found


def counted(script: Imported) -> list[tuple[Heading, str]]:
    """The findings about a script, each by its heading and its words."""
    return [(it.heading, it.words) for it in script.findings]


def reasons(text: str, own: dict[str, Value] | None = None) -> list[tuple[int, str]]:
    """Why a script isn't imported."""
    found = came(text, own)
    assert isinstance(found, NotImported), found
    return [(it.line, it.words) for it in found.reasons]


WITHOUT = ["", "\n", "// SPDX-License-Identifier: GPL-2.0\r\n\r\n", "/* a\n*/ --tolerance_usecs=5 // b", OPEN]


@pytest.mark.parametrize("text", WITHOUT, ids=range(len(WITHOUT)))
def test_a_script_of_this_language_stays_as_it_is(text: str) -> None:
    assert imported(text).text == text
    assert imported(text).settings == (
        ("abc_limit", 8),
        ("initial_window", "rfc6928"),
        ("min_rto_us", 200_000),
        ("recovery_algorithm", "rfc9937"),
        ("slow_start_after_idle", True),
        ("wscale", 7),
    )
    assert imported(text, {"mss": 1000}).settings == (("mss", 1000),)


REPLACED = [
    # Set-up and the header.
    (
        "`sysctl -q net.ipv4.tcp_sack=0\nsysctl net.ipv4.tcp_frto=2 net.ipv4.tcp_ecn=0`\n",
        "// dropped: `sysctl -q net.ipv4.tcp_sack=0\n"
        "// dropped: sysctl net.ipv4.tcp_frto=2 net.ipv4.tcp_ecn=0`\n"
        "// why: set-up, which is read and never run\n"
        "// why: settings in pdsuite.toml: sack\n"
        "// why: this sender hasn't: F-RTO\n"
        "// why: as this sender has it: no ECN\n",
    ),
    (
        "--local_ip=10.0.0.1 --tolerance_usecs=10 // a\n",
        "// dropped: --local_ip=10.0.0.1\n// why: where packets are sent\n --tolerance_usecs=10 // a\n",
    ),
    ("--mss=1000 // a\n", "// dropped: --mss=1000\n// why: settings in pdsuite.toml: mss\n // a\n"),
    # Commands and code in the midst; their time goes to the event after them.
    (
        "\t+0 `ss -t` // a\n+.2 close(4) = 0",
        "\t// dropped: +0 `ss -t`\n\t// why: commands, which are never run\n // a\n+.2 close(4) = 0",
    ),
    (
        "+.1 `a\r\nb`\n+0.25 close(4) = 0 // c\n+1 close(3) = 0\n",
        "// dropped: +.1 `a\r\n// dropped: b`\n// why: commands, which are never run\n"
        "+0.35 close(4) = 0\n// changed: +0.25 close(4) = 0\n// why: the time of what was dropped before it\n"
        " // c\n+1 close(3) = 0\n",
    ),
    (
        "2 %{ assert tcpi_unacked == 0 }%\n+.5 %{ a }%\n+.5~+1 > . 1:1(0) ack 1\n",
        "// dropped: 2 %{ assert tcpi_unacked == 0 }%\n// asserts tcpi_unacked == 0\n"
        "// dropped: +.5 %{ a }%\n// not compared: other code\n"
        "3~3.5 > . 1:1(0) ack 1\n// changed: +.5~+1 > . 1:1(0) ack 1\n// why: the time of what was dropped before it\n",
    ),
    (
        "+1 `a`\n9 close(4) = 0\n`b`\n",
        "// dropped: +1 `a`\n// why: commands, which are never run\n9 close(4) = 0\n"
        "// dropped: `b`\n// why: commands, which are never run\n",
    ),
    ("+1 `a`", "// dropped: +1 `a`\n// why: commands, which are never run"),
    # The send buffer.
    (
        "  +.1 setsockopt(4, SOL_SOCKET, SO_SNDBUF, [9000000], 4) = 0\n+0 write(4, ..., 262144) = 262144\n",
        "  // dropped: +.1 setsockopt(4, SOL_SOCKET, SO_SNDBUF, [9000000], 4) = 0\n"
        "  // why: SO_SNDBUF: the default holds all that is written\n"
        "+0.1 write(4, ..., 262144) = 262144\n// changed: +0 write(4, ..., 262144) = 262144\n"
        "// why: the time of what was dropped before it\n",
    ),
    # Calls that others stand for.
    (
        "+.1 send(4, ..., 1000, 0) = -1 EAGAIN (Resource temporarily unavailable) // a\n",
        "+.1 write(4, ..., 1000) = -1 EAGAIN (Resource temporarily unavailable)\n"
        "// changed: +.1 send(4, ..., 1000, 0) = -1 EAGAIN (Resource temporarily unavailable)\n"
        "// why: send without flags is written as write\n // a\n",
    ),
    (
        "\t+0 `a`\n\t+.5 sendto(4, ..., 7, 0, ..., ...)=7\n",
        "\t// dropped: +0 `a`\n\t// why: commands, which are never run\n"
        "\t+.5 write(4, ..., 7)=7\n\t// changed: +.5 sendto(4, ..., 7, 0, ..., ...)=7\n"
        "\t// why: sendto without flags is written as write\n",
    ),
    (
        "+1 `a`\n+.5 sendmsg(4, {msg_name(...)=...,\n    msg_iov(1)=[{..., 2500}], msg_flags=0}, 0) = 2500\n"
        "+0 > P. 1:2501(2500) ack 1\n",
        "// dropped: +1 `a`\n// why: commands, which are never run\n"
        "+1.5 write(4, ..., 2500) = 2500\n// changed: +.5 sendmsg(4, {msg_name(...)=...,\n"
        "// changed:     msg_iov(1)=[{..., 2500}], msg_flags=0}, 0) = 2500\n"
        "// why: sendmsg without flags is written as write; the time of what was dropped before it\n"
        "+0 > . 1:1001(1000) ack 1\n+0 > . 1001:2001(1000) ack 1\n+0 > P. 2001:2501(500) ack 1\n"
        "// changed: +0 > P. 1:2501(2500) ack 1\n// why: packets longer than SMSS are cut at it\n",
    ),
    # Packets.
    (
        "+0 write(4, ..., 2500) = 2500\n +.01 > P. 1:2001(2000) ack 1 win 9 // b\n",
        "+0 write(4, ..., 2500) = 2500\n +.01 > . 1:1001(1000) ack 1\n   +0 > . 1001:2001(1000) ack 1\n"
        " // changed: +.01 > P. 1:2001(2000) ack 1 win 9\n"
        " // why: the value of the window isn't compared; packets longer than SMSS are cut at it; "
        "flag P as this sender sets it\n // b\n",
    ),
    (
        "+0 write(4, ..., 1500) = 1500 * > . 1:1501(1500) ack 1",
        "+0 write(4, ..., 1500) = 1500 * > . 1:1001(1000) ack 1\n* > P. 1001:1501(500) ack 1\n"
        "// changed: * > . 1:1501(1500) ack 1\n"
        "// why: packets longer than SMSS are cut at it; flag P as this sender sets it",
    ),
]


@pytest.mark.parametrize(("text", "expected"), REPLACED, ids=range(len(REPLACED)))
def test_what_is_dropped_or_changed_stands_in_its_place(text: str, expected: str) -> None:
    begin = "" if text[0] in "`-" else OPEN
    assert imported(begin + text).text == begin + expected


def test_a_packet_within_other_lines_leaves_all_else_where_it_was() -> None:
    text = OPEN + "+1 `a`\n+0 /* b\n*/ > . 1:1(0) /* c */ ack 1 win 5 +1 close(4) = 0"
    assert imported(text).text == OPEN + (
        "// dropped: +1 `a`\n// why: commands, which are never run\n"
        "+1 > . 1:1(0) ack 1\n// changed: +0 /* b\n// changed: */ > . 1:1(0) /* c */ ack 1 win 5\n"
        "// why: the value of the window isn't compared; the time of what was dropped before it\n"
        " +1 close(4) = 0"
    )


def test_no_call_blocks_so_sockets_that_do_not_are_as_others() -> None:
    for kind in ("SOCK_STREAM|SOCK_NONBLOCK", "SOCK_NONBLOCK | SOCK_STREAM"):
        script = imported(OPEN.replace("SOCK_STREAM", kind))
        assert script.text == (
            f"0 socket(..., SOCK_STREAM, IPPROTO_TCP) = 3\n// changed: 0 socket(..., {kind}, IPPROTO_TCP) = 3\n"
            f"// why: SOCK_NONBLOCK is dropped: no call blocks here\n{OPEN.partition(chr(10))[2]}"
        )
        assert counted(script) == [(Heading.CALLS, "SOCK_NONBLOCK is dropped: no call blocks here")]
        assert script.changed == 0


def test_calls_are_changed_where_packets_are_kept() -> None:
    text = OPEN + "+0 send(4, ..., 2000, 0) = 2000\n+0 > P. 1:2001(2000) ack 1\n"
    expected = OPEN + (
        "+0 write(4, ..., 2000) = 2000\n// changed: +0 send(4, ..., 2000, 0) = 2000\n"
        "// why: send without flags is written as write\n+0 > P. 1:2001(2000) ack 1\n"
    )
    assert imported(text, keep=True).text == imported(text, {"mss": 900}).text == expected


def test_what_was_done_is_counted() -> None:
    text = "`tc qdisc add dev tun0 root pfifo`\n" + OPEN + "+0 > P. 1:3001(3000) win 4\n+0 %{ assert tcpi_rto == 1 }%"
    script = imported(text)
    assert counted(script) == [
        (Heading.SETUP, "queues of the device"),
        (Heading.CHANGED, "the value of the window isn't compared"),
        (Heading.CHANGED, "packets longer than SMSS are cut at it"),
        (Heading.CHANGED, "flag P as this sender sets it"),
        (Heading.NOT_COMPARED, "tcpi_rto"),
    ]
    assert script.changed == 1


@pytest.mark.parametrize("own", [None, {"mss": 900}])
def test_packets_may_be_kept(own: dict[str, Value] | None) -> None:
    text = OPEN + "+0 > P. 1:3001(3000) ack 1 win 4\n"
    assert imported(text, own, keep=own is None).text == text
    assert imported(text, own, keep=own is None).changed == 0


def test_a_script_with_settings_of_its_own_may_be_offered_timestamps() -> None:
    text = OPEN.replace("sackOK", "sackOK,TS val 1 ecr 0")
    assert reasons(text) == [(4, "timestamps")]
    assert imported(text, {}).text == text
    assert imported("`sysctl net.ipv4.tcp_timestamps=0`\n" + text).text.endswith(text)


def test_the_mss_of_the_header_is_a_setting() -> None:
    text = "--mss=64 --mss=0900\n" + OPEN
    assert dict(imported(text).settings)["mss"] == 900
    assert imported(text, {"mss": 800}).settings == (("mss", 800),)
    # No segment is longer.
    script = imported(text + "+0 write(4, ..., 1000) = 1000\n+0 > P. 1:1001(1000) ack 1\n").text
    assert "+0 > . 1:901(900) ack 1\n+0 > P. 901:1001(100) ack 1\n" in script


LEFT = [
    ("`sysctl -q net.ipv4.tcp_ecn=1`", 1, "ECN"),
    ("`sysctl -q net.ipv4.tcp_slow_start_after_idle=2`", 1, "a value that isn't read"),
    ("`ip link set dev tun0 mtu 1000`", 1, "MTU"),
    ("`ip route change default mtu 1000 initcwnd 10`", 1, "a command of set-up"),
    ("`./defaults.sh`", 1, "a command of set-up"),
    ("--mtu=1500", 1, "MTU"),
    ("--ip_version=ipv6", 1, "IPv6"),
    ("--tolerance_usecs=1000001", 1, "an option of the header"),
    ("--send_omit_free", 1, "an option of the header"),
    ("--mss=63", 1, "no value of mss, which takes 64 to 65,495 octets"),
    ("--mss=65496", 1, "no value of mss, which takes 64 to 65,495 octets"),
    ("--mss", 1, "no value of mss, which takes 64 to 65,495 octets"),
    ("0 close(3) = 0\n--tolerance_usecs=1", 2, "no script of this language"),
    (OPEN + "+0 `iptables -A INPUT -j DROP`", 8, "filters"),
    (OPEN + "+0 `sysctl -q net.ipv4.tcp_sack=1`", 8, "a setting in the midst"),
    (OPEN + "+.1 `a`\n* > . 1:1(0) ack 1", 9, "a time of a command that no event can take"),
    (OPEN + "+0~+.1 `a`", 8, "a time of a command that no event can take"),
    (OPEN + "* %{ a }%", 8, "a time of a command that no event can take"),
    (OPEN + "+0 < . 1:11(10) ack 1 win 9", 8, "data from the peer"),
    (OPEN + "+0 < S 0:0(0) win 9", 8, "a second SYN"),
    (OPEN + "+0 < E. 1:1(0) ack 1 win 9", 8, "ECN"),
    (OPEN + "+0 < U. 1:1(0) ack 1 win 9", 8, "urgent data"),
    (OPEN + "* < . 1:1(0) ack 1 win 9", 8, "a packet that arrives or a call, with no fixed time"),
    (OPEN + "+0 > . 2147483648:2147483648(0)", 8, "a number over its limit"),
    (OPEN + "+3601 close(4) = 0", 8, "a time above an hour"),
    (OPEN + "+0...1 write(4, ..., 1) = 1", 8, "a blocking call"),
    (OPEN + "+0 write(4, ..., 262145) = 262145", 8, "a number over its limit"),
    (OPEN + "+0 socket(..., SOCK_STREAM, IPPROTO_TCP) = 5", 8, "a second socket"),
    (OPEN + "+0 setsockopt(4, SOL_TCP, TCP_FASTOPEN, [1], 4) = 0", 8, "Fast Open"),
    (OPEN + "+0 setsockopt(4, SOL_TCP, TCP_MD5SIG, ..., 4) = 0", 8, "MD5"),
    (OPEN + "+0 setsockopt(4, SOL_TCP, TCP_NODELAY, [2], 4) = 0", 8, "setsockopt TCP_NODELAY"),
    (OPEN + "+0 setsockopt(4, SOL_SOCKET, SO_SNDBUF, [1], 4) = -1", 8, "setsockopt SO_SNDBUF"),
    (OPEN + "+0 fcntl(4, F_GETFL) = 2", 8, "fcntl F_GETFL"),
    (OPEN + "+0 read(4, ..., 9) = 9", 8, "the call read"),
    (OPEN + "+0 send(4, ..., 9, MSG_MORE) = 9", 8, "send with MSG_MORE"),
    (OPEN + "+0 send(4, ..., n, 0) = 9", 8, "the call write"),
    (OPEN + "+0 send(4, ..., 262145, 0) = 262145", 8, "a number over its limit"),
    (OPEN + "+0...1 send(4, ..., 1, 0) = 1", 8, "a blocking call"),
    (OPEN + "+0 sendto(4, ..., 9, MSG_FASTOPEN, ..., ...) = 9", 8, "Fast Open"),
    (OPEN + "+0 sendto(4, ..., 9, 0, {sa_family=AF_INET}, 16) = 9", 8, "the call sendto"),
    (OPEN + "+0 sendmsg(4, {msg_name(...)=..., msg_iov(2)=[{..., 1}, {..., 1}]}, 0) = 2", 8, "the call sendmsg"),
    (OPEN + "+0 sendmsg(4, {msg_name(...)=..., msg_iov(1)=[{..., 1}]}, MSG_MORE) = 1", 8, "sendmsg with MSG_MORE"),
    ("0 socket(..., SOCK_STREAM|SOCK_CLOEXEC, IPPROTO_TCP) = 3", 1, "the call socket"),
    ("0 connect(3, ..., ...) = 0\n0 < S. 0:0(0) ack 1 win 9", 1, "connect"),
    ("0 < . 1:1(0) win 9", 1, "a connection that doesn't begin with the peer's SYN"),
    ("0 < S 0:0(0) win 9 <TS val 1 ecr 0>", 1, "timestamps"),
    ("0 < S 0:0(0) win 9 <mss 63>", 1, "an MSS below 64"),
    ("0 < SEWA 0:0(0) win 9", 1, "AccECN"),
    ("0 < SX 0:0(0) win 9", 1, "no script of this language"),
    (OPEN + "+0 < . 1:1(0) ack 1 win 9 <md5 00>", 8, "MD5"),
]


@pytest.mark.parametrize(("text", "line", "words"), LEFT, ids=[it[2] for it in LEFT])
def test_what_this_profile_does_not_run_is_not_imported(text: str, line: int, words: str) -> None:
    assert reasons(text) == [(line, words)]


def test_of_each_kind_of_reason_the_first_is_told_in_the_order_of_lines() -> None:
    text = "0 connect(3, ..., ...) = 0\n0 read(3, ..., 9) = 9\n0 connect(3, ..., ...) = 0\n0 f() = ?"
    assert reasons(text) == [(1, "connect"), (2, "the call read"), (4, "the result ?")]


def test_a_send_buffer_that_matters_is_not_imported() -> None:
    text = OPEN + "+0 setsockopt(4, SOL_SOCKET, SO_SNDBUF, [1], 4) = 0\n" + "+0 write(4, ..., 200000) = 200000\n" * 2
    assert reasons(text) == [(8, "SO_SNDBUF, where more is written than the default holds")]
    assert imported(text, {"sndbuf": 400_000}).text.count("dropped") == 1


def test_an_import_stays_within_the_limits_of_a_text() -> None:
    assert reasons(OPEN + "+0 > . 1:5000001(5000000) ack 1\n") == [(8, "more than 4,096 events")]
    packets = "".join(f"+0 > . 1:{1001 + number}({1000 + number}) ack 1\n" for number in range(1, 1_300))
    assert [words for _, words in reasons(OPEN + packets)] == ["more than 4,096 lines"]
    assert [words for _, words in reasons("+0 close(3)=0 " * 4_097)] == ["more than 4,096 events"]
