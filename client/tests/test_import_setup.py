"""Set-up that is read and never run: shell commands, what their names mean, and the settings that they lead to."""

import re

import pytest

from pdsuite.imports.kernel import ALIKE, DROPPED_COMMANDS, FEATURES, REFUSED_COMMANDS, SETTINGS, Use
from pdsuite.imports.kernel import meaning_of_command, meaning_of_switch
from pdsuite.imports.setup import (
    CommandPlace,
    ParsedCommand,
    Setup,
    parse_each_shell_command_in_text,
    setup_from_kernel_header_lines_then_own,
    shift_count_for_buffer,
)
from pdsuite.imports.shell import Defaults, Metric, Other, SetupCommand, Switch, setup_commands_in
from pdsuite.scripts.settings import Value
from pdsuite.scripts.text import UnfitTextError
from tests.helpers import TOP

COMMANDS: list[tuple[str, list[SetupCommand]]] = [
    ("sysctl -q a.b=1 c.d=2", [Switch("a.b", "1"), Switch("c.d", "2")]),
    ("sysctl -e -q net/ipv4/tcp_x=1", [Switch("net.ipv4.tcp_x", "1")]),
    ("sysctl -w net/ipv4/conf/eth0.1/x=1", [Switch("net.ipv4.conf.eth0/1.x", "1")]),
    ('sysctl -q a="1 2\t$((3*4*5))" > /dev/null 2>&1', [Switch("a", "1 2 60")]),
    ("sysctl -q a=$(( 2 * 3 ))", [Switch("a", "6")]),
    ("sysctl -q a=1; sysctl -q b=2 && sysctl -q c=3", [Switch("a", "1"), Switch("b", "2"), Switch("c", "3")]),
    ("./set_sysctls.py /proc/sys/a/b=1 \\\n /proc/sys/c=2", [Switch("a.b", "1"), Switch("c", "2")]),
    ("ip route change 192.0.2.0/24 via 10.0.0.1 dev tun0 initcwnd 3", [Metric("initcwnd", "3")]),
    ("ip ro replace default dev tun0 rto_min 1s initcwnd 4", [Metric("rto_min", "1s"), Metric("initcwnd", "4")]),
    ("ip route change default initcwnd 2 &> /dev/null", [Metric("initcwnd", "2")]),
    ("ip route change default initcwnd 2 2> /dev/null", [Metric("initcwnd", "2")]),
    ("ip route change default initcwnd 2 > /dev/null", [Metric("initcwnd", "2")]),
    ("ip route change default initcwnd 1 >/dev/null 2>&1", [Metric("initcwnd", "1")]),
    ("ip route change default initcwnd '2'>/dev/null", [Metric("initcwnd", "2")]),
    ("sysctl -q a='1 2>&1'", [Switch("a", "1 2>&1")]),
    ("ip route change default initcwnd 2 1>/dev/null 2>>/dev/null", [Metric("initcwnd", "2")]),
    ("./defaults.sh\n", [Defaults("./defaults.sh")]),
    ("../common/defaults.sh", [Defaults("../common/defaults.sh")]),
    # A command that isn't read keeps its words, and nothing of it counts.
    ("sysctl net.ipv4.tcp_sack", [Other(("sysctl", "net.ipv4.tcp_sack"))]),
    ("sysctl -q a=1 b", [Other(("sysctl", "-q", "a=1", "b"))]),
    ("sysctl -p file", [Other(("sysctl", "-p", "file"))]),
    ("sysctl -q a=$X", [Other(("sysctl", "-q", "a=$X"))]),
    ("sysctl -q a='$((1*2))'", [Other(("sysctl -q a='$((1*2))'",))]),
    ("sysctl -q 'a=1", [Other(("sysctl -q 'a=1",))]),
    ("sysctl -q a=1 || true", [Other(("sysctl -q a=1 || true",))]),
    ("echo 0 > /proc/sys/a", [Other(("echo 0 > /proc/sys/a",))]),
    ("set_sysctls.py a=1", [Other(("set_sysctls.py", "a=1"))]),
    (
        "ip route change default mtu 1400 initcwnd 3",
        [Other(tuple("ip route change default mtu 1400 initcwnd 3".split()))],
    ),
    ("ip route show", [Other(("ip", "route", "show"))]),
    ("ip route add default dev tun0", [Other(("ip", "route", "add", "default", "dev", "tun0"))]),
    ("/etc/defaults.sh", [Other(("/etc/defaults.sh",))]),
    ("./defaults.sh -x", [Other(("./defaults.sh", "-x"))]),
    ("  \n;\n", []),
]


@pytest.mark.parametrize(("text", "commands"), COMMANDS, ids=[text[:30] for text, _ in COMMANDS])
def test_of_commands_those_alone_are_read_that_say_settings(text: str, commands: list[SetupCommand]) -> None:
    assert list(setup_commands_in(text)) == commands


MEANINGS = [
    ("net.ipv4.tcp_sack", "0", Use.SETTING, "sack"),
    ("net.ipv4.tcp_congestion_control", "cubic", Use.FEATURE, "congestion control by name"),
    ("net.ipv4.tcp_early_retrans", "3", Use.FEATURE, "TLP"),
    ("net.ipv4.tcp_slow_start_after_idle", "0", Use.SETTING, "slow_start_after_idle"),
    ("net.ipv4.tcp_slow_start_after_idle", "1", Use.SETTING, "slow_start_after_idle"),
    ("net.ipv4.tcp_ecn", "1", Use.REFUSED, "ECN"),
    ("net.ipv4.tcp_reordering", "5", Use.REFUSED, "another number of duplicates"),
    ("net.ipv4.tcp_base_mss", "512", Use.REFUSED, "MTU"),
    ("kernel.x", "1", Use.REFUSED, "the switch kernel.x"),
]


@pytest.mark.parametrize(("name", "value", "use", "words"), MEANINGS)
def test_a_switch_has_one_meaning(name: str, value: str, use: Use, words: str) -> None:
    found = meaning_of_switch(name, value)
    assert (found.use, found.words) == (use, words)


@pytest.mark.parametrize(
    ("words", "use", "about"),
    [
        ("ip tcp_metrics flush all", Use.FEATURE, "metrics of earlier connections"),
        ("tc qdisc add dev tun0 root pfifo", Use.FEATURE, "queues of the device"),
        ("tc qdisc add dev tun0 root netem loss 1%", Use.REFUSED, "filters"),
        ("iptables -A INPUT", Use.REFUSED, "filters"),
        ("ip link set dev tun0 mtu 1400", Use.REFUSED, "MTU"),
        ("/tmp/sysctl_restore_${PPID}.sh", Use.FEATURE, "putting the host back"),
    ],
)
def test_a_command_that_is_no_switch_may_be_known(words: str, use: Use, about: str) -> None:
    found = meaning_of_command(tuple(words.split()))
    assert found is not None and (found.use, found.words) == (use, about)


def no_file(path: str) -> str:
    raise UnfitTextError("No such file or directory")


def looked(text: str, place: CommandPlace = CommandPlace.SETUP, file: str | None = None) -> ParsedCommand:
    """Parses the commands of a text; `file` is the text of a defaults.sh beside it, if there is one."""

    def load(path: str) -> str:
        return no_file(path) if file is None else file

    return parse_each_shell_command_in_text(text, 7, place, load)


def came_of(text: str, own: dict[str, Value] | None = None, smss: int = 1000, file: str | None = None) -> Setup:
    """The set-up that the commands of a text lead to."""
    return setup_from_kernel_header_lines_then_own(looked(text, file=file).lines, smss, {}, own)


KERNEL = {
    "initial_window": "rfc6928",
    "abc_limit": 8,
    "recovery_algorithm": "rfc9937",
    "slow_start_after_idle": True,
    "min_rto_us": 200_000,
    "wscale": 7,
}


def test_a_kernels_settings_come_first() -> None:
    assert came_of("").settings == KERNEL
    assert came_of("").has_timestamps


def test_a_script_with_settings_of_its_own_has_none_of_a_kernel() -> None:
    assert came_of("", {"mss": 900}).settings == {"mss": 900}
    assert not came_of("", {}).has_timestamps
    assert came_of("sysctl net.ipv4.tcp_sack=0", {"sack": True}).settings == {"sack": True}
    assert came_of("sysctl net.ipv4.tcp_rmem='1 2 32768'", {}).settings == {"wscale": 0}


# M, and floor(log2 M) - 15 within 0 and 14, worked out by hand: 2^22 = 4,194,304 and 2^23 = 8,388,608.
@pytest.mark.parametrize(
    ("octets", "count"),
    [(0, 0), (1, 0), (65_535, 0), (65_536, 1), (6_291_456, 7), (8_388_607, 7), (8_388_608, 8), (15_728_640, 8)],
)
def test_the_shift_count_follows_the_greatest_buffer(octets: int, count: int) -> None:
    assert shift_count_for_buffer(octets) == count


@pytest.mark.parametrize(("octets", "count"), [(2**28, 13), (2**29, 14), (2**30, 14), (2**62, 14)])
def test_the_shift_count_is_at_most_14(octets: int, count: int) -> None:
    assert shift_count_for_buffer(octets) == count


SETUPS: list[tuple[str, dict[str, Value]]] = [
    ('sysctl net.ipv4.tcp_rmem="4096 540000 $((15*1024*1024))"', {"wscale": 8}),
    ('sysctl net.ipv4.tcp_rmem="1 2 65536"', {"wscale": 1}),
    ('sysctl net.ipv4.tcp_rmem="1 2 65536" net.core.rmem_max=8388608', {"wscale": 8}),
    ("sysctl net.core.rmem_max=212992", {"wscale": 7}),
    ("sysctl net.core.rmem_max=16777216", {"wscale": 9}),
    ("sysctl net.ipv4.tcp_sack=0", {"sack": False}),
    ("sysctl net.ipv4.tcp_sack=0\nsysctl net.ipv4.tcp_sack=1", {"sack": True}),
    ("sysctl net.ipv4.tcp_rto_min_us=5000", {"min_rto_us": 5_000}),
    ("sysctl net.ipv4.tcp_rto_max_ms=120000", {"max_rto_us": 120_000_000}),
    ("ip route change default rto_min 300ms", {"min_rto_us": 300_000}),
    ("ip route change default rto_min 2sec", {"min_rto_us": 2_000_000}),
    ("ip route change default initcwnd 10", {"initial_window": "rfc6928"}),
    ("ip route change default initcwnd 4", {"initial_window": "rfc5681"}),
    ("sysctl net.ipv4.tcp_slow_start_after_idle=0", {"slow_start_after_idle": False}),
    (
        "sysctl net.ipv4.tcp_slow_start_after_idle=0 net.ipv4.tcp_slow_start_after_idle=1",
        {"slow_start_after_idle": True},
    ),
]


@pytest.mark.parametrize(("text", "settings"), SETUPS, ids=[text for text, _ in SETUPS])
def test_set_up_becomes_settings(text: str, settings: dict[str, Value]) -> None:
    found = came_of(text)
    assert found.settings == {**KERNEL, **settings}
    assert found.reasons == ()


# Segments of RFC 6928: min(10, max(2, floor(14600 / SMSS))); of RFC 5681: 4 up to 1,095 octets, 3 up to 2,190, else 2.
@pytest.mark.parametrize(
    ("smss", "count", "word"),
    [(1460, 10, "rfc6928"), (1460, 3, "rfc5681"), (1095, 4, "rfc5681"), (2191, 6, "rfc6928"), (9000, 2, "rfc6928")],
)
def test_an_initial_window_is_a_number_of_segments(smss: int, count: int, word: str) -> None:
    text = f"ip route change default initcwnd {count}"
    assert came_of(text, smss=smss).settings["initial_window"] == word


REFUSED = [
    ("ip route change default initcwnd 5", "another initial window"),
    ("ip route change default initcwnd x", "another initial window"),
    ("ip route change default rto_min 300", "a value that isn't read"),
    ("ip route change default rto_min 0s", "no value of min_rto_us, which takes 1,000 to 60,000,000 microseconds"),
    (
        "sysctl net.ipv4.tcp_rto_max_ms=59999",
        "no value of max_rto_us, which takes 60,000,000 to 3,600,000,000 microseconds",
    ),
    ("sysctl net.ipv4.tcp_rmem=65536", "a value that isn't read"),
    ("sysctl net.ipv4.tcp_sack=2", "a value that isn't read"),
    ("sysctl net.ipv4.tcp_ecn=1", "ECN"),
    ("sysctl net.ipv4.tcp_unheard_of=1", "the switch net.ipv4.tcp_unheard_of"),
]


@pytest.mark.parametrize(("text", "words"), REFUSED)
def test_what_has_no_setting_is_a_reason(text: str, words: str) -> None:
    assert [(it.line, it.words) for it in came_of(text).reasons] == [(7, words)]


def test_a_defaults_sh_is_read_in_the_place_of_its_name() -> None:
    file = "#!/bin/bash\n# sysctl a=1\nsysctl -q net.ipv4.tcp_sack=0\n\nip tcp_metrics flush all > /dev/null 2>&1\n"
    assert came_of("./defaults.sh", file=file).settings["sack"] is False
    assert came_of("./defaults.sh\nsysctl net.ipv4.tcp_sack=1", file=file).settings["sack"] is True
    found = looked("./defaults.sh", file=file)
    assert found.words_for_parts_without_setting == found.shared.features == ("metrics of earlier connections",)
    assert [it.what for it in looked("./defaults.sh").reasons] == ["./defaults.sh (No such file or directory)"]
    assert [it.what for it in looked("./defaults.sh", file="./defaults.sh").reasons] == ["./defaults.sh"]


def test_a_comment_of_a_defaults_sh_does_not_go_on_in_the_next_line() -> None:
    for indent in ("", " \t"):
        found = came_of("./defaults.sh", file=f"{indent}# all \\\nsysctl net.ipv4.tcp_sack=0\n")
        assert found.settings["sack"] is False


def test_a_command_that_is_not_known_counts_in_set_up_and_is_dropped_in_the_midst() -> None:
    assert [it.words for it in looked("modprobe x").reasons] == ["a command of set-up"]
    assert looked("modprobe x", CommandPlace.MIDST).reasons == ()
    assert looked("modprobe x", CommandPlace.MIDST).words_for_parts_without_setting == (
        "commands, which are never run",
    )


@pytest.mark.parametrize(
    ("text", "words"),
    [
        ("sysctl net.ipv4.tcp_sack=0", ["a setting in the midst"]),
        ("ip route change default initcwnd 10", ["a setting in the midst"]),
        ("sysctl net.ipv4.tcp_ecn=1", ["ECN"]),
        ("sysctl net.ipv4.tcp_dsack=0", []),
        ("iptables -A INPUT", ["filters"]),
    ],
)
def test_nothing_is_set_in_the_midst(text: str, words: list[str]) -> None:
    assert [it.words for it in looked(text, CommandPlace.MIDST).reasons] == words


def names_below(heading: str) -> set[str]:
    """The names in the first column of the table below a heading of docs/IMPORT.md."""
    section = (TOP / "docs/IMPORT.md").read_text().split(f"### {heading}\n")[1].split("\n#")[0]
    rows = [line.split(" | ")[0] for line in section.splitlines() if line.startswith("| `")]
    return {name for row in rows for name in re.findall(r"`([^`]+)`", row)}


def test_the_manual_has_the_same_three_tables() -> None:
    features = {name for it in FEATURES for name in it.names}
    dropped = {" ".join(it) for it in DROPPED_COMMANDS}
    refused = {" ".join(it) for it in REFUSED_COMMANDS}
    assert names_below("Names with a setting") == {*SETTINGS, "initcwnd", "rto_min"}
    assert names_below("Features that this sender lacks") == features | dropped
    assert names_below("All others") == {*ALIKE, *refused}


def test_each_row_that_a_feature_names_is_one_of_the_measurements() -> None:
    headings = re.findall(r"^##+ (.*)$", (TOP / "docs/LINUX.md").read_text(), re.MULTILINE)
    assert {it.row for it in FEATURES if it.row} <= set(headings)
