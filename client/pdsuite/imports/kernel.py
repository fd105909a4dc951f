"""The meanings of a kernel's switches for this profile: the three tables of docs/IMPORT.md."""

from collections.abc import Mapping
from dataclasses import dataclass, field
from enum import Enum, auto


class Use(Enum):
    """How an import treats a switch or a command."""

    SETTING = auto()  # a setting of pdsuite.toml stands for it
    FEATURE = auto()  # a feature that this sender hasn't; it is dropped
    ALIKE = auto()  # this sender does the same anyway; it is dropped
    REFUSED = auto()  # the script isn't imported


@dataclass(frozen=True, slots=True)
class SwitchMeaning:
    """The meaning of a switch with its value, or of a command: its use, and the words for that."""

    use: Use
    words: str


@dataclass(frozen=True)
class _Feature:
    """A feature that this sender hasn't: its switches, and its row in docs/LINUX.md where there is one."""

    words: str
    names: tuple[str, ...]
    row: str = ""


@dataclass(frozen=True)
class _Alike:
    """A switch that at some values does what this sender does, and what it is at all others."""

    values: frozenset[str]
    words: str
    otherwise: str = field(default="")


def _names_with_ipv4_prefix(*names: str) -> tuple[str, ...]:
    return tuple(f"net.ipv4.{name}" for name in names)


# Switches with a setting, and its key.
SETTINGS: Mapping[str, str] = {
    "net.ipv4.tcp_rmem": "wscale",
    "net.core.rmem_max": "wscale",
    "net.ipv4.tcp_sack": "sack",
    "net.ipv4.tcp_slow_start_after_idle": "slow_start_after_idle",
    "net.ipv4.tcp_rto_min_us": "min_rto_us",
    "net.ipv4.tcp_rto_max_ms": "max_rto_us",
}

FEATURES: tuple[_Feature, ...] = (
    _Feature(
        "congestion control by name",
        _names_with_ipv4_prefix("tcp_congestion_control", "tcp_allowed_congestion_control"),
        "The congestion window",
    ),
    _Feature("RACK", _names_with_ipv4_prefix("tcp_recovery"), "Loss by time"),
    _Feature("TLP", _names_with_ipv4_prefix("tcp_early_retrans"), "Tail loss probe"),
    _Feature("F-RTO", _names_with_ipv4_prefix("tcp_frto"), "After an expiry: F-RTO"),
    _Feature("DSACK", _names_with_ipv4_prefix("tcp_dsack"), "A FIN sent again"),
    _Feature("FACK", _names_with_ipv4_prefix("tcp_fack")),
    _Feature("pacing", _names_with_ipv4_prefix("tcp_pacing_ss_ratio", "tcp_pacing_ca_ratio")),
    _Feature(
        "offload",
        _names_with_ipv4_prefix(
            "tcp_tso_win_divisor",
            "tcp_min_tso_segs",
            "tcp_tso_rtt_log",
            "tcp_limit_output_bytes",
            "tcp_autocorking",
        ),
        "PSH",
    ),
    _Feature(
        "buffers",
        (
            *_names_with_ipv4_prefix("tcp_wmem", "tcp_mem", "tcp_notsent_lowat"),
            "net.core.wmem_max",
            "net.core.wmem_default",
        ),
        "The send buffer",
    ),
    _Feature(
        "the value of the window",
        (
            *_names_with_ipv4_prefix("tcp_moderate_rcvbuf", "tcp_adv_win_scale", "tcp_app_win", "tcp_shrink_window"),
            "net.core.rmem_default",
        ),
        "The value of the window",
    ),
    _Feature("cookies", _names_with_ipv4_prefix("tcp_syncookies", "tcp_fastopen", "tcp_fastopen_key")),
    _Feature(
        "metrics of earlier connections", _names_with_ipv4_prefix("tcp_no_metrics_save", "tcp_no_ssthresh_metrics_save")
    ),
    _Feature(
        "giving up",
        _names_with_ipv4_prefix(
            "tcp_syn_retries", "tcp_synack_retries", "tcp_retries1", "tcp_retries2", "tcp_orphan_retries"
        ),
    ),
    _Feature(
        "limits on ACKs",
        _names_with_ipv4_prefix("tcp_invalid_ratelimit", "tcp_challenge_ack_limit"),
        "How often an ACK answers",
    ),
)

ALIKE: Mapping[str, _Alike] = {
    "net.ipv4.tcp_ecn": _Alike(frozenset({"0"}), "no ECN", "ECN"),
    "net.ipv4.tcp_mtu_probing": _Alike(frozenset({"0"}), "no MTU probing", "MTU"),
    "net.ipv4.tcp_base_mss": _Alike(frozenset(), "", "MTU"),
    "net.ipv4.ip_no_pmtu_disc": _Alike(frozenset(), "", "MTU"),
    "net.ipv4.tcp_reordering": _Alike(frozenset({"3"}), "three duplicates", "another number of duplicates"),
    "net.ipv4.tcp_window_scaling": _Alike(frozenset({"1"}), "window scaling", "no window scaling"),
    "net.ipv4.tcp_timestamps": _Alike(
        frozenset({"0", "1", "2"}), "no timestamps where the SYN offers none", "timestamps"
    ),
}

# Commands that aren't a kernel's switch: what they are about, by their first words.
DROPPED_COMMANDS: Mapping[tuple[str, ...], str] = {
    ("ip", "tcp_metrics", "flush"): "metrics of earlier connections",
    ("tc", "qdisc"): "queues of the device",
}
REFUSED_COMMANDS: Mapping[tuple[str, ...], str] = {
    ("iptables",): "filters",
    ("ip6tables",): "filters",
    ("nft",): "filters",
    ("$xtables",): "filters",
    ("ip", "link"): "MTU",
    ("ifconfig",): "MTU",
}
# Queues that lose, hold back or change packets are no mere queues.
_LOSSY = "netem"
_RESTORING = "sysctl_restore_"


def meaning_of_switch(name: str, value: str) -> SwitchMeaning:
    """The meaning of a switch with its value."""
    if name in SETTINGS:
        return SwitchMeaning(Use.SETTING, SETTINGS[name])
    for feature in FEATURES:
        if name in feature.names:
            return SwitchMeaning(Use.FEATURE, feature.words)
    alike = ALIKE.get(name)
    if alike is None:
        return SwitchMeaning(Use.REFUSED, f"the switch {name}")
    is_alike = value in alike.values
    return SwitchMeaning(Use.ALIKE, alike.words) if is_alike else SwitchMeaning(Use.REFUSED, alike.otherwise)


def meaning_of_command(words: tuple[str, ...]) -> SwitchMeaning | None:
    """The meaning of a command that is no switch, where it is known."""
    first = tuple(" ".join(words).split()[:3])
    if first[:2] == ("tc", "qdisc") and _LOSSY in " ".join(words):
        return SwitchMeaning(Use.REFUSED, "filters")
    if first and _RESTORING in first[0]:
        return SwitchMeaning(Use.FEATURE, "putting the host back")
    for table, use in ((DROPPED_COMMANDS, Use.FEATURE), (REFUSED_COMMANDS, Use.REFUSED)):
        for begin, about in table.items():
            if first[: len(begin)] == begin:
                return SwitchMeaning(use, about)
    return None
