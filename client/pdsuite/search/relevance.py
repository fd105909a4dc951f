"""The emphasis of a search on settings and themes, by the functions and definitions that changed."""

import re
from collections.abc import Iterable, Mapping, Sequence
from typing import Any

from pdsuite.scripts.defaults import KEYS
from pdsuite.search.scenario import Emphasis, Theme


# By a part of a name in the sources: the settings, and what a connection has to meet, so that it matters.
_PARTS: Mapping[str, tuple[Sequence[str], Sequence[Theme]]] = {
    "idle|restart|last_sent": (("slow_start_after_idle", "abc_limit"), (Theme.IDLE,)),
    "follows_expiry|byte_limit|growth|limit": (("abc_limit", "slow_start_after_idle"), (Theme.EXPIRY,)),
    "prr|reduction|sndcnt|proportion|recover_fs|deliver|safe_ack|forced|pace": (("recovery_algorithm",), (Theme.LOSS,)),
    "early|limited": (("limited_transmit",), (Theme.LOSS,)),
    "nagle|held_back": (("nagle",), (Theme.SMALL,)),
    "widest|half_window|sendable|usable": (("nagle",), (Theme.WINDOW, Theme.SMALL)),
    "rwnd|smaller_window|wl1|wl2": ((), (Theme.WINDOW, Theme.IRREGULAR)),
    "sack|score|block|span|range|mark|lost|pipe|high_rxt|rescue|fresh|(^|_)hole": ((), (Theme.LOSS, Theme.IRREGULAR)),
    "dup|recover|half|note|step_c": ((), (Theme.LOSS,)),
    "plain|fast_retransmit|new_segment|take_number": (("sack",), (Theme.NO_SACK, Theme.LOSS)),
    "expir|timeout|rto|deadline|timed|sample|overlap": (("min_rto_us",), (Theme.EXPIRY, Theme.LOSS)),
    "srtt|rttvar|estimate|granularity": (("min_rto_us", "granularity_us"), (Theme.EXPIRY,)),
    "(^|_)fin(_|$)|close": ((), (Theme.CLOSE, Theme.IRREGULAR)),
    "(^|_)rst|reset|challenge|ruling|check_|refus": ((), (Theme.IRREGULAR, Theme.CLOSE)),
    "sndbuf|send_buffer": (("sndbuf",), (Theme.SMALL,)),
    "ssthresh|cwnd|widen": (("initial_ssthresh",), (Theme.LOSS,)),
    "first_window|window_by|initial_window|first_segments": (("initial_window", "mss"), ()),
    "smss_of|announced|DEFAULT_MSS": (("mss",), (Theme.SMALL,)),
    "scal|shift|peer_count": (("wscale",), (Theme.HANDSHAKE,)),
    "rcv": (("rcv_wnd",), (Theme.IRREGULAR,)),
    "resent|handshake|establish|syn|reinitialize|offer": ((), (Theme.HANDSHAKE,)),
}


def emphasis_of_changes(changed: Iterable[Mapping[str, Any]], fixed: frozenset[str]) -> Emphasis:
    """The emphasis of a search, by names that stand in the lines that changed, or else in all that changed."""
    each = list(changed)
    for names in ("changed", "whole"):
        found = _emphasis_by_names({name for it in each for name in it[names]}, fixed)
        if found.keys or found.themes:
            return found
    return Emphasis(fixed=fixed)


def script_name_and_comment_of_changed_rule(changed: Iterable[Mapping[str, Any]]) -> list[str]:
    """How a script of a changed rule may come into the suite: its name, and the two lines that say what it tests."""
    for it in changed:
        if it["sections"]:
            about = f"// {'; '.join(it['sections'])}: {it['name'].replace('_', ' ')}: WHAT THE SECTION ASKS FOR."
            return [f"{it['name']}.pkt", about, "// If it fails, WHAT IS WRONG THEN."]
    return []


def _emphasis_by_names(names: Iterable[str], fixed: frozenset[str]) -> Emphasis:
    keys = {name for name in names if name in KEYS}
    themes: set[Theme] = set()
    for part, (some, more) in _PARTS.items():
        if any(re.search(part, name) for name in names):
            keys.update(some)
            themes.update(more)
    return Emphasis(frozenset(keys), frozenset(themes), fixed)
