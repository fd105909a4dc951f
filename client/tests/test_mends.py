"""Mends by the real programs: under changed settings each script of the suite tests afterwards what it tested before.

All settings are tried where PDSUITE_MENDS is `all`, else a few.
"""

import json
import os
import re
import shutil
from pathlib import Path

import pytest

from tests.helpers import TOP, Call

# The tolerance isn't among them: under another one a script shows no other sender.
CHANGES = [
    'initial_window = "rfc6928"',
    "min_rto_us = 300000",
    "limited_transmit = false",
    "abc_limit = 2",
    "sack = false",
    "mss = 700",
    'recovery_algorithm = "rfc9937"',
    "nagle = false",
    "initial_ssthresh = 2000",
    "rcv_wnd = 20000",
]
FEW = 3
_ANY_TIME = re.compile(r"^\s*\*\s+>", re.MULTILINE)


def _chosen() -> list[str]:
    return CHANGES if os.environ.get("PDSUITE_MENDS") == "all" else CHANGES[:FEW]


def _passing(programs: Path, call: Call, *words: str) -> set[str]:
    """The scripts of the folder `suite` that pass."""
    reported = json.loads(call(programs, "run", "--json", *words, "suite").out)
    return {it["path"] for it in reported["scripts"] if it["verdict"] == "pass" and not it.get("strict", False)}


@pytest.mark.parametrize("change", _chosen())
def test_scripts_mended_under_changed_settings_turn_under_the_old_ones(
    recording_programs: Path, tmp_path: Path, call: Call, change: str
) -> None:
    shutil.copytree(TOP / "examples/suite", tmp_path / "suite")
    before = _passing(recording_programs, call)
    turned = before - _passing(recording_programs, call, "--settings", change)
    assert turned
    texts = {it: (tmp_path / it).read_text() for it in turned}
    recorded = call(recording_programs, "record", "--write", "--settings", change, "suite")
    lost = {it for it in turned if f"{it}: isn't recorded" in recorded.err}
    mended = turned - lost
    assert mended
    assert mended <= _passing(recording_programs, call, "--strict", "--settings", change)
    assert not mended & _passing(recording_programs, call, "--strict")
    for path in sorted(mended):
        text, old = (tmp_path / path).read_text(), texts[path]
        any_time = len(_ANY_TIME.findall(old))
        # Where packets that left before an input have no time, one more such packet has none either.
        more = max(0, text.count("\n") - old.count("\n")) if any_time else 0
        assert len(_ANY_TIME.findall(text)) <= any_time + more, path
