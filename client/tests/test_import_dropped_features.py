"""Of an imported script that fails: which feature that was dropped acts at the line."""

from pathlib import Path

import pytest

from pdsuite.imports.conversion import SETUP
from pdsuite.imports.dropped_features import dropped_feature_explaining_failure
from pdsuite.packetdrill.layout import layout_of
from pdsuite.run.import_check import MARK
from tests.helpers import Call, write
from tests.test_import_conversion import OPEN

SENT = f"{OPEN}+0 write(4, ..., 30000) = 30000\n+0 > P. 1:10001(10000) ack 1\n"
ONE = "+.1 < . 1:1(0) ack 1 win 257 <sack 1001:2001,nop,nop>\n"
LOST = (
    "+.1 < . 1:1(0) ack 1 win 257 <sack 1001:2001,nop,nop>\n"
    "+0 < . 1:1(0) ack 1 win 257 <sack 1001:3001,nop,nop>\n"
    "+0 < . 1:1(0) ack 1 win 257 <sack 1001:4001,nop,nop>\n"
)
AGAIN = "+0 > . 1:1001(1000) ack 1\n"
# The last line fails by a field.
CASES = {
    "an ACK with one block": (SENT + ONE + AGAIN, "missing", "RACK"),
    "by its timer": (SENT + ONE + "+.025 > . 1:1001(1000) ack 1\n", "missing", "RACK"),
    "three duplicates": (SENT + LOST + AGAIN, "missing", "congestion control by name"),
    "in recovery": (SENT + LOST + AGAIN + "+0 > . 10001:11001(1000) ack 1\n", "missing", "congestion control by name"),
    "the tail again": (SENT + "+.2 > P. 9001:10001(1000) ack 1\n", "time", "TLP"),
    "a new segment": (SENT + "+.2 > . 10001:11001(1000) ack 1\n", "missing", "TLP"),
    "after an expiry": (
        SENT + "+.3 > . 1:1001(1000) ack 1\n+.1 < . 1:1(0) ack 1001 win 257\n+0 > . 10001:12001(2000) ack 1\n",
        "seq",
        "F-RTO",
    ),
    "a block of what came twice": (OPEN + "+0 > . 1:1(0) ack 1 <nop,nop,sack 1:2>\n", "options", "DSACK"),
    "P": (SENT, "flags", "offload"),
    "a write": (OPEN + "+0 write(4, ..., 9000) = 5000\n", "result", "buffers"),
    "a probe": (SENT + "+.1 < . 1:1(0) ack 10001 win 0\n+.3 > . 10000:10000(0) ack 1\n", "missing", None),
    "an ACK": (OPEN + "+0 > . 1:1(0) ack 1\n", "missing", None),
    "slow start": (SENT + "+.1 < . 1:1(0) ack 2001 win 257\n+0 > . 10001:13001(3000) ack 1\n", "missing", None),
    "a close": (OPEN + "+0 close(4) = -1 EBADF\n", "result", None),
    "what arrives": (OPEN, "backwards", None),
}


@pytest.mark.parametrize(("text", "kind", "name"), CASES.values(), ids=CASES)
def test_what_acts_is_told_by_what_came_before(text: str, kind: str, name: str | None) -> None:
    events = layout_of(text).packets_and_calls
    found = dropped_feature_explaining_failure(events, len(events) - 1, kind, False)
    assert found is None if name is None else found is not None and found.startswith(f"{name} act")


def test_what_leaves_early_is_paced_where_nothing_is_lost() -> None:
    events = layout_of(SENT + "+.1 < . 1:1(0) ack 2001 win 257\n+.01 > . 10001:12001(2000) ack 1\n").packets_and_calls
    found = dropped_feature_explaining_failure(events, len(events) - 1, "time", True)
    assert found is not None and found.startswith("pacing acts here")
    assert MARK.decode() == f"// why: {SETUP}"


def test_a_run_tells_it_of_imported_scripts_alone(programs: Path, tmp_path: Path, call: Call) -> None:
    text = SENT + ONE + "+.025 > . 1:1001(1000) ack 1\n"
    write(tmp_path / "from", a=f"`sysctl -q net.ipv4.tcp_recovery=1`\n{text}".encode(), b=text.encode())
    assert call(None, "import", "from", "to").status == 0
    lines = call(programs, "run", "to").out.splitlines()
    reported = [it for it in lines if "dropped" in it]
    assert reported == ["  of what the import dropped, RACK acts here: it sends again by time, before three duplicates"]
    assert lines.index(reported[0]) < next(place for place, it in enumerate(lines) if it.startswith("to/b.pkt:"))
