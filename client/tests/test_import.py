"""`pdsuite import`: from folder to folder, what it prints and how it ends."""

import os
import random
import re
from pathlib import Path

import pytest

from pdsuite.commands import import_
from pdsuite.output.screen import Screen
from pdsuite.scripts.discover import ScriptFile
from tests.helpers import PASSES, TOP, Call, write
from tests.schemas import held
from tests.test_import_conversion import LEFT, OPEN, REPLACED

SUITE = TOP / "examples/suite"
DEFAULTS = """#!/bin/bash
# Comments aren't read.
ip tcp_metrics flush all > /dev/null 2>&1
sysctl -q net.ipv4.tcp_rmem="4096 540000 $((15*1024*1024))"
sysctl -q net.ipv4.tcp_ecn=0 net.ipv4.tcp_slow_start_after_idle=0
tc qdisc add dev tun0 root pfifo
"""
# A kernel sends ten segments of 1,000 octets in one piece, and then two for each ACK of a segment.
SLOW_START = f"""// SPDX-License-Identifier: GPL-2.0
`./defaults.sh
sysctl -q net.ipv4.tcp_min_tso_segs=10`
{OPEN.replace("<...>", "<mss 1460,nop,nop,sackOK,nop,wscale 8>")}
+0 write(4, ..., 12000) = 12000
+0 > P. 1:10001(10000) ack 1
+0 %{{ assert tcpi_snd_cwnd == 10 }}%
+.1 < . 1:1(0) ack 1001 win 257
+0 > P. 10001:12001(2000) ack 1
+0 %{{ assert tcpi_snd_cwnd == 11 }}%
"""
# Two scripts, of which the first can't be looked at.
FOUND = (("a", "Permission denied"), ("b", ""))
CONNECTS = "0 connect(3, ..., ...) = 0\n"


def test_what_cannot_be_looked_at_is_told_and_not_imported(
    tmp_path: Path, monkeypatch: pytest.MonkeyPatch, capsys: pytest.CaptureFixture[str]
) -> None:
    write(tmp_path / "net", a=OPEN.encode(), b=OPEN.encode())
    found = [ScriptFile(str(tmp_path / f"net/{it}.pkt"), str(tmp_path / "net"), f"{it}.pkt", why) for it, why in FOUND]
    monkeypatch.setattr(import_, "find_scripts", lambda paths, only, stop: found)
    with Screen(False, progress=False) as screen:
        assert import_.import_scripts(tmp_path / "net", tmp_path / "new", False, False, screen) == 2
    assert f"{tmp_path}/net/a.pkt: error: Permission denied\n" in capsys.readouterr().out
    assert [it.name for it in (tmp_path / "new").glob("*.pkt")] == ["b.pkt"]


def kernel(folder: Path) -> Path:
    """A folder with three scripts as a kernel's self-tests have them."""
    write(folder / "net", slow=SLOW_START.encode(), connects=CONNECTS.encode(), idle=OPEN.encode())
    (folder / "net/defaults.sh").write_text(DEFAULTS)
    return folder


def test_a_folder_is_imported_with_settings_and_a_list(programs: Path, tmp_path: Path, call: Call) -> None:
    kernel(tmp_path / "from")
    called = call(None, "import", "from", "to")
    assert (called.status, called.err) == (1, "")
    assert called.out.splitlines() == [
        "from/net/connects.pkt: not imported",
        "  line 1: connect: connect(3, ..., ...)",
        "from/net/idle.pkt: imported, packets kept",
        "from/net/slow.pkt: imported, changed to this profile: 2 packets",
        "not imported, scripts:",
        "      1 connect",
        "not imported for this alone, scripts:",
        "      1 connect",
        "dropped from set-up:",
        "      1 metrics of earlier connections",
        "      1 no ECN",
        "      1 offload",
        "      1 queues of the device",
        "changed to this profile:",
        "      2 packets longer than SMSS are cut at it",
        "      1 flag P as this sender sets it",
        "assertions for pdsuite run:",
        "      2 tcpi_snd_cwnd",
        "settings, scripts:",
        "      2 abc_limit = 8",
        '      2 initial_window = "rfc6928"',
        "      2 min_rto_us = 200000",
        '      2 recovery_algorithm = "rfc9937"',
        "      1 slow_start_after_idle = false",
        "      1 slow_start_after_idle = true",
        "      1 wscale = 7",
        "      1 wscale = 8",
        "  of a kernel, min_rto_us: RFC 6298 puts this floor under the whole RTO, Linux under 4 RTTVAR alone",
        "total 3 imported 2 packets kept 1 changed to this profile 1 not imported 1 error 0",
    ]
    files = sorted(str(it.relative_to(tmp_path / "to")) for it in (tmp_path / "to").rglob("*") if it.is_file())
    assert files == ["net/idle.pkt", "net/pdsuite.toml", "net/slow.pkt", "pdsuite.toml"]
    assert (tmp_path / "to/net/idle.pkt").read_text() == OPEN
    assert (tmp_path / "to/net/slow.pkt").read_text().splitlines()[:6] == [
        "// SPDX-License-Identifier: GPL-2.0",
        "// dropped: `./defaults.sh",
        "// dropped: sysctl -q net.ipv4.tcp_min_tso_segs=10`",
        "// why: set-up, which is read and never run",
        "// why: what the file says stands in pdsuite.toml",
        "// why: this sender hasn't: offload",
    ]
    assert (tmp_path / "to/net/pdsuite.toml").read_text().splitlines()[:4] == [
        "# The settings of the scripts in this folder, as pdsuite import read them.",
        "# Of what defaults.sh says, this sender hasn't: metrics of earlier connections, queues of the device",
        "# As defaults.sh says, this sender has: no ECN",
        "",
    ]
    before = 'abc_limit = 8, initial_window = "rfc6928", min_rto_us = 200000, recovery_algorithm = "rfc9937"'
    listed = [
        f"to/net/idle.pkt: {before}, slow_start_after_idle = true, wscale = 7",
        f"to/net/slow.pkt: {before}, slow_start_after_idle = false, wscale = 8",
    ]
    assert call(None, "list", "to").out.splitlines() == listed
    assert call(programs, "run", "-v", "to").rows == ["to/net/idle.pkt: pass 7", "to/net/slow.pkt: pass 21"]


def test_what_blocks_scripts_alone_is_counted(tmp_path: Path, call: Call) -> None:
    reads = "0 read(3, ..., 9) = 9\n"
    texts = {"a": CONNECTS, "b": CONNECTS * 2, "c": CONNECTS + reads, "d": reads + "--mtu=9\n", "e": "0 f() = ?"}
    write(tmp_path / "from", **{name: text.encode() for name, text in texts.items()})
    lines = call(None, "import", "from", "to").out.splitlines()
    begin = lines.index("not imported for this alone, scripts:")
    assert lines[begin + 1 :] == [
        "      2 connect",
        "      1 the result ?",
        "total 5 imported 0 packets kept 0 changed to this profile 0 not imported 5 error 0",
    ]
    found = held("import", call(None, "import", "--json", "from", "to").out)
    assert [(it["words"], it["scripts"], it["alone"]) for it in found["reasons"]] == [
        ("connect", 3, 2),
        ("the call read", 2, 0),
        ("no script of this language", 1, 0),
        ("the result ?", 1, 1),
    ]


def test_the_object_tells_what_the_text_tells(tmp_path: Path, call: Call) -> None:
    kernel(tmp_path / "from")
    (tmp_path / "from/net/dangling.pkt").symlink_to("nowhere")
    called = call(None, "import", "--json", "from", "to")
    assert (called.status, called.err) == (2, "")
    assert held("import", called.out) == {
        "version": 2,
        "scripts": [
            {
                "path": "from/net/connects.pkt",
                "came": "not imported",
                "reasons": [{"line": 1, "words": "connect", "what": "connect(3, ..., ...)"}],
            },
            {"path": "from/net/dangling.pkt", "came": "error", "reason": "No such file or directory"},
            {
                "path": "from/net/idle.pkt",
                "came": "imported",
                "changed": 0,
                "settings": {
                    "abc_limit": 8,
                    "initial_window": "rfc6928",
                    "min_rto_us": 200_000,
                    "recovery_algorithm": "rfc9937",
                    "slow_start_after_idle": True,
                    "wscale": 7,
                },
            },
            {
                "path": "from/net/slow.pkt",
                "came": "imported",
                "changed": 2,
                "settings": {
                    "abc_limit": 8,
                    "initial_window": "rfc6928",
                    "min_rto_us": 200_000,
                    "recovery_algorithm": "rfc9937",
                    "slow_start_after_idle": False,
                    "wscale": 8,
                },
            },
        ],
        "reasons": [{"words": "connect", "scripts": 1, "alone": 1}],
        "findings": [
            {"heading": "dropped from set-up", "words": "metrics of earlier connections", "count": 1},
            {"heading": "dropped from set-up", "words": "no ECN", "count": 1},
            {"heading": "dropped from set-up", "words": "offload", "count": 1},
            {"heading": "dropped from set-up", "words": "queues of the device", "count": 1},
            {"heading": "changed to this profile", "words": "packets longer than SMSS are cut at it", "count": 2},
            {"heading": "changed to this profile", "words": "flag P as this sender sets it", "count": 1},
            {"heading": "assertions for pdsuite run", "words": "tcpi_snd_cwnd", "count": 2},
        ],
        "total": {
            "scripts": 4,
            "imported": 2,
            "packets kept": 1,
            "changed to this profile": 1,
            "not imported": 1,
            "error": 1,
        },
    }


def test_with_keep_packets_no_packet_is_changed(programs: Path, tmp_path: Path, call: Call) -> None:
    kernel(tmp_path / "from")
    called = call(None, "import", "--keep-packets", "from", "to")
    assert called.out.splitlines()[-1].startswith("total 3 imported 2 packets kept 2 changed to this profile 0 ")
    assert "+0 > P. 1:10001(10000) ack 1\n" in (tmp_path / "to/net/slow.pkt").read_text()
    assert call(programs, "run", "to").rows == ["to/net/slow.pkt:16: fail flags"]


def test_the_suite_imports_to_itself(tmp_path: Path, call: Call) -> None:
    called = call(None, "import", SUITE, "to")
    count = len(list(SUITE.rglob("*.pkt")))
    assert called.status == 0
    assert called.out.splitlines()[-1] == (
        f"total {count} imported {count} packets kept {count} changed to this profile 0 not imported 0 error 0"
    )
    for path in SUITE.rglob("*.pkt"):
        assert (tmp_path / "to" / path.relative_to(SUITE)).read_bytes() == path.read_bytes()
    listed = call(None, "list", SUITE).out.replace(f"{SUITE}/", "to/")
    assert call(None, "list", "to").out == listed


def test_settings_of_folders_above_the_new_one_do_not_count(tmp_path: Path, call: Call) -> None:
    write(tmp_path / "from", a=PASSES)
    (tmp_path / "from/pdsuite.toml").write_text("root = true\n")
    (tmp_path / "pdsuite.toml").write_text("mss = 77\n")
    assert call(None, "import", "from", "to").status == 0
    assert call(None, "list", "to").out == "to/a.pkt\n"


def test_no_import_of_a_construct_is_syntax(programs: Path, tmp_path: Path, call: Call) -> None:
    texts = [OPEN + text for text, _ in REPLACED if text[0] not in "`-"]
    texts += [text for text, _ in REPLACED if text[0] in "`-"] + [text for text, _, _ in LEFT]
    write(tmp_path / "from", **{f"s{number:02}": text.encode() for number, text in enumerate(texts)})
    assert call(None, "import", "from", "to").status == 1
    totals = call(programs, "run", "to").totals
    assert totals.keys() <= {"pass", "fail"} and sum(totals.values()) == len(REPLACED)


def test_random_octets_and_cut_scripts_end_in_lines(programs: Path, tmp_path: Path, call: Call) -> None:
    dice = random.Random(43)
    whole = [SLOW_START, *(text for text, _ in REPLACED)]
    texts = [dice.randbytes(dice.randrange(200)) for _ in range(100)]
    for text in whole:
        octets = (text if text[0] in "`-/" else OPEN + text).encode()
        texts += [octets[:size] for size in dice.sample(range(len(octets)), min(20, len(octets)))]
    for _ in range(100):
        octets = bytearray(dice.choice(whole).encode())
        for _ in range(3):
            place = dice.randrange(len(octets))
            octets[place : place + dice.randrange(4)] = dice.choice(
                [b"", b"`", b"%{", b'"', b"/*", b"\xff", b"+", b"9"]
            )
        texts.append(bytes(octets))
    write(tmp_path / "from", **{f"s{number:04}": text for number, text in enumerate(texts)})
    called = call(None, "import", "from", "to")
    assert (called.status, called.err) == (1, "")
    rows = [line for line in called.out.splitlines() if line.startswith("from/")]
    assert len(rows) == len(texts) and all(re.search(r"\.pkt: (not )?imported", it) for it in rows)
    assert call(programs, "run", "to").totals.keys() <= {"pass", "fail"}


REFUSALS = [
    (["import", "from", "full"], "full: isn't empty"),
    (["import", "from", "file"], "file: isn't a folder"),
    (["import", "from", "a/b"], "a/b: the folder above it isn't there"),
    (["import", "from", "from/to"], "from/to: lies in the folder that is imported"),
    (["import", ".", "to"], "to: lies in the folder that is imported"),
    (["import", "from", "."], ".: isn't empty"),
    (["import", "nowhere", "to"], "nowhere: No such file or directory"),
    (["import", "file", "to"], "file: neither a folder nor a file *.pkt"),
    (["import", "empty", "to"], "no script found"),
    (["import", "from", "dangling"], None),
]


@pytest.mark.parametrize(("words", "reason"), REFUSALS, ids=range(len(REFUSALS)))
def test_what_cannot_be_is_refused_by_name(words: list[str], reason: str | None, tmp_path: Path, call: Call) -> None:
    write(tmp_path / "from", a=PASSES)
    write(tmp_path / "full", a=PASSES)
    (tmp_path / "empty").mkdir()
    (tmp_path / "file").touch()
    (tmp_path / "dangling").symlink_to("round")
    called = call(None, *words)
    if reason is None:
        assert (called.status, (tmp_path / "round/a.pkt").read_bytes()) == (0, PASSES)
        return
    assert (called.status, called.out, called.err) == (2, "", f"pdsuite: {reason}\n")
    assert sorted(os.listdir(tmp_path)) == ["dangling", "empty", "file", "from", "full"]


def test_an_empty_folder_is_taken(tmp_path: Path, call: Call) -> None:
    write(tmp_path / "from", a=PASSES)
    (tmp_path / "to").mkdir()
    assert call(None, "import", "from", "to").status == 0
    assert sorted(os.listdir(tmp_path / "to")) == ["a.pkt", "pdsuite.toml"]


def test_nothing_is_written_where_nothing_is_imported(tmp_path: Path, call: Call) -> None:
    write(tmp_path / "from", a=CONNECTS.encode(), b=b"x" * 70_000)
    called = call(None, "import", "from", "to")
    assert called.status == 1
    assert called.out.splitlines()[:4] == [
        "from/a.pkt: not imported",
        "  line 1: connect: connect(3, ..., ...)",
        "from/b.pkt: not imported",
        "  line 1: more than 65,536 octets",
    ]
    assert sorted(os.listdir(tmp_path)) == ["from"]


def test_what_cannot_be_read_is_an_error_and_all_else_is_imported(tmp_path: Path, call: Call) -> None:
    write(tmp_path / "from", good=PASSES)
    (tmp_path / "from/dangling.pkt").symlink_to("nowhere")
    called = call(None, "import", "from", "to")
    assert called.status == 2
    assert called.out.splitlines()[:2] == [
        "from/dangling.pkt: error: No such file or directory",
        "from/good.pkt: imported, packets kept",
    ]
    assert (tmp_path / "to/good.pkt").read_bytes() == PASSES


def test_names_of_any_octets_have_their_settings(programs: Path, tmp_path: Path, call: Call) -> None:
    names = [b'a"b\\c', b"a\nb", b"a\x7fb", "ü😀".encode(), b"[a]"]
    (tmp_path / "from").mkdir()
    for name in (*names, b"\xff"):
        (tmp_path / "from" / os.fsdecode(name + b".pkt")).write_bytes(PASSES)
    called = call(None, "import", "from", "to")
    assert called.status == 1
    assert "  line 1: a name that isn't UTF-8, which no pdsuite.toml can have" in called.out.splitlines()
    assert call(programs, "run", "to").totals == {"pass": len(names)}
    assert call(None, "list", "to").out.count("initial_window") == len(names)


def test_one_script_is_imported_by_its_name(tmp_path: Path, call: Call) -> None:
    write(tmp_path / "from", a=PASSES, b=PASSES)
    called = call(None, "import", "from/a.pkt", "to")
    assert (called.status, called.out.splitlines()[0].partition(":")[0]) == (0, "from/a.pkt")
    assert sorted(it.name for it in (tmp_path / "to").iterdir()) == ["a.pkt", "pdsuite.toml"]


def test_settings_that_no_run_can_be_given_are_refused(tmp_path: Path, call: Call) -> None:
    write(tmp_path / "from", a=PASSES)
    (tmp_path / "from/pdsuite.toml").write_text("mss = [1]\n")
    called = call(None, "import", "from", "to")
    message = "from/pdsuite.toml:1: mss: BadValue: it takes 64 to 65,495 octets\n"
    assert (called.status, called.err) == (2, message)
