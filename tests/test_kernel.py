"""Tests of tools/kernel.py: reading, comparing and reporting everywhere, and real runs where a tun device is to be had.

Run them by `tests/run tests/test_kernel.py`.
"""

from __future__ import annotations

import contextlib
import doctest
import importlib
import io
import tempfile
import unittest
from pathlib import Path

from kernel.compare import Difference, TimeSpan, differing_fields, has_expected_sequence_and_syn_fin_rst
from kernel.device import NoDevice
from kernel.main import ScriptJob, parse_options, run_once_returning_any_fault, make_pool, script_files
from kernel.report import difference_places, script_lines
from kernel.run import RunOutcome
from kernel.script import UnsupportedScript, parse_script_into_runnable_events
from kernel.settings import KernelSettings, Tuning, settings_of, tuning_of
from kernel.wire import PEER_ISN, SeenPacket, decode_packet, encode_packet
from pdsuite.faults import Fault
from pdsuite.packetdrill.items import Call, Packet, TcpOption, Time

OPENING = """0 socket(..., SOCK_STREAM, IPPROTO_TCP) = 3
+0 bind(3, {sa_family = AF_INET, port = htons(8080)}, [16]) = 0
+0 listen(3, 1) = 0
+0.05 < S 0:0(0) win 32792 <mss 1000,sackOK,nop,nop,nop,wscale 7>
+0 > S. 0:0(0) ack 1 <...>
+0.05 < . 1:1(0) ack 1 win 257
+0 accept(3, ..., ...) = 4
"""
OLD = "restart_after_idle: UnknownKey{}: its name is slow_start_after_idle"


class Examples(unittest.TestCase):
    def test_those_that_stand_in_modules(self) -> None:
        for name in ("calls", "compare", "script", "settings", "wire"):
            with self.subTest(name):
                self.assertEqual(doctest.testmod(importlib.import_module(f"kernel.{name}")).failed, 0)


class ReadingTest(unittest.TestCase):
    def test_a_packet_with_all_its_parts(self) -> None:
        (event,) = parse_script_into_runnable_events("\n+.5~+1 > P. 1:11(10) ack 2 win 3 <nop,sack 1:2 3:4> // why\n")
        options = (TcpOption("nop"), TcpOption("sack", (1, 2, 3, 4)))
        self.assertEqual(event.line, 2)
        self.assertEqual(event.time, Time(500_000, 1_000_000))
        self.assertEqual(event.action, Packet(False, "P.", 1, 11, 2, 3, options, "<nop,sack 1:2 3:4>"))

    def test_dots_stand_for_any_options_and_a_star_for_any_time(self) -> None:
        (event,) = parse_script_into_runnable_events("* > S. 0:0(0) ack 1 <...>")
        self.assertIsNone(event.time.first)
        assert isinstance(event.action, Packet)
        self.assertTrue(event.action.takes_any_options)

    def test_a_call_with_brackets_an_error_and_a_note(self) -> None:
        (event,) = parse_script_into_runnable_events("1 connect(3, {a, (b)}, [1]) = -1 EBADF (Bad descriptor)")
        self.assertEqual(event.action, Call("connect", ("3", "{a, (b)}", "[1]"), -1, "EBADF"))

    def test_what_is_not_run_is_refused_at_its_line(self) -> None:
        for text in (
            "\n`ls`\n--ip_version=ipv6",
            "0 socket(1) = 3\n0...1 accept(3) = 4",
            "\n* < . 1:1(0) win 1",
            "\n0 > . 1:9(9)",
        ):
            with self.assertRaises(UnsupportedScript) as caught:
                parse_script_into_runnable_events(text)
            self.assertEqual(caught.exception.line, 2)


class Wire(unittest.TestCase):
    def test_numbers_count_from_both_first_numbers(self) -> None:
        packet = Packet(True, "P.", 5, 8, 7, 100, (TcpOption("sack", (7, 9)), TcpOption("nop"), TcpOption("nop")))
        octets = encode_packet(packet, isn=2**32 - 1)
        self.assertEqual(octets[24:32], (PEER_ISN + 5).to_bytes(4, "big") + (6).to_bytes(4, "big"))
        self.assertEqual(octets[40:50], bytes([5, 10, 0, 0, 0, 6, 0, 0, 0, 8]))

    def test_a_packet_of_the_kernel_is_read_back(self) -> None:
        there = encode_packet(Packet(True, "S.", 9, 9, 0, 500, (TcpOption("mss", (1460,)),)), isn=77)
        back = there[:20] + there[22:24] + there[20:22] + there[24:]
        found = decode_packet(back, 1.5, None)
        assert found is not None
        seen, first = found
        self.assertEqual(first, PEER_ISN + 9)
        self.assertEqual((seen.start, seen.window, seen.options), (0, 500, (TcpOption("mss", (1460,)),)))

    def test_another_port_is_none_of_the_run(self) -> None:
        self.assertIsNone(decode_packet(encode_packet(Packet(True, ".", 1, 1, 1, 1), 0), 0.0, 0))


class Comparing(unittest.TestCase):
    seen = SeenPacket(1.2, frozenset("."), 1, 1000, 1, 502, ())

    def test_each_field_is_named(self) -> None:
        expected = Packet(False, "P", 1, 501, 2, 257, (TcpOption("nop"),))
        fields = differing_fields(expected, self.seen, TimeSpan(0.0, 1.0), frozenset())
        self.assertEqual(fields, ["time", "flags", "push", "seq", "ack", "win", "options"])
        self.assertFalse(has_expected_sequence_and_syn_fin_rst(expected, self.seen))

    def test_what_is_ignored_or_not_written_does_not_differ(self) -> None:
        expected = Packet(False, "P.", 1, 1001)
        self.assertEqual(differing_fields(expected, self.seen, None, {"push"}), [])


class SetupTest(unittest.TestCase):
    def test_the_nearest_table_wins_and_words_before_all(self) -> None:
        with tempfile.TemporaryDirectory() as name:
            top = Path(name)
            (top / "pdsuite.toml").write_text("root = true\nmss = 500\nwscale = 3\nsack = false")
            (top / "in").mkdir()
            (top / "in" / "pdsuite.toml").write_text('mss = 600\n["a.pkt"]\nmss = 700')
            got = settings_of(top / "in" / "a.pkt", "// set sack false\n", "sack = true")
            other = settings_of(top / "in" / "b.pkt", "// set wscale 5\n")
        self.assertEqual((got.mss, got.wscale, got.sack), (700, 3, True))
        self.assertEqual((other.mss, other.wscale, other.sack), (600, 5, False))

    def test_an_old_name_is_refused_with_its_place(self) -> None:
        with tempfile.TemporaryDirectory() as name:
            path, toml = (Path(name).resolve() / it for it in ("a.pkt", "pdsuite.toml"))
            toml.write_text("root = true\nrestart_after_idle = true\n")
            self.assertEqual(self.fault_of_settings(path), f"{toml}:2: {OLD.format('')}")
            toml.write_text('root = true\n["a.pkt"]\nrestart_after_idle = true\n')
            beside = ' (["a.pkt"])'
            self.assertEqual(self.fault_of_settings(path), f"{toml}:3: {OLD.format(beside)}")
            toml.write_text("root = true\n")
            text = "// Why.\n// set restart_after_idle true\n"
            self.assertEqual(self.fault_of_settings(path, text), f"{path}:2: {OLD.format('')}")
            self.assertEqual(
                self.fault_of_settings(path, "", "restart_after_idle = true"), f"--settings: {OLD.format('')}"
            )
            self.assertIsNone(settings_of(path, "", "").slow_start_after_idle)

    def fault_of_settings(self, path: Path, text: str = "", words: str = "") -> str:
        """The fault of the settings of a script."""
        with self.assertRaises(Fault) as raised:
            settings_of(path, text, words)
        return str(raised.exception)

    def test_settings_become_switches_and_a_route(self) -> None:
        tuning = tuning_of(
            parse_script_into_runnable_events(OPENING), KernelSettings(min_rto_us=300_000), {"net.ipv4.tcp_frto": "0"}
        )
        self.assertEqual(tuning.route[:4], ("initcwnd", "4", "rto_min", "300ms"))
        self.assertIn(("net.ipv4.tcp_frto", "0"), tuning.sysctls)
        self.assertIn(("net.ipv4.tcp_rmem", "4096 131070 4194304"), tuning.sysctls)

    def test_a_folder_stands_for_its_scripts(self) -> None:
        with tempfile.TemporaryDirectory() as name:
            for file in ("b.pkt", "a.pkt", "a.txt"):
                Path(name, file).touch()
            self.assertEqual([it.name for it in script_files([Path(name)])], ["a.pkt", "b.pkt"])

    def test_a_field_that_is_none_is_refused(self) -> None:
        with self.assertRaises(SystemExit), contextlib.redirect_stderr(io.StringIO()):
            parse_options(["--ignore", "winter", "a.pkt"])


class Reporting(unittest.TestCase):
    def test_places_are_counted_over_runs(self) -> None:
        bad = RunOutcome((Difference(9, "win", "a"), Difference(7, "time", "b")))
        runs = [bad, RunOutcome(), RunOutcome((Difference(9, "win", "c"),))]
        self.assertEqual(
            [(it.line, it.field, it.runs) for it in difference_places(runs)], [(7, "time", 1), (9, "win", 2)]
        )
        rows = ["x: 1 of 3 pass", "  line 7 time: 1 of 3, b", "  line 9 win: 2 of 3, a"]
        self.assertEqual(list(script_lines("x", runs)), rows)


class RunningTest(unittest.TestCase):
    """Runs against the kernel, which are skipped where there is no tun device."""

    def run_text(self, text: str, *ignored: str) -> RunOutcome:
        events = parse_script_into_runnable_events(OPENING + text)
        job = ScriptJob(Path("a.pkt"), events, tuning_of(events, KernelSettings(), {}), frozenset(ignored))
        with make_pool(1) as pool:
            found = pool.apply(run_once_returning_any_fault, (job,))
        if isinstance(found, NoDevice):
            self.skipTest(f"no tun device here: {found}")
        assert isinstance(found, RunOutcome)
        return found

    def test_a_segment_is_sent(self) -> None:
        self.assertEqual(self.run_text("+0 write(4, ..., 10) = 10\n+0 > P. 1:11(10) ack 1", "time").differences, ())

    def test_a_run_goes_on_after_other_fields_and_names_each(self) -> None:
        text = "+0 write(4, ..., 10) = 10\n+0 > . 1:11(10) ack 1 win 5\n+0.05 < . 1:1(0) ack 11 win 257\n"
        got = self.run_text(text + "+0 write(4, ..., 5) = 5\n+0 > P. 11:16(5) ack 2", "time").differences
        self.assertEqual([(it.line, it.field) for it in got], [(9, "push"), (9, "win"), (12, "ack")])

    def test_a_packet_that_does_not_come_and_another_answer_end_it(self) -> None:
        got = self.run_text("+0 > . 1:1(0) ack 1\n+0 > . 2:2(0) ack 1").differences
        self.assertEqual([(it.line, it.field, it.words) for it in got], [(8, "missing", "nothing came")])
        got = self.run_text("+0 write(4, ..., 10) = 9\n+0 > . 9:9(0) ack 1").differences
        self.assertEqual([(it.line, it.field, it.words) for it in got], [(8, "result", "10")])

    def test_a_switch_that_the_kernel_lacks_is_told(self) -> None:
        events = parse_script_into_runnable_events(OPENING)
        tuning = Tuning((("net.ipv4.no_such_switch", "1"),), (), 1500, False)
        with make_pool(1) as pool:
            self.assertIsInstance(
                pool.apply(run_once_returning_any_fault, (ScriptJob(Path("a"), events, tuning, frozenset()),)), NoDevice
            )


if __name__ == "__main__":
    unittest.main()
