"""Both programs of this tree, as its sources stand, in one that the kit builds: the one test here that takes long."""

import subprocess
import sys
from pathlib import Path

from pdsuite.programs.batch_protocol import ProgramAnswer, Case, batch_input, parse_batch_answers_or_faults
from pdsuite.programs.protocol import add_command, script_name_of_number, set_command
from pdsuite.scripts.text import make_newline_ended_text_within_limits
from tests.helpers import TOP

SECONDS = 1_200
LISTENS = b"+0 socket(..., SOCK_STREAM, IPPROTO_TCP) = 3\n+0 bind(3, ..., ...) = 0\n+0 listen(3, 1) = 0\n"
SYN = b"+0.1 < S 0:0(0) win 32792 <mss 1000>\n"
SYN_ACK = b"+0 > S. 0:0(0) ack 1 win 65535 <mss %d>\n"


def test_each_start_of_both_programs_has_its_own_words_input_and_answer(tmp_path: Path) -> None:
    wrong = make_newline_ended_text_within_limits(LISTENS + SYN + SYN_ACK % 1_000)
    cases = [
        Case(("pdrecord", "--settings", "mss = 1200\nsack = false"), LISTENS + SYN),
        Case(("pdregress", "--explain"), set_command("mss", "1200") + add_command(script_name_of_number(0), wrong)),
        Case(("pdrecord", "--no-such-word"), b""),
        Case(("pdrecord",), LISTENS + SYN),
    ]
    starts, answers = tmp_path / "starts", tmp_path / "answers"
    starts.mkdir()
    answers.mkdir()
    (starts / "a").write_bytes(batch_input(cases))
    words: list[str | Path] = [sys.executable, "-B", TOP / "tools/run_batch.py", starts, answers]
    done = subprocess.run(words, stdin=subprocess.DEVNULL, capture_output=True, timeout=SECONDS)
    assert (done.returncode, done.stdout, done.stderr) == (0, b"", b"")
    output, errors, status = ((answers / f"a.{end}").read_bytes() for end in ("output", "errors", "status"))
    recorded, reported, refused, other = parse_batch_answers_or_faults(output, errors, status.decode(), len(cases))
    assert recorded == ProgramAnswer(LISTENS + SYN + SYN_ACK % 1_200, b"")
    assert reported.output.startswith(b"s0 fail 5 options\ntotal 1 pass 0 fail 1 ")
    assert reported.errors.startswith(b"s0:5: fail options: the packet has other options\n")
    assert refused.fault == "error: unexpected argument '--no-such-word' found"
    assert other == ProgramAnswer(LISTENS + SYN + SYN_ACK % 1_460, b"")
