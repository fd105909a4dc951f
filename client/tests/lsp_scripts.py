"""Scripts for tests of the language server: some that pass, and all kinds of some that don't."""

import re
from collections.abc import Iterator

from tests.helpers import TOP

HEAD = """0 socket(..., SOCK_STREAM, IPPROTO_TCP) = 3
+0 bind(3, ..., ...) = 0
+0 listen(3, 1) = 0
+0.1 < S 0:0(0) win 32792 <mss 1000,sackOK,nop,nop,nop,wscale 7>
+0 > S. 0:0(0) ack 1 <...>
+0.1 < . 1:1(0) ack 1 win 257
+0 accept(3, ..., ...) = 4
"""
WRITES = HEAD + "+0 write(4, ..., 1000) = 1000\n"
PASSES = WRITES + "+0 > P. 1:1001(1000) ack 1\n"
ROOT = b"root = true\n"
CASES = TOP / "tests/cases"
# So many of their rows are as many as one that is tried.
EVERY = 40
_CASE = re.compile(r"(?:fail|syntax|unsupported|limit) \d+(?: [a-z]+)?: ((?:[^\\]|\\[nrt])*)")


def failing_scripts() -> list[tuple[str, str]]:
    """The scripts of examples that don't pass, and texts of these tests."""
    texts = {path.name: path.read_text() for path in sorted((TOP / "examples/scripts").glob("*.pkt"))}
    known = dict(
        line.split(" ", 1) for line in (TOP / "examples/scripts/expected.txt").read_text().splitlines() if line
    )
    found = [(name, text) for name, text in texts.items() if not known.get(name[:-4], "pass").startswith("pass")]
    more = {
        "left_out": HEAD + "+0 write(4, ..., 3000) = 3000\n+0 > P. 2001:3001(1000) ack 1\n",
        "two_left_out": HEAD
        + "+0 write(4, ..., 2500) = 2500\n+0.1 < . 1:1(0) ack 2001 win 257\n+0 > P. 2001:2501(500) ack 1\n",
        "crlf": (WRITES + "+0.3 > P. 1:501(500) ack 1\n+0 close(4) = 0\n").replace("\n", "\r\n"),
        "no_end": WRITES + "+0 > P. 1:501(500) ack 1",
        "several_lines": WRITES + "+0 > P.\n 1:501(500)\n ack 1\n+0 close(4) = 0\n",
        "one_line": HEAD.replace("\n", " ") + "\n+0 close(4) = 7 // why\n",
        "comment_inside": WRITES + "+0 > P. /* x */ 1:501(500) ack 1 // y\n",
        "alone": "0 close(3) = 0\n",
        "options": HEAD.replace("<...>", "<mss 1000>"),
        "without_options": HEAD.replace(" <...>", ""),
        "late": WRITES + "+0.5 > P. 1:1001(1000) ack 1\n+0.1 < . 1:1(0) ack 1001 win 257\n+0 close(4) = 0\n",
        "backwards": WRITES + "0 close(4) = 0\n",
        "unicode": WRITES + "/* \U0001f980 */ +0 > P. 1:501(500) ack 1 // \U0001f980\n",
    }
    return [*found, *((f"{name}.pkt", text) for name, text in more.items())]


def failing_cases() -> Iterator[str]:
    """The scripts of the tables of cases that don't pass under the settings that hold by themselves."""
    for file in sorted(CASES.glob("*.cases")):
        head = None
        for line in file.read_text().splitlines():
            if line.startswith("["):
                head = {"scripts": "", "scripts behind accepted": HEAD}.get(line.partition("] ")[2])
            elif head is not None and (found := _CASE.fullmatch(line)):
                yield head + found[1].replace("\\n", "\n").replace("\\t", "\t").replace("\\r", "\r") + "\n"
