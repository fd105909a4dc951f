#!/usr/bin/python3 -IS
"""A fake of the kit's `rt try --cases` of tools/batch.rattle: it starts fake programs that do what scripts say.

NOTES names a folder, which gets a line for each build. A tree whose pdregress has a src/main.rt isn't compiled. The
tree's file crates/pdregress/src/change says, for `sed`, what its sender does otherwise.
"""

import io
import os
import subprocess
import sys
import time
from collections.abc import Iterator
from pathlib import Path
from typing import BinaryIO

HERE = Path(__file__).resolve().parent
NOTES = Path(os.environ["NOTES"])


def output_of(program: str, words: list[str], given: bytes) -> "subprocess.CompletedProcess[bytes]":
    """The outputs and the status of a fake program that gets this input."""
    return subprocess.run([HERE / program, *words], input=given, capture_output=True)


def changed(given: bytes) -> bytes:
    """An input as the tree's sender reads it."""
    change = Path("../pdregress/src/change")
    return subprocess.check_output(["sed", "-f", change], input=given) if change.exists() else given


def explained(words: list[str], given: bytes) -> tuple[bytes, bytes, int]:
    """The report of pdregress, with what it explains beside that."""
    done = output_of("pdregress", words, given + b"settle\n")
    rows = [line.split(b" ")[1] for line in done.stdout.splitlines() if line.startswith(b"s")]
    return done.stdout, done.stderr, done.returncode or int(any(it != b"pass" for it in rows))


def recorded(words: list[str], given: bytes) -> tuple[bytes, bytes, int]:
    """The recording of pdrecord."""
    done = output_of("pdrecord", words, given)
    return done.stdout, done.stderr, done.returncode


def parts(file: BinaryIO) -> Iterator[bytes]:
    """The parts of an input, each after a line with its length."""
    while length := file.readline():
        yield file.read(int(length))


def serve(starts: BinaryIO, output: BinaryIO) -> bool:
    """Answers all starts of an input; false where one ends the program by a fault."""
    found = parts(starts)
    for joined, one in zip(found, found):
        program, *words = joined.decode().split("\0")
        *outputs, status = (recorded if program == "pdrecord" else explained)(words, changed(one))
        if status not in (0, 1, 2):
            return False
        output.write(b"".join(b"%d\n%b" % (len(it), it) for it in (*outputs, b"%d\n" % status)))
        output.flush()
    return True


def started(given: bytes) -> tuple[bytes, bool]:
    """Answers the starts of an input, or of a pipe that it names; the output, and whether no start ends by a fault."""
    if given.startswith(b"/"):
        requests, answers = given.decode().splitlines()
        with open(requests, "rb") as starts, open(answers, "wb") as pipe:
            return b"", serve(starts, pipe)
    output = io.BytesIO()
    has_ended = serve(io.BytesIO(given), output)
    return output.getvalue() if has_ended else b"", has_ended


def answer(name: str, given: bytes) -> None:
    """Runs a case, and says what came of it as `rt` does."""
    output, has_ended = started(given)
    if has_ended:
        sys.stdout.buffer.write(b"== %b\n%b" % (name.encode(), output))
        sys.stdout.buffer.flush()
        print(f"case={name} run=ended status=0 runners=1 proved=no", file=sys.stderr, flush=True)
    else:
        print(f"checked: fault a failed unwrap\ncase={name} run=fault proved=no", file=sys.stderr, flush=True)


def main() -> int:
    """Does `rt try --seconds N --cases FOLDER`."""
    with (NOTES / "builds").open("a") as builds:
        print(Path.cwd(), file=builds)
    wrong = Path.cwd().parent / "pdregress/src/main.rt"
    if wrong.exists():
        print(f"{wrong}:1:2: error[mismatched-types]: wrong\nrun=none proved=no", file=sys.stderr)
        return 1
    if (NOTES / "stall").exists():
        (NOTES / "mark").write_text(str(os.getpid()))
        time.sleep(60)
    for file in sorted(it for it in Path(sys.argv[5]).iterdir() if it.suffix != ".args"):
        answer(file.name, file.read_bytes())
    print("cases=1 ended=1 fault=0 differs=0 no-answer=0 proved=no", file=sys.stderr)
    return 0


sys.exit(main())
