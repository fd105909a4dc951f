"""Runs programs without proofs, by the kit's `rt try`, which builds the program anew at each call.

`run_once` runs a program on one input, `run_cases` on many after one build, of this tree or of another one. The tree is
only read: what is written goes into a folder that the caller names. Where there is no answer, a name that stays and a
sentence say why.
"""
from __future__ import annotations

import contextlib
import os
import re
import secrets
import shutil
import signal
import subprocess
from collections.abc import Iterator, Sequence
from dataclasses import dataclass
from pathlib import Path
from typing import Union

TOP = Path(__file__).resolve().parents[1]
# The input that `rt try` hands on is below this, in octets.
MOST_INPUT = 64 << 20
# The seconds that a run gets by default, and those that `rt try` gets to end what it started.
SECONDS = 600
GRACE = 10

# The last line of `rt try`, with the lines before it that are its own, or that of a case without its name.
LAST = re.compile(
    rb"^(?:(?:interpreter|checked|races): .*\n)*run=(\S+)(?: status=(\d+))?.* proved=no\n\Z", re.MULTILINE
)
CHECKED = re.compile(rb"^checked: (?:no-answer: |fault )?(.*)$", re.MULTILINE)
TOO_MUCH_OUTPUT = b"the program wrote more than"
TOO_SLOW = b"the program did not end within the time limit"
REFUSED = 1


@dataclass(frozen=True)
class TryCase:
    """The arguments of a run and its input."""

    arguments: tuple[bytes, ...]
    given: bytes


@dataclass(frozen=True)
class TryOutput:
    """The standard output of a program, its standard error, and its status."""

    output: bytes
    errors: bytes
    status: int


@dataclass(frozen=True)
class NoAnswer:
    """Why there is no answer: a name that stays, a sentence, and what `rt try` printed, where that explains more."""

    name: str
    why: str
    printed: bytes = b""


TryResult = Union[TryOutput, NoAnswer]


class NotRunError(Exception):
    """That nothing was run, and why."""

    def __init__(self, reason: NoAnswer) -> None:
        super().__init__(f"{reason.name}: {reason.why}")
        self.reason = reason


@dataclass(frozen=True)
class TryCall:
    """A call of `rt try` that has ended."""

    status: int
    output: bytes
    printed: bytes


def run_once(program: str, arguments: Sequence[bytes], given: Path, folder: Path, seconds: int = SECONDS) -> TryResult:
    """The result of a program with these arguments, and a file as its input."""
    if given.stat().st_size >= MOST_INPUT:
        raise NotRunError(NoAnswer("TooMuchInput", "the input has 64 MiB or more"))
    called = run_program_crate_by_rt_try(program, [b"--seconds", b"%d" % seconds, b"--", *arguments], given, folder)
    return result_from_last_line_or_raise(called, called.output, called.printed, seconds)


def run_cases(
    program: str,
    cases: Sequence[TryCase],
    folder: Path,
    seconds: int = SECONDS,
    arguments: Sequence[bytes] = (),
    top: Path = TOP,
    steps: int | None = None,
) -> list[TryResult]:
    """The results of cases, in whose own arguments is no newline; those of all cases may have some.

    Outputs get a newline at their end if need be. So many steps are interpreted first, if the number is given.
    """
    if not cases:
        return []
    # By chance no program writes such a name.
    token = secrets.token_hex(8)
    names = [f"{token}-{number:06}".encode() for number in range(len(cases))]
    case_folder = folder / "cases"
    case_folder.mkdir()
    for name, case in zip(names, cases):
        write_case_input_and_arguments(case_folder / name.decode(), case)
    options = [b"--seconds", b"%d" % seconds, b"--cases", os.fsencode(case_folder)]
    options += [] if steps is None else [b"--steps", b"%d" % steps]
    called = run_program_crate_by_rt_try(
        program, options + ([b"--", *arguments] if arguments else []), Path(os.devnull), folder, top
    )
    shutil.rmtree(case_folder)
    outputs = dict(split_into_heading_and_text_pairs(rb"^== (%b-\d+)\n" % token.encode(), called.output))
    return [
        result_from_last_line_or_raise(called, outputs.get(name, b""), printed, seconds)
        for name, printed in zip(names, split_rt_try_log_into_cases(names, called))
    ]


def write_case_input_and_arguments(file: Path, case: TryCase) -> None:
    """Writes a case as `rt try --cases` reads it."""
    if any(b"\n" in it for it in case.arguments):
        raise ValueError("an argument of a case has a newline")
    file.write_bytes(case.given)
    file.with_name(f"{file.name}.args").write_bytes(b"".join(it + b"\n" for it in case.arguments))


def split_rt_try_log_into_cases(names: Sequence[bytes], called: TryCall) -> Iterator[bytes]:
    """The lines that `rt try` printed for each case, the last one as it is for a single run."""
    begin = 0
    for name in names:
        end = re.compile(rb"^case=%b (.*\n)" % name, re.MULTILINE).search(called.printed, begin)
        if end is None:
            raise NotRunError(why_not_run(called))
        yield called.printed[begin : end.start()] + end[1]
        begin = end.end()


def split_into_heading_and_text_pairs(heading: bytes, text: bytes) -> Iterator[tuple[bytes, bytes]]:
    """The name in each heading with what stands below it."""
    _, *parts = re.split(heading, text, flags=re.MULTILINE)
    return zip(parts[::2], parts[1::2])


def result_from_last_line_or_raise(called: TryCall, output: bytes, printed: bytes, seconds: int) -> TryResult:
    """The result, by the last line that was printed."""
    last = LAST.search(printed)
    if last is None or last[1] == b"none":
        raise NotRunError(why_not_run(called))
    if last[1] == b"ended":
        return TryOutput(output, printed[: last.start()], int(last[2]))
    found = CHECKED.search(last[0])
    why = found[1] if found else last[1]
    if why.startswith(TOO_MUCH_OUTPUT):
        return NoAnswer("TooMuchOutput", "an output has more than 1 MiB")
    if why.startswith(TOO_SLOW):
        return NoAnswer("TooSlow", f"the program didn't end within {seconds} seconds")
    if last[1] == b"fault":
        return NoAnswer("Faulted", why.decode(errors="replace"), printed[: last.start()])
    return NoAnswer("NoAnswer", why.decode(errors="replace"))


def why_not_run(called: TryCall) -> NoAnswer:
    """Why `rt try` ran nothing, or stopped on the way."""
    printed = LAST.sub(b"", called.printed)
    if called.status == REFUSED:
        return NoAnswer("NotCompiled", "the program doesn't compile", printed)
    return NoAnswer("ToolFailed", f"`rt try` ended with status {called.status}", printed)


def check_kit_on_path() -> None:
    """Checks that there is the kit's command."""
    if shutil.which("rt") is None:
        raise NotRunError(NoAnswer("NoKit", "the Rattle kit's command 'rt' has to be on the PATH"))


def printed_lines_with_whole_paths(program: str, printed: bytes, top: Path = TOP) -> bytes:
    """Printed lines, with whole paths of the files of the program's own crate."""
    folder = os.fsencode(top / "crates" / program)
    return re.sub(rb"^(?=src/|specs/|proofs/)", lambda _: folder + b"/", printed, flags=re.MULTILINE)


def run_program_crate_by_rt_try(
    program: str, arguments: Sequence[bytes], given: Path, folder: Path, top: Path = TOP
) -> TryCall:
    """Calls `rt try` on a program. Whatever ends this, ends what was started."""
    check_kit_on_path()
    output, log = folder / "output", folder / "log"
    with given.open("rb") as input_file, output.open("wb") as output_file, log.open("wb") as log_file:
        process = subprocess.Popen(
            [b"rt", b"try", *arguments],
            cwd=top / "crates" / program,
            stdin=input_file,
            stdout=output_file,
            stderr=log_file,
            env={**os.environ, "TMPDIR": str(folder)},
            start_new_session=True,
        )
        try:
            status = process.wait()
        finally:
            terminate_then_kill_process_session(process)
    return TryCall(status, output.read_bytes(), log.read_bytes())


def terminate_then_kill_process_session(process: subprocess.Popen[bytes]) -> None:
    """Ends a session, if it hasn't ended, which ends its own."""
    for number in (signal.SIGTERM, signal.SIGKILL):
        if process.poll() is None:
            with contextlib.suppress(ProcessLookupError):
                os.killpg(process.pid, number)
            with contextlib.suppress(subprocess.TimeoutExpired):
                process.wait(GRACE)
