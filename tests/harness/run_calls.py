"""Makes the calls of tests: by programs that are built, or by their sources as they are, without proofs."""

import contextlib
import os
import subprocess
import sys
import tempfile
import time
from collections.abc import Mapping, Sequence
from dataclasses import dataclass
from pathlib import Path

from harness.batch_calls import fits_the_batch, outputs_in, encode_starts
from harness.calls import NO_STATUS, Outputs, ProgramCall, ProgramOutput
from harness.tables import TOP

# The time that a call may take, in seconds by the clock: long, so that a busy machine fails none.
SECONDS = 300
# The same without proofs, where a call is some ten times as slow, and one process may make all of them.
UNPROVED_SECONDS = 3_600
# A build takes as many processors.
JOBS = 2
TOOLS = TOP / "tools"
PYTHON = (sys.executable, "-B")


Commands = Mapping[str, Sequence[str | Path]]


def run_calls(commands: Commands, calls: Sequence[ProgramCall]) -> Outputs:
    """Calls the programs of these commands, each call by itself, and for all other programs their sources."""
    outputs: Outputs = [call_program(commands[it.program], it) if it.program in commands else None for it in calls]
    others = [place for place, call in enumerate(calls) if call.program not in commands]
    if others:
        for place, output in zip(others, call_sources([calls[place] for place in others])):
            outputs[place] = output
    return outputs


def call_program(command: Sequence[str | Path], call: ProgramCall) -> ProgramOutput:
    """The output of a program for a call; one that takes too long is ended, and has an error text and no status."""
    command_line = [*map(os.fsencode, command), *call.arguments]
    try:
        if call.counts_read:
            return call_counting_octets_read_of_input(command_line, call.given)
        if call.files:
            return call_in_folder(command_line, call)
        done = subprocess.run(command_line, input=call.given, capture_output=True, timeout=SECONDS)
    except subprocess.TimeoutExpired:
        return ProgramOutput(b"", b"came to no end", NO_STATUS)
    return ProgramOutput(done.stdout, done.stderr, done.returncode)


def call_counting_octets_read_of_input(command_line: Sequence[bytes], given: bytes) -> ProgramOutput:
    """The same, and how far a file is read that is the input."""
    with tempfile.TemporaryFile() as file:
        file.write(given)
        file.seek(0)
        done = subprocess.run(command_line, stdin=file, capture_output=True, timeout=SECONDS)
        return ProgramOutput(done.stdout, done.stderr, done.returncode, os.lseek(file.fileno(), 0, os.SEEK_CUR))


def call_in_folder(command_line: Sequence[bytes], call: ProgramCall) -> ProgramOutput:
    """The same in a folder that has the files of a call."""
    with tempfile.TemporaryDirectory() as folder:
        for name, octets in call.files:
            Path(folder, name).write_bytes(octets)
        command = [os.path.abspath(command_line[0]), *command_line[1:]]
        done = subprocess.run(command, input=call.given, capture_output=True, timeout=SECONDS, cwd=folder)
        return ProgramOutput(done.stdout, done.stderr, done.returncode)


def fits_rt_try_case(call: ProgramCall) -> bool:
    """Whether a case of `rt try` can have these arguments, and no files."""
    if call.files:
        return False
    try:
        arguments = [it.decode() for it in call.arguments]
    except UnicodeDecodeError:
        return False
    return not any("\n" in it or it.endswith("\r") or it == "{}" for it in arguments)


@dataclass
class SourceCalls:
    """Calls of one program by their places among all, in a folder, and the process that makes them by its sources."""

    program: str
    calls: dict[int, ProgramCall]
    folder: Path
    process: "subprocess.Popen[bytes] | None" = None
    begun: float = 0.0

    def write_calls_and_give_command(self) -> list[str | Path]:
        """Puts the calls into the folder, and gives the command that makes them."""
        cases, answers = self.folder / "cases", self.folder / "answers"
        cases.mkdir(parents=True)
        answers.mkdir()
        for place, call in self.calls.items():
            (cases / f"{place}").write_bytes(call.given)
            (cases / f"{place}.args").write_bytes(b"".join(it + b"\n" for it in call.arguments))
        seconds = ["--seconds", str(UNPROVED_SECONDS)]
        return [*PYTHON, TOOLS / "run_cases.py", *seconds, self.program, cases, answers]

    def read_outputs(self) -> dict[int, ProgramOutput]:
        """The outputs of the calls."""
        return {place: self.read_output(place) for place in self.calls}

    def start(self) -> None:
        command = self.write_calls_and_give_command()
        with (self.folder / "log").open("wb") as log:
            self.process = subprocess.Popen(command, stdin=subprocess.DEVNULL, stderr=log)
        self.begun = time.monotonic()

    def has_ended_printing_time_and_failure(self) -> bool:
        """Whether the process has ended; prints a line if it has."""
        if self.process is None or self.process.poll() is None:
            return False
        seconds = time.monotonic() - self.begun
        print(f"{self.program}, without proofs: {len(self.calls)} calls in {seconds:.0f} s", flush=True)
        if self.process.returncode:
            print(f"FAILED {self.read_log()}", flush=True)
        return True

    def terminate_process(self) -> None:
        if self.process is not None and self.process.poll() is None:
            self.process.terminate()
            self.process.wait()

    def read_log(self) -> str:
        return (self.folder / "log").read_text(errors="replace")

    def read_output(self, place: int) -> ProgramOutput:
        """The output of a call."""
        file = self.folder / "answers" / f"{place}"
        with contextlib.suppress(FileNotFoundError):
            status = file.with_suffix(".status").read_text()
            errors = file.with_suffix(".errors").read_bytes()
            if not status.isdigit():
                return ProgramOutput(b"", errors + status.encode(), NO_STATUS)
            return ProgramOutput(file.with_suffix(".output").read_bytes(), errors, int(status))
        return ProgramOutput(b"", self.read_log().partition("\n")[0].encode(), NO_STATUS)


class BatchCalls(SourceCalls):
    """Calls of both programs, which one process makes in memory: up to one that ends it."""

    def write_calls_and_give_command(self) -> list[str | Path]:
        starts, answers = self.folder / "starts", self.folder / "answers"
        starts.mkdir(parents=True)
        answers.mkdir()
        (self.folder / "calls").write_bytes(encode_starts(list(self.calls.values())))
        (starts / "all").write_text(f"{self.folder / 'calls'}\n{self.folder / 'outputs'}\n")
        return [*PYTHON, TOOLS / "run_batch.py", "--seconds", str(UNPROVED_SECONDS), starts, answers]

    def read_outputs(self) -> dict[int, ProgramOutput]:
        with contextlib.suppress(FileNotFoundError):
            return dict(zip(self.calls, outputs_in((self.folder / "outputs").read_bytes())))
        return {}


def call_sources(calls: Sequence[ProgramCall]) -> Outputs:
    """Calls the sources: after one build what can be run in memory, and by a case each the other calls."""
    batch = {place: call for place, call in enumerate(calls) if fits_the_batch(call)}
    possible = {place: call for place, call in enumerate(calls) if fits_rt_try_case(call)}
    cases = {place: call for place, call in possible.items() if place not in batch}
    with tempfile.TemporaryDirectory() as name:
        folder = Path(name)
        together = BatchCalls("both programs", batch, folder / "both")
        groups = [*[together] * bool(batch), *group_by_program(cases, folder / "first")]
        run_groups_up_to_two_side_by_side(groups)
        outputs = {place: it for group in groups for place, it in group.read_outputs().items()}
        rest = group_by_program(
            {place: call for place, call in possible.items() if place not in outputs}, folder / "again"
        )
        run_groups_up_to_two_side_by_side(rest)
        outputs |= {place: it for group in rest for place, it in group.read_outputs().items()}
    return [outputs.get(place) for place in range(len(calls))]


def group_by_program(calls: Mapping[int, ProgramCall], folder: Path) -> list[SourceCalls]:
    """The calls of each program; the program with most calls comes first."""
    groups: dict[str, SourceCalls] = {}
    for place, call in calls.items():
        groups.setdefault(call.program, SourceCalls(call.program, {}, folder / call.program)).calls[place] = call
    return sorted(groups.values(), key=lambda it: -len(it.calls))


def run_groups_up_to_two_side_by_side(groups: Sequence[SourceCalls]) -> None:
    """Makes groups of calls, two side by side if there are processors."""
    waiting, running = list(groups), list[SourceCalls]()
    most = max(1, min(2, len(os.sched_getaffinity(0)) // JOBS))
    try:
        while waiting or running:
            while waiting and len(running) < most:
                running.append(waiting[0])
                waiting.pop(0).start()
            running = [it for it in running if not it.has_ended_printing_time_and_failure()]
            time.sleep(0.1)
    finally:
        for group in running:
            group.terminate_process()
