"""Runs the programs of a tree as it stands, without proofs: the tree's tools build both as one, which starts them."""

import os
import select
import signal
import subprocess
import sys
import tempfile
from collections.abc import Sequence
from concurrent.futures import ThreadPoolExecutor
from contextlib import suppress
from dataclasses import dataclass
from itertools import islice
from pathlib import Path

from pdsuite.output.octets import printable_octets
from pdsuite.programs.batch_protocol import (
    ProgramAnswer,
    Case,
    batch_input,
    parse_batch_answers_or_faults,
    cases_prefixed_with_program_and_words,
    split_into_batches_by_expected_output,
)
from pdsuite.programs.build import BuildError
from pdsuite.programs.locate import BATCH_TOOL
from pdsuite.signals import Stop

# So many trees are built side by side at most.
_MOST = 4
_GRACE = 15.0


@dataclass(frozen=True, slots=True)
class ProgramCases:
    """A program of a tree, the words of all its starts, and these."""

    tree: Path
    program: str
    words: tuple[str, ...]
    cases: tuple[Case, ...]


def build_and_run_cases(groups: Sequence[ProgramCases], stop: Stop) -> list[list[ProgramAnswer]]:
    """The answers to the cases of each program; both programs of a tree are built as one, and trees side by side."""
    cases: dict[Path, list[Case]] = {it.tree: [] for it in groups}
    for it in groups:
        cases[it.tree] += cases_prefixed_with_program_and_words(it.program, it.words, it.cases)
    with ThreadPoolExecutor(min(len(os.sched_getaffinity(0)), _MOST)) as pool:
        answered = list(
            pool.map(
                lambda tree: _answer_all_batches_by_one_build(
                    tree, list(split_into_batches_by_expected_output(cases[tree])), stop
                ),
                cases,
            )
        )
    answers = {tree: iter(each) for tree, each in zip(cases, answered)}
    return [list(islice(answers[it.tree], len(it.cases))) for it in groups]


def _answer_all_batches_by_one_build(tree: Path, batches: Sequence[Sequence[Case]], stop: Stop) -> list[ProgramAnswer]:
    """The answers of a tree's programs, which are built for them."""
    stop.raise_if_stopped()
    with tempfile.TemporaryDirectory(prefix="pdsuite-") as folder:
        tool = BatchTool(tree, [batch_input(it) for it in batches], Path(folder))
        try:
            wait_readable_or_raise_if_stopped(tool.fileno(), stop)
        finally:
            tool.end_tool()
        tool.raise_if_build_failed()
        return [it for number, run in enumerate(batches) for it in _read_batch_answers(tool, number, len(run))]


def _read_batch_answers(tool: "BatchTool", number: int, count: int) -> list[ProgramAnswer]:
    output, errors, status = (tool.read_result_file(number, end) for end in ("output", "errors", "status"))
    return parse_batch_answers_or_faults(output, errors, status.decode(), count)


def wait_readable_or_raise_if_stopped(descriptor: int, stop: Stop) -> None:
    """Waits until something can be read from a descriptor, or a signal comes."""
    poll = select.poll()
    for each in (descriptor, stop.fileno()):
        poll.register(each, select.POLLIN)
    while descriptor not in dict(poll.poll()):
        stop.raise_if_stopped()


class BatchTool:
    """The tool that builds a tree's programs as one and runs it on inputs, in a process group of its own."""

    def __init__(self, tree: Path, inputs: Sequence[bytes], room: Path, *words: str) -> None:
        starts, self._answers, self._errors = room / "starts", room / "answers", room / "said"
        starts.mkdir()
        self._answers.mkdir()
        for number, octets in enumerate(inputs):
            (starts / f"{number:06}").write_bytes(octets)
        command: list[str | Path] = [sys.executable, "-B", BATCH_TOOL, *words, "--tree", tree, starts, self._answers]
        with self._errors.open("wb") as file:
            self._process = subprocess.Popen(
                command, stdin=subprocess.DEVNULL, stdout=subprocess.DEVNULL, stderr=file, process_group=0
            )
        self._descriptor = os.pidfd_open(self._process.pid)

    def fileno(self) -> int:
        """The descriptor that can be read once the tool has ended."""
        return self._descriptor

    def end_tool(self) -> None:
        """Ends the tool, if it hasn't ended, which ends what it started."""
        for number in (signal.SIGTERM, signal.SIGKILL):
            if self._process.poll() is None:
                with suppress(ProcessLookupError):
                    self._process.send_signal(number)
                with suppress(subprocess.TimeoutExpired):
                    self._process.wait(_GRACE)
        self._process.wait()
        os.close(self._descriptor)

    def raise_if_build_failed(self) -> None:
        """Says why nothing was run, if so it was: the tool has ended."""
        if status := self._process.wait():
            first, *lines = self._errors.read_bytes().splitlines() or [b"the tool ended with status %d" % status]
            reason = printable_octets(first).partition("unproved: ")[2] or printable_octets(first)
            raise BuildError("\n".join([f"unproved: {reason}", *map(printable_octets, lines)]))

    def read_result_file(self, number: int, end: str) -> bytes:
        """The result of an input: its output, its errors or its status."""
        return (self._answers / f"{number:06}.{end}").read_bytes()
