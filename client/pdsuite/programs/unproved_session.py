"""A session with the programs of a tree as it stands: they are built once, without proofs, for many starts."""

import os
import select
import tempfile
from collections.abc import Iterator, Sequence
from pathlib import Path

from pdsuite.programs.batch_protocol import (
    ProgramAnswer,
    Case,
    answer_from_status,
    batch_input,
    cases_prefixed_with_program_and_words,
    take_whole_length_prefixed_parts,
)
from pdsuite.programs.build import BuildError
from pdsuite.programs.locate import RECORD
from pdsuite.programs.unproved_batch import BatchTool, ProgramCases
from pdsuite.signals import Stop

# So many starts may end the programs on the way; then others go on, of the same build.
_ENDS = 256
# One session may take so many seconds.
_SECONDS = 1_000_000
_READ = 1 << 18
_PARTS = 3
_ENDED = "the programs ended on it"


class UnprovedSession:
    """Starts a tree's programs one after the other, through named pipes. It ends with its block."""

    def __init__(self, tree: Path, stop: Stop) -> None:
        self._stop = stop
        self._folder = tempfile.TemporaryDirectory(prefix="pdsuite-")
        self._pipes = _make_named_pipe_pairs(Path(self._folder.name))
        inputs = [f"{requests}\n{answers}\n".encode() for requests, answers in self._pipes]
        self._tool = BatchTool(tree, inputs, Path(self._folder.name), "--seconds", str(_SECONDS))
        self._requests = self._answers = -1
        self._open_next_pipes()

    def __enter__(self) -> "UnprovedSession":
        return self

    def __exit__(self, *error: object) -> None:
        self._close_pipe_descriptors()
        self._tool.end_tool()
        self._folder.cleanup()

    def wait_silently_until_built(self) -> None:
        """Waits until the programs are built."""
        self._query_all_cases_or_until_programs_end([Case((RECORD,), b"")])

    def run_cases(self, cases: ProgramCases) -> list[ProgramAnswer]:
        """The answers to the cases of a build of this tree."""
        left = list(cases_prefixed_with_program_and_words(cases.program, cases.words, cases.cases))
        answers: list[ProgramAnswer] = []
        while left:
            answered = self._query_all_cases_or_until_programs_end(left)
            answers += answered
            left = left[len(answered) :]
            if left:
                answers.append(ProgramAnswer(b"", b"", _ENDED))
                del left[0]
                self._close_pipe_descriptors()
                self._open_next_pipes()
        return answers

    def _open_next_pipes(self) -> None:
        """Opens the pipes of the next programs."""
        if not self._pipes:
            raise BuildError(f"unproved: the programs ended {_ENDS} times")
        requests, answers = self._pipes.pop(0)
        # So neither waits for the other side.
        self._requests = os.open(requests, os.O_RDWR | os.O_NONBLOCK | os.O_CLOEXEC)
        self._answers = os.open(answers, os.O_RDONLY | os.O_NONBLOCK | os.O_CLOEXEC)

    def _close_pipe_descriptors(self) -> None:
        for each in (self._requests, self._answers):
            os.close(each)

    def _query_all_cases_or_until_programs_end(self, cases: Sequence[Case]) -> list[ProgramAnswer]:
        """The answers to the cases, up to one on which the programs end."""
        unsent = memoryview(batch_input(cases))
        got = bytearray()
        parts: list[bytes] = []
        poll = select.poll()
        for each in (self._answers, self._tool.fileno(), self._stop.fileno()):
            poll.register(each, select.POLLIN)
        poll.register(self._requests, select.POLLOUT)
        while len(parts) < _PARTS * len(cases):
            ready = dict(poll.poll())
            self._stop.raise_if_stopped()
            if self._requests in ready:
                unsent = unsent[os.write(self._requests, unsent) :]
                if not unsent:
                    poll.unregister(self._requests)
            if self._answers in ready:
                octets = os.read(self._answers, _READ)
                if not octets:
                    break
                got += octets
                parts += take_whole_length_prefixed_parts(got)
            elif self._tool.fileno() in ready:
                self._tool.raise_if_build_failed()
                raise BuildError("unproved: the programs have ended")
        return list(_answers_from_parts(parts))


def _make_named_pipe_pairs(folder: Path) -> list[tuple[Path, Path]]:
    """The named pipes in a folder: one for the cases, and one for the answers."""
    pipes = [(folder / f"asks.{number}", folder / f"answers.{number}") for number in range(_ENDS)]
    for pair in pipes:
        for each in pair:
            os.mkfifo(each)
    return pipes


def _answers_from_parts(parts: Sequence[bytes]) -> Iterator[ProgramAnswer]:
    for written, errors, status in zip(*[iter(parts)] * _PARTS):
        yield answer_from_status(written, errors, status.decode().strip())
