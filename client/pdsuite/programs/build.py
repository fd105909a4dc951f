"""A build of a tree's programs without proofs, which the tools keep: started, waited for by a descriptor, ended."""

import os
import select
import signal
import subprocess
import sys
import tempfile
import time
from collections.abc import Callable
from contextlib import suppress
from pathlib import Path
from typing import IO, Literal

from pdsuite.faults import Fault
from pdsuite.output.octets import printable_octets
from pdsuite.programs.locate import BUILD_TOOL, MUTANTS_TOOL
from pdsuite.signals import Stop

# `optimised` runs fastest, `plain` is built first and says where it stops, `any` is what is kept, or else plain.
# `mutants` has all mutants of the sender, too; a tool of its own builds it.
BuildMode = Literal["plain", "optimised", "any", "mutants"]

_READ = 1 << 16
_GRACE = 15.0
_BUILT = b"built "
_NO_BUILD = 3


class BuildError(Fault):
    """That a tree's programs can't be run as they stand; the lines below the first are what the compiler says."""


class NoKeptBuildError(Fault):
    """That none can be built and kept here, and why; `rt try` may run the programs still."""


def find_kept_build(tree: Path, mode: BuildMode = "any") -> Path | None:
    """The folder of both programs of a tree, each by its name, where they are kept; nothing is built."""
    command = _build_command(tree, mode, "--kept")
    if not BUILD_TOOL.is_file():
        return None
    done = subprocess.run(command, stdin=subprocess.DEVNULL, capture_output=True, process_group=0)
    return _last_built_folder_in_output(done.stdout) if done.returncode == 0 else None


def build_if_needed_and_get_folder(
    tree: Path, mode: BuildMode, stop: Stop, note: Callable[[str, float], None] = lambda *_: None
) -> Path:
    """The folder of both programs of a tree, built now if need be; a note comes with each phase and about each second.

    Raises BuildError where the sources don't compile, and NoKeptBuildError where none can be built and kept.
    """
    if not _build_tool(mode).is_file():
        raise NoKeptBuildError("the tree has no tool that builds")
    with Build(tree, mode) as building:
        poll = select.poll()
        for each in (building.fileno(), stop.fileno()):
            poll.register(each, select.POLLIN)
        while not building.is_over:
            poll.poll(1_000)
            stop.raise_if_stopped()
            building.read_output_to_update_phase_and_is_over()
            if building.phase:
                note(building.phase, building.phase_seconds)
        return building.wait_and_require_programs_folder()


class Build:
    """The tool that builds a tree's programs, or finds them built, in a process group of its own.

    It ends with the block that uses it, which ends what it started.
    """

    def __init__(self, tree: Path, mode: BuildMode) -> None:
        self._errors: IO[bytes] = tempfile.TemporaryFile()
        self._process = subprocess.Popen(
            _build_command(tree, mode),
            stdin=subprocess.DEVNULL,
            stdout=subprocess.PIPE,
            stderr=self._errors,
            bufsize=0,
            process_group=0,  # a key of the terminal ends the client alone
        )
        assert self._process.stdout is not None
        self._out = self._process.stdout
        os.set_blocking(self._out.fileno(), False)
        self._got = b""
        self._begin = time.monotonic()
        # Whether it has ended, and the phase that goes on: reading, compiling, linking, or waiting for another call's.
        self.is_over = False
        self.phase = ""

    def __enter__(self) -> "Build":
        return self

    def __exit__(self, *error: object) -> None:
        self.end_tool()

    def fileno(self) -> int:
        """The descriptor that can be read once a phase begins, and at the end."""
        return self._out.fileno()

    @property
    def phase_seconds(self) -> float:
        """For how long the phase goes on, in seconds."""
        return time.monotonic() - self._begin

    def read_output_to_update_phase_and_is_over(self) -> None:
        """Takes what the tool says now, without waiting."""
        with suppress(BlockingIOError):
            while octets := os.read(self.fileno(), _READ):
                self._got += octets
            self.is_over = True
        lines = [it for it in self._got.split(b"\n")[:-1] if not it.startswith(_BUILT)]
        if lines and printable_octets(lines[-1]) != self.phase:
            self.phase, self._begin = printable_octets(lines[-1]), time.monotonic()

    def wait_and_require_programs_folder(self) -> Path:
        """The folder of both programs, once it is over. Raises BuildError and NoKeptBuildError."""
        status = self._process.wait()
        if status == 0:
            return _last_built_folder_in_output(self._got)
        self._errors.seek(0)
        first, *lines = self._errors.read().splitlines() or [b"the tool ended with status %d" % status]
        reason = printable_octets(first).partition("unproved: ")[2] or printable_octets(first)
        if status == _NO_BUILD:
            raise NoKeptBuildError(reason)
        raise BuildError("\n".join([f"unproved: {reason}", *map(printable_octets, lines)]))

    def end_tool(self) -> None:
        """Ends the tool, if it hasn't ended, which ends what it started and leaves nothing."""
        for number in (signal.SIGTERM, signal.SIGKILL):
            if self._process.poll() is None:
                with suppress(ProcessLookupError):
                    self._process.send_signal(number)
                with suppress(subprocess.TimeoutExpired):
                    self._process.wait(_GRACE)
        self._process.wait()
        self._out.close()
        self._errors.close()


def _build_command(tree: Path, mode: BuildMode, *words: str) -> list[str | Path]:
    # As the tools start each other: what isn't requested isn't looked for either.
    way = [] if mode == "mutants" else ["--way", mode]
    return [sys.executable, "-EsSB", _build_tool(mode), *way, "--tree", tree, *words]


def _build_tool(mode: BuildMode) -> Path:
    return MUTANTS_TOOL if mode == "mutants" else BUILD_TOOL


def _last_built_folder_in_output(output: bytes) -> Path:
    """The folder that the tool names last."""
    *_, last = output.splitlines()
    return Path(os.fsdecode(last.removeprefix(_BUILT)))
