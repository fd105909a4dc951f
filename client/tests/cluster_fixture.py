"""A Dask scheduler with workers on this machine, as someone would start them by hand.

Each is a process of its own, forked from one that has imported the library already.
"""

import os
import signal
import sys
import time
from contextlib import suppress
from dataclasses import dataclass, field
from importlib import import_module
from multiprocessing import get_context
from multiprocessing.process import BaseProcess
from pathlib import Path

from tests.helpers import HANGS

_SCHEDULER = "distributed.cli.dask_scheduler"
_WORKER = "distributed.cli.dask_worker"
_FORKS = get_context("forkserver")
_FORKS.set_forkserver_preload([_SCHEDULER, _WORKER])
_HOST = ["--host", "127.0.0.1", "--no-dashboard", "--dashboard-address", "127.0.0.1:0"]


@dataclass
class LocalCluster:
    """A scheduler that ends a run's tries with the third worker that it ended, and its workers."""

    folder: Path
    address: str = ""
    workers: list[BaseProcess] = field(default_factory=list)

    def __post_init__(self) -> None:
        self.folder.mkdir()
        words = [_SCHEDULER, *_HOST, "--port", "0"]
        self.scheduler = self._start("scheduler", words, DASK_DISTRIBUTED__SCHEDULER__ALLOWED_FAILURES="2")
        self.address = self._logged("scheduler", "Scheduler at:")

    def add(self, programs: Path, *words: str) -> None:
        """Starts one more worker, of one thread and without a nanny if no other words are given."""
        name = f"worker{len(self.workers)}"
        place = ["--local-directory", str(self.folder / f"{name}.files")]
        command = [_WORKER, *_HOST, *place, *(words or ["--no-nanny"]), "--nthreads", "1"]
        self.workers.append(self._start(name, [*command, self.address], PDSUITE_PROGRAMS=str(programs)))

    def wait(self) -> list[str]:
        """Waits until all workers have registered; their addresses."""
        names = [f"worker{number}" for number in range(len(self.workers))]
        for name in names:
            self._logged(name, "Registered to:")
        return [self._logged(name, "Start worker at:") for name in names]

    def close(self) -> None:
        """Ends all of it."""
        for process in (*self.workers, self.scheduler):
            with suppress(ProcessLookupError):
                os.killpg(number_of(process), signal.SIGKILL)
            process.join()

    def _start(self, name: str, words: list[str], **more: str) -> BaseProcess:
        (self.folder / name).touch()
        process = _FORKS.Process(target=_serve, args=(words, self.folder / name, more))
        process.start()
        return process

    def _logged(self, name: str, what: str) -> str:
        """The word after these in a log, once they stand there."""
        until = time.monotonic() + HANGS
        while True:
            log = (self.folder / name).read_text()
            if len(parts := log.split(what, 1)) == 2 and "\n" in parts[1]:
                return parts[1].split()[0]
            assert time.monotonic() < until, log
            time.sleep(0.05)


def number_of(process: BaseProcess) -> int:
    """The number of a process that was started."""
    assert process.pid is not None
    return process.pid


def _serve(words: list[str], log: Path, more: dict[str, str]) -> None:
    """Is what `python -m` begins by these words, in a group of its own."""
    os.setpgid(0, 0)
    with log.open("wb") as file:
        os.dup2(file.fileno(), 1)
        os.dup2(file.fileno(), 2)
    os.environ.update(more)
    import_module("dask.config").refresh()
    sys.argv = words
    import_module(words[0]).main()
