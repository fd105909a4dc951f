"""Commands that run side by side, each in a session of its own, and that all end where this is stopped."""
from __future__ import annotations

import contextlib
import os
import signal
import subprocess
from collections.abc import Callable, Iterator, Sequence
from concurrent.futures import ThreadPoolExecutor, as_completed
from dataclasses import dataclass, field
from pathlib import Path
from threading import Lock
from typing import TypeVar, Union

T = TypeVar("T")
R = TypeVar("R")


class CommandsStoppedError(Exception):
    """No command is begun any more."""


@dataclass
class Commands:
    """The commands that run now, and whether no other is to begin."""

    running: set[subprocess.Popen[bytes]] = field(default_factory=set)
    is_stopped: bool = False
    lock: Lock = field(default_factory=Lock)

    def run_command(self, words: Sequence[Union[str, Path]], folder: Path, log: Path, **variables: str) -> int:
        """Runs a command in a folder, with these variables, and writes its output to a file; its status."""
        with log.open("wb") as file:
            with self.lock:
                if self.is_stopped:
                    raise CommandsStoppedError
                process = subprocess.Popen(
                    words,
                    cwd=folder,
                    stdin=subprocess.DEVNULL,
                    stdout=file,
                    stderr=subprocess.STDOUT,
                    env={**os.environ, **variables},
                    start_new_session=True,
                )
                self.running.add(process)
            try:
                return process.wait()
            finally:
                with self.lock:
                    self.running.discard(process)

    def stop_all_and_refuse_new(self) -> None:
        """Ends those that run, and lets none begin."""
        with self.lock:
            self.is_stopped = True
            for process in self.running:
                with contextlib.suppress(ProcessLookupError):
                    os.killpg(process.pid, signal.SIGTERM)

    def map_unordered(self, items: Sequence[T], at_once: int, do: Callable[[T], R]) -> Iterator[R]:
        """The results of `do` for the items, each as it ends; some run at once, and the first ones begin first."""
        pool = ThreadPoolExecutor(max(1, at_once))
        try:
            for future in as_completed([pool.submit(do, item) for item in items]):
                yield future.result()
        except BaseException:
            self.stop_all_and_refuse_new()
            raise
        finally:
            pool.shutdown(cancel_futures=True)
