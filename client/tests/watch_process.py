"""A `pdsuite watch` that runs beside a test, and what it has printed so far."""

import os
import signal
import subprocess
import threading
import time
from collections.abc import Callable, Mapping
from pathlib import Path
from typing import IO

from tests.helpers import HANGS, TOP, Called, Replay


class Watching:
    """A started `pdsuite watch`; its outputs are read while it runs."""

    def __init__(
        self,
        folder: Path,
        programs: Path | None,
        *words: str,
        before: tuple[str, ...] = (),
        pdsuite: Path = TOP / "pdsuite",
        environment: Mapping[str, str] | None = None,
    ) -> None:
        self.folder = folder
        self._environment = dict(os.environ if environment is None else environment)
        if programs is not None:
            self._environment["PDSUITE_PROGRAMS"] = str(programs)
        self._pdsuite = pdsuite
        self._process = subprocess.Popen(
            [*before, pdsuite, "watch", *words],
            cwd=folder,
            env=self._environment,
            stdout=subprocess.PIPE,
            stderr=subprocess.PIPE,
        )
        self._is_every = "-v" in words
        self._outs: list[bytes] = []
        self._errs: list[bytes] = []
        self._news = threading.Event()
        self._readers = [
            threading.Thread(target=_gather, args=(pipe, lines, self._news))
            for pipe, lines in ((self._process.stdout, self._outs), (self._process.stderr, self._errs))
        ]
        for reader in self._readers:
            reader.start()

    def __enter__(self) -> "Watching":
        self.await_out("total ")
        return self

    def __exit__(self, *error: object) -> None:
        self._process.kill()
        self._process.wait()
        for reader in self._readers:
            reader.join()

    @property
    def out(self) -> str:
        """All that was printed."""
        return b"".join(list(self._outs)).decode()

    @property
    def err(self) -> str:
        """All that was printed on standard error."""
        return b"".join(list(self._errs)).decode()

    @property
    def process(self) -> int:
        """The number of its process."""
        return self._process.pid

    def programs(self) -> list[int]:
        """The processes that it has started and that are there."""
        task = f"/proc/{self._process.pid}/task/{self._process.pid}/children"
        return [int(it) for it in Path(task).read_text().split()]

    def await_out(self, words: str, times: int = 1) -> None:
        """Waits until these words were printed, so many times."""
        self._await(lambda: self.out.count(words) >= times, words)

    def await_err(self, words: str) -> None:
        """Waits until these words were printed."""
        self._await(lambda: words in self.err, words)

    def await_truth(self, *words: str) -> None:
        """Waits until what was reported is what `pdsuite run` reports."""
        done = subprocess.run(
            [self._pdsuite, "run", "-v", *words], cwd=self.folder, env=self._environment, capture_output=True
        )
        truth = Replay(done.stdout.decode())
        self._await(lambda: Replay(self.out).totals == truth.totals, truth.totals)
        self._await(lambda: self._known(Replay(self.out)) == self._known(truth), "\n".join(truth.rows.values()))

    def _known(self, report: Replay) -> dict[str, str]:
        """The rows that are shown whenever they stand: without `-v` not those that pass from the beginning on."""
        return {path: row for path, row in report.rows.items() if self._is_every or ": pass " not in row}

    def ends(self, number: signal.Signals) -> Called:
        """Sends it a signal, and waits for its end; its status and outputs."""
        self._process.send_signal(number)
        status = self._process.wait(HANGS)
        for reader in self._readers:
            reader.join()
        return Called(status, self.out, self.err)

    def _await(self, happened: Callable[[], bool], what: str) -> None:
        until = time.monotonic() + HANGS
        while True:
            self._news.clear()
            if happened():
                return
            assert self._process.poll() is None, f"it ended: {self.err}"
            assert time.monotonic() < until, f"{what!r} didn't come, but {self.out[-2_000:]!r} and {self.err!r}"
            # Files change in silence, and what is printed comes in many lines.
            self._news.wait(0.05)
            time.sleep(0.01)


def _gather(pipe: IO[bytes] | None, lines: list[bytes], news: threading.Event) -> None:
    assert pipe is not None
    for line in iter(pipe.readline, b""):
        lines.append(line)
        news.set()
