"""A shell in a folder, and a `watch` that runs at the same time."""

import os
import re
import shlex
import signal
import subprocess
import threading
import time
from pathlib import Path
from typing import IO

from documents.shown import UNPROVED

MINUTE = 60.0


def _shell_environment() -> dict[str, str]:
    kept = {name: value for name, value in os.environ.items() if name != "PDSUITE_PROGRAMS"}
    return {**kept, "LC_ALL": "C.UTF-8", "NO_COLOR": "1"}


class Shell:
    """Runs commands one after another; a `cd` leads to where the next ones run."""

    def __init__(self, folder: Path) -> None:
        self.folder = folder

    def run(self, command: str, seconds: float) -> str:
        """Runs a command, and gives what it prints on both outputs, in the order in which it does."""
        words = shlex.split(command, comments=True) if "\n" not in command else []
        if len(words) == 2 and words[0] == "cd":
            self.folder = (self.folder / words[1]).resolve(strict=True)
            return ""
        try:
            done = subprocess.run(
                ["sh", "-c", command],
                cwd=self.folder,
                env=_shell_environment(),
                stdin=subprocess.DEVNULL,
                stdout=subprocess.PIPE,
                stderr=subprocess.STDOUT,
                timeout=seconds,
                check=False,
            )
        except subprocess.TimeoutExpired as late:
            return (late.stdout or b"").decode(errors="replace") + f"(no end in {seconds:.0f} seconds)\n"
        return done.stdout.decode(errors="replace")


class WatchCommand:
    """A command that goes on during the others, and what it has printed, but for the line `unproved`."""

    def __init__(self, command: str, folder: Path) -> None:
        self._process = subprocess.Popen(
            shlex.split(command),
            cwd=folder,
            env=_shell_environment(),
            stdin=subprocess.DEVNULL,
            stdout=subprocess.PIPE,
            stderr=subprocess.STDOUT,
        )
        self._lines: list[bytes] = []
        self._taken = 0
        self._reader = threading.Thread(target=_gather_lines_but_unproved, args=(self._process.stdout, self._lines))
        self._reader.start()

    def await_output_or_return_what_came(self, form: re.Pattern[str], seconds: float = MINUTE) -> str | None:
        """Waits for what fits as the next that it prints; None if it comes, else what came in its place."""
        until = time.monotonic() + seconds
        while True:
            # Looked at first: what came until the end is in the lines then.
            has_ended = self._process.poll() is not None and not self._reader.is_alive()
            news = b"".join(self._lines[:]).decode(errors="replace")[self._taken :]
            if found := form.match(news):
                self._taken += found.end()
                return None
            if has_ended or time.monotonic() > until:
                return news
            time.sleep(0.02)

    def interrupt(self) -> None:
        """Ends it as Ctrl-C does."""
        self._process.send_signal(signal.SIGINT)
        try:
            self._process.wait(MINUTE)
        except subprocess.TimeoutExpired:
            self._process.kill()
            self._process.wait()
        self._reader.join()


def _gather_lines_but_unproved(pipe: IO[bytes] | None, lines: list[bytes]) -> None:
    assert pipe is not None
    for line in iter(pipe.readline, b""):
        if not UNPROVED.match(line.decode(errors="replace")):
            lines.append(line)
