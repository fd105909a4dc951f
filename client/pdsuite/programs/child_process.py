"""A process of this client that does a job beside it: its lines are read, and its end is requested or waited for."""

import os
import subprocess
import sys
from pathlib import Path

from pdsuite.programs.locate import TOP

_READ = 1 << 18
_GRACE = 1.0
# Starts a module of this client.
_MODULE = "import sys, importlib; sys.path[:0] = [sys.argv[1]]; sys.exit(importlib.import_module(sys.argv[2]).main())"


class ChildProcess:
    """A process of this client in a group of its own: it gets its job at once, and says lines."""

    def __init__(self, module: str, job: object) -> None:
        # Only who has a page drawn pays for what carries a job over.
        import pickle
        import tempfile

        words: list[str | Path] = [sys.executable, "-I", "-c", _MODULE, TOP / "client", module]
        with tempfile.TemporaryFile() as file:
            pickle.dump(job, file)
            file.seek(0)
            self._process = subprocess.Popen(words, stdin=file, stdout=subprocess.PIPE, bufsize=0, process_group=0)
        assert self._process.stdout is not None
        self._out = self._process.stdout
        os.set_blocking(self._out.fileno(), False)
        self._got = b""
        self.has_ended = False

    def fileno(self) -> int:
        """The descriptor that can be read once the process has printed something, or has ended."""
        return self._out.fileno()

    def read_lines(self) -> list[str]:
        """The lines that it has printed since they were read last."""
        while (octets := self._out.read(_READ)) is not None:
            self._got += octets
            if not octets:
                self.has_ended = True
                break
        *lines, self._got = self._got.split(b"\n")
        return [line.decode() for line in lines]

    def terminate(self) -> None:
        """Requests its end."""
        self._process.terminate()

    def terminate_if_running_and_get_status(self) -> int:
        """Its status, once it has ended: by itself if it has, else since that is requested, or has to be."""
        if not self.has_ended:
            self.terminate()
        try:
            return self._process.wait(_GRACE)
        except subprocess.TimeoutExpired:
            self._process.kill()
            return self._process.wait()
        finally:
            self._out.close()
