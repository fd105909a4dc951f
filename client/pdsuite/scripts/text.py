"""The text of a script: read from its file, and held against the limits of the program."""

import os
import stat
from dataclasses import dataclass
from pathlib import Path

from pdsuite.faults import error_reason

LINES = 4_096
OCTETS = 65_536
# A carriage return before the end of a line doesn't count.
LONGEST_FILE = OCTETS + LINES
_FLAGS = os.O_RDONLY | os.O_NONBLOCK | os.O_CLOEXEC


class UnfitTextError(Exception):
    """Why a file can't be a script."""


@dataclass(slots=True)
class ScriptText:
    """A script's text as it is given to the program: each line has its newline."""

    octets: bytes
    lines: int

    def find_line_by_number(self, number: int) -> bytes | None:
        """A line without its end; lines count from 1."""
        if not 1 <= number <= self.lines:
            return None
        return self.octets.split(b"\n", number)[number - 1].removesuffix(b"\r")


def make_newline_ended_text_within_limits(octets: bytes) -> ScriptText:
    """The text of a file with these octets, where the program takes it."""
    if octets[-1:] not in (b"", b"\n"):
        octets += b"\n"
    lines = octets.count(b"\n")
    if lines > LINES:
        raise UnfitTextError(f"more than {LINES:,} lines")
    if len(octets) > OCTETS and len(octets) - octets.count(b"\r\n") > OCTETS:
        raise UnfitTextError(f"more than {OCTETS:,} octets")
    return ScriptText(octets, lines)


def read_text(path: str) -> ScriptText:
    """The text of a script's file."""
    return make_newline_ended_text_within_limits(read_regular_file_up_to_limit(path, LONGEST_FILE + 1))


def read_regular_file_up_to_limit(path: str | Path, most: int) -> bytes:
    """The first octets of a file, at most so many; only of a regular one, since others can block."""
    try:
        descriptor = os.open(path, _FLAGS)
    except (OSError, ValueError) as error:
        raise UnfitTextError(error_reason(error)) from error
    try:
        found = os.fstat(descriptor)
        if not stat.S_ISREG(found.st_mode):
            raise UnfitTextError("isn't a regular file")
        octets = os.read(descriptor, most)
        if len(octets) == found.st_size:
            return octets
        return octets + _read_at_most_octets(descriptor, most - len(octets))
    except OSError as error:
        raise UnfitTextError(error_reason(error)) from error
    finally:
        os.close(descriptor)


def _read_at_most_octets(descriptor: int, most: int) -> bytes:
    octets = b""
    while len(octets) < most and (more := os.read(descriptor, most - len(octets))):
        octets += more
    return octets
