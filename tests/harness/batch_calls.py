"""Calls that tools/batch.rattle makes in memory, after one build of both programs."""

import re
from collections.abc import Iterator, Sequence

from harness.calls import ProgramCall, ProgramOutput
from harness.recordings import RECORDS
from harness.tables import PROGRAM

SETTINGS = b"--settings"
EXPLAIN = b"--explain"
# The options that tools/batch.rattle takes without a value, and those of them that go with --explain alone.
FLAGS = {PROGRAM: {EXPLAIN, b"--json", b"--leftovers"}, RECORDS: {b"--trace"}}
WITH_EXPLAIN = {b"--json", b"--leftovers"}
NUMBER = re.compile(rb"(\d{1,12})\n")


def fits_the_batch(call: ProgramCall) -> bool:
    """Whether tools/batch.rattle takes the arguments of a call, and as the program does."""
    flags, value = list(call.arguments), b""
    if SETTINGS in flags[:-1]:
        place = flags.index(SETTINGS)
        value = flags[place + 1]
        del flags[place : place + 2]
    given = set(flags)
    is_known = len(given) == len(flags) and given <= FLAGS.get(call.program, set()) and call.program in FLAGS
    return is_known and not value.startswith(b"-") and (EXPLAIN in given or not given & WITH_EXPLAIN)


def encode_starts(calls: Sequence[ProgramCall]) -> bytes:
    """The starts of calls, as tools/batch.rattle reads them."""
    return b"".join(
        length_prefixed(b"\0".join([it.program.encode(), *it.arguments])) + length_prefixed(it.given) for it in calls
    )


def length_prefixed(octets: bytes) -> bytes:
    """Octets after a line with their number."""
    return b"%d\n%b" % (len(octets), octets)


def outputs_in(octets: bytes) -> Iterator[ProgramOutput]:
    """The outputs of the first calls: of all, or up to one that ended the run."""
    parts = whole_parts_in(octets)
    for output, errors, status in zip(parts, parts, parts):
        yield ProgramOutput(output, errors, int(status))


def whole_parts_in(octets: bytes) -> Iterator[bytes]:
    """The parts of a text, up to one that isn't whole."""
    end = 0
    while found := NUMBER.match(octets, end):
        end = found.end() + int(found[1])
        if end > len(octets):
            return
        yield octets[found.end() : end]
