"""Starts of both programs in one run: what the program tools/batch.rattle reads of them, and what it answers."""

import re
from collections.abc import Iterable, Iterator, Sequence
from dataclasses import dataclass, field

from pdsuite.output.octets import printable_octets

# A run is expected to write so much at most, far less than `rt try` takes.
ROOM = 1 << 19
_NUMBER = re.compile(rb"(\d{1,9})\n")
# The statuses of a program that has read all of its input.
_REGULAR = ("0", "1")
# Begins what a program says that refuses its words, and ends with where help is.
_REFUSES = b"error: "


@dataclass(frozen=True, slots=True)
class Case:
    """A start of a program: its words, its input, and what it is expected to write and say, in octets.

    A case that `is_alone` shares its run with no other, so that nothing else can end it.
    """

    words: tuple[str, ...]
    given: bytes
    room: int = 4_096
    is_alone: bool = False


@dataclass(frozen=True, slots=True)
class ProcessOutput:
    """All that a program wrote on its two outputs, and its status, which is no number where it came to no end."""

    output: bytes = b""
    errors: bytes = b""
    status: str = ""


@dataclass(frozen=True, slots=True)
class ProgramAnswer:
    """The two outputs of a program, or why there is no answer; where `is_shared`, a start beside it may have ended it.

    `errors` is all of its standard error, also of a program that refused its input.
    """

    output: bytes
    errors: bytes
    fault: str = ""
    is_shared: bool = False
    raw: ProcessOutput = field(default=ProcessOutput(), compare=False)


def split_into_batches_by_expected_output(cases: Iterable[Case]) -> Iterator[list[Case]]:
    """The cases of each run, in their order."""
    batch: list[Case] = []
    room = 0
    for case in cases:
        if batch and (case.is_alone or case.room > room):
            yield batch
            batch = []
        room = 0 if case.is_alone else (room if batch else ROOM) - case.room
        batch.append(case)
    if batch:
        yield batch


def batch_input(cases: Iterable[Case]) -> bytes:
    """The input of a run; the first word of each case is the program."""
    return b"".join(with_length_line("\0".join(it.words).encode()) + with_length_line(it.given) for it in cases)


def parse_batch_answers_or_faults(output: bytes, errors: bytes, status: str, count: int) -> list[ProgramAnswer]:
    """The answers to the cases of a run, which has ended with this status, a number or why there is none."""
    each = list(take_whole_length_prefixed_parts(bytearray(output))) if status == "0" else []
    if len(each) == 3 * count:
        return [
            answer_from_status(written, errors, ended.decode().strip())
            for written, errors, ended in zip(*[iter(each)] * 3)
        ]
    why = answer_from_status(output, errors, status).fault or f"ended with status {status}"
    return [ProgramAnswer(b"", b"", why, count > 1)] * count


def answer_from_status(output: bytes, errors: bytes, status: str) -> ProgramAnswer:
    """The answer of a start, whose status is a number or why there is none."""
    if status in _REGULAR:
        return ProgramAnswer(output, errors, raw=ProcessOutput(output, errors, status))
    if not status.isdecimal():
        return ProgramAnswer(b"", b"", status)
    lines = [line for line in errors.split(b"\n") if line.strip()]
    why = f"ended with status {status}"
    if lines:
        why = printable_octets(lines[0] if lines[0].startswith(_REFUSES) else lines[-1])
    return ProgramAnswer(b"", b"", why, raw=ProcessOutput(output, errors, status))


def refuses_words(fault: str) -> bool:
    """Whether a program gave this as the reason why it doesn't run: it refuses its words, as an older one does."""
    return fault.startswith(_REFUSES.decode())


def with_length_line(octets: bytes) -> bytes:
    """Octets after a line with their number."""
    return b"%d\n%b" % (len(octets), octets)


def take_whole_length_prefixed_parts(octets: bytearray) -> Iterator[bytes]:
    """Takes the octets that stand after a line with their number each, up to what isn't whole."""
    while (found := _NUMBER.match(octets)) and len(octets) >= (end := found.end() + int(found[1])):
        yield bytes(octets[found.end() : end])
        del octets[:end]


def cases_prefixed_with_program_and_words(program: str, words: Sequence[str], cases: Iterable[Case]) -> Iterator[Case]:
    """The cases with the words of all, before which the program is named."""
    for it in cases:
        yield Case((program, *words, *it.words), it.given, it.room, it.is_alone)
