"""The calls of programs that tests make, and how tests get the outputs.

A test is a generator: it yields lists of calls, gets the output of each, and ends with its result. So several tests can
go on in step, and the calls of all of them at one step are made together.
"""

from collections.abc import Callable, Generator, Iterator, Sequence
from dataclasses import dataclass
from typing import Optional, TypeVar

T = TypeVar("T")
# The status of a call without one: it was ended, or couldn't be run.
NO_STATUS = -1


@dataclass(frozen=True)
class ProgramCall:
    """The name of a program, its arguments, its input, and whether to find out how much of that it reads.

    If there are files, each a name and octets, it is run in a folder that has only these.
    """

    program: str
    arguments: tuple[bytes, ...]
    given: bytes = b""
    counts_read: bool = False
    files: tuple[tuple[str, bytes], ...] = ()


@dataclass(frozen=True)
class ProgramOutput:
    """The outputs of a program, its status, and how many octets of its input it read, if that was counted."""

    output: bytes
    errors: bytes
    status: int
    read: Optional[int] = None


# The output of each call; none where only a built program can be called so.
Outputs = list[Optional[ProgramOutput]]
CallRunner = Callable[[Sequence[ProgramCall]], Outputs]
CallSteps = Generator[list[ProgramCall], Outputs, T]


def run_test_alone(test: CallSteps[T], run_calls: CallRunner) -> T:
    """Runs a test by itself."""
    outputs: Optional[Outputs] = None
    while True:
        try:
            outputs = run_calls(next(test) if outputs is None else test.send(outputs))
        except StopIteration as end:
            result: T = end.value
            return result


def delay_one_step(test: CallSteps[T]) -> CallSteps[T]:
    """The same test, which begins one step after those that it is in step with."""
    yield []
    return (yield from test)


def run_tests_in_step(tests: Sequence[CallSteps[T]], run_calls: CallRunner) -> Iterator[T]:
    """Runs tests in step, and gives their results in the order of the tests."""
    going = dict(enumerate(tests))
    results: dict[int, T] = {}
    outputs: dict[int, Optional[Outputs]] = {number: None for number in going}
    while going:
        calls: dict[int, list[ProgramCall]] = {}
        for number, test in list(going.items()):
            last = outputs[number]
            try:
                calls[number] = next(test) if last is None else test.send(last)
            except StopIteration as end:
                results[number] = end.value
                del going[number]
        together = iter(run_calls([call for each in calls.values() for call in each]))
        outputs = {number: [next(together) for _ in each] for number, each in calls.items()}
    yield from (results[number] for number in sorted(results))
