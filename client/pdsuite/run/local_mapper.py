"""This machine's processors as a mapper of batches: so many programs side by side."""

import select
from collections import deque
from collections.abc import Collection, Generator, Iterable
from contextlib import ExitStack, closing
from dataclasses import dataclass, field
from pathlib import Path

from pdsuite.programs.program import Program
from pdsuite.run.batches import Batch, split_into_chunks_of_size
from pdsuite.run.run_batches import (
    LoadText,
    Mapper,
    Step,
    load_script_text_or_fault,
    run_batch_yielding_waits_and_restarts,
    starter_with_options,
    starter_without_explanations,
)
from pdsuite.signals import Stop, StoppedError

# A program has so many pieces at most, so that others have some, too.
_PIECES = 4
# So many batches are begun for each program, so that none waits for the steps of those before it to be taken.
_AHEAD = 4


def local_mapper(
    program: Path, options: tuple[str, ...], workers: int, stop: Stop, load_text: LoadText = load_script_text_or_fault
) -> Mapper:
    """Has batches settled by programs that are started here, and that explain scripts as these options say."""
    start, plain_start = starter_with_options(program, options, 1, stop), starter_without_explanations(
        program, 0, 1, stop
    )
    most = max(1, workers)

    def run_batches_and_yield_steps_in_order(batches: Iterable[Batch]) -> Generator[Step, None, None]:
        left = (
            Batch(batch.settings, pieces)
            for batch in batches
            for pieces in split_into_chunks_of_size(batch.pieces, _PIECES)
        )
        begun: deque[_RunningBatch] = deque()
        with ExitStack() as held:
            while True:
                while _has_room_by_begun_and_running_counts(begun, most) and (batch := next(left, None)) is not None:
                    steps = held.enter_context(
                        closing(run_batch_yielding_waits_and_restarts(batch, start, load_text, plain_start))
                    )
                    begun.append(_RunningBatch(steps))
                if not begun:
                    return
                first = begun[0]
                while first.steps:
                    yield first.steps.popleft()
                if first.is_over:
                    begun.popleft()
                    continue
                try:
                    _wait_and_advance_ready_batches([it for it in begun if not it.is_over])
                except StoppedError:
                    yield from (step for it in begun for step in it.steps)
                    raise

    return run_batches_and_yield_steps_in_order


@dataclass
class _RunningBatch:
    """A batch that has begun: what came of it and isn't taken, and its program, which is to be waited for."""

    left: Generator[Step | Program, None, None]
    steps: deque[Step] = field(default_factory=deque)
    program: Program | None = None
    is_over: bool = False

    def __post_init__(self) -> None:
        self.advance_until_wait()

    def advance_until_wait(self) -> None:
        """Goes on until its program is to be waited for, or it is over."""
        for step in self.left:
            if isinstance(step, Program):
                self.program = step
                return
            self.steps.append(step)
        self.is_over = True


def _has_room_by_begun_and_running_counts(begun: Collection[_RunningBatch], most: int) -> bool:
    """Whether a further batch may begin beside these."""
    return len(begun) < _AHEAD * most and sum(not it.is_over for it in begun) < most


def _wait_and_advance_ready_batches(each: Iterable[_RunningBatch]) -> None:
    """Waits until some can go on, and lets these."""
    poll = select.poll()
    waiting = {it.program.fileno(): it for it in each if it.program is not None}
    for file in waiting:
        poll.register(file, select.POLLIN)
    for file, _ in poll.poll():
        waiting[file].advance_until_wait()
