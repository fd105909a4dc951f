"""A Dask cluster as a mapper of batches. No other module knows of `distributed`."""

import gc
import logging
import platform
import select
import socket
import sys
import time
import warnings
from collections import deque
from collections.abc import Callable, Generator, Iterable, Iterator
from concurrent.futures import CancelledError
from contextlib import contextmanager, suppress
from dataclasses import dataclass
from importlib import import_module
from itertools import islice
from typing import Any

import dask
from distributed import Client, Future
from distributed.comm.addressing import resolve_address
from distributed.scheduler import KilledWorker

import pdsuite
from pdsuite.faults import CutShortError, Fault
from pdsuite.output.octets import printable_text
from pdsuite.run import serialize
from pdsuite.run.batches import Batch, split_into_chunks_of_size
from pdsuite.run.run_batches import Mapper, Step, error_piece
from pdsuite.run.serialize import PackedBatch, WantedProgram
from pdsuite.signals import Stop

# How long a scheduler is waited for, and a worker where there is none.
_PATIENCE = 10
# How often a batch is sent to workers that all go away.
_SENDINGS = 3
# How many pieces a batch has that is sent, and how many of these each thread of the cluster has before it.
_PIECES = 8
_AHEAD = 4
# How often it is looked which workers there are.
_LOOK = 1.0


@dataclass
class _Task:
    """A batch that was read, and what was sent where."""

    run: Batch
    parcel: PackedBatch
    future: Future | None = None
    workers: frozenset[str] = frozenset()
    sendings: int = 0


@contextmanager
def open_cluster_mapper_when_worker_ready(
    address: str, wanted: WantedProgram, stop: Stop, note: Callable[[str], None]
) -> Iterator[Mapper]:
    """Has batches settled by the workers of a scheduler that have this machine's program."""
    client = _configure_library_and_connect_client(address)
    stop.raise_if_stopped()
    try:
        workers = _Cluster(client, address, wanted, stop, note)
        workers.wait_for_usable_worker_or_fault()
        yield workers.run_batches_and_yield_steps_in_order
    finally:
        # A scheduler that went away answers no good-bye, and what ended the run counts.
        with suppress(OSError):
            client.close(timeout=_LOOK)


def _silence_library() -> None:
    """Has the library write nothing: what counts is printed here."""
    logging.disable()
    warnings.filterwarnings("ignore", "Large object of size")
    # A coroutine that is left where a scheduler went away fails once more at the end of the process.
    sys.unraisablehook = lambda _: None


def _configure_library_and_connect_client(address: str) -> Client:
    gc.enable()  # the library's objects have cycles
    _silence_library()
    dask.config.set({"distributed.comm.timeouts.connect": _PATIENCE})
    # The code goes along, with every call.
    pickle = import_module("cloudpickle")  # it declares no types
    for module in (pdsuite, serialize):
        pickle.register_pickle_by_value(module)
    place = _printable_in_one_short_line(address)
    try:
        resolve_address(address)
    except (OSError, ValueError) as error:
        raise Fault(f"{place}: no address of a scheduler: {_printable_in_one_short_line(error)}") from error
    try:
        return Client(address, timeout=_PATIENCE, set_as_default=False)
    except Exception as error:  # the library has many for this
        raise Fault(
            f"{place}: no scheduler is reached within {_PATIENCE} s: {_printable_in_one_short_line(error)}"
        ) from error


class _Cluster:
    """The workers that may be used, and the batches that they have."""

    def __init__(
        self,
        client: Client,
        address: str,
        wanted: WantedProgram,
        stop: Stop,
        note: Callable[[str], None],
    ) -> None:
        self._client = client
        self._address = _printable_in_one_short_line(address)
        self._wanted = wanted
        self._stop = stop
        self._note = note
        self._near, self._far = socket.socketpair()
        self._near.setblocking(False)
        self._far.setblocking(False)
        # Of each worker why it isn't used, and of those that are how many threads they have.
        self._faults: dict[str, str] = {}
        self._threads: dict[str, int] = {}
        self._looked = 0.0
        self._served = time.monotonic()

    def wait_for_usable_worker_or_fault(self) -> None:
        """Waits for a worker that may be used."""
        self._refresh_usable_workers_if_due()
        while not self._threads:
            if self._has_no_worker_for_long():
                raise Fault(f"{self._address}: no worker that can be used")
            self._wait_for_done_task_stop_or_look()
            self._refresh_usable_workers_if_due()

    def run_batches_and_yield_steps_in_order(self, batches: Iterable[Batch]) -> Generator[Step, None, None]:
        """Has batches settled, some ahead; their steps come in the order of the batches."""
        left = (
            Batch(batch.settings, pieces)
            for batch in batches
            for pieces in split_into_chunks_of_size(batch.pieces, _PIECES)
        )
        tasks: deque[_Task] = deque()
        while True:
            if self._refresh_usable_workers_if_due():
                self._resend_orphaned(tasks)
            room = max(1, _AHEAD * sum(self._threads.values())) - len(tasks)
            for batch in islice(left, max(0, room)):
                tasks.append(_Task(batch, serialize.pack_batch_with_current_texts(batch)))
                self._submit_task_or_leave_it_unsent(tasks[-1])
            if not tasks:
                return
            if (steps := self._collect_steps_or_errors_if_done(tasks[0])) is None:
                self._wait_for_done_task_stop_or_look()
            else:
                tasks.popleft()
                yield from steps

    def _collect_steps_or_errors_if_done(self, task: _Task) -> list[Step] | None:
        """The steps of a task, if it has come to any."""
        if task.future is None:
            if task.sendings == _SENDINGS:
                return _error_steps(task.run, f"all workers that had it went away, {_SENDINGS} times")
            return _error_steps(task.run, "no worker is left") if self._has_no_worker_for_long() else None
        if not task.future.done():
            return None
        try:
            answer = task.future.result(timeout=_PATIENCE)
        except TimeoutError:
            return None  # its worker went away with it
        except CancelledError as error:
            raise self._scheduler_gone_error() from error
        except KilledWorker as killed:
            return _error_steps(task.run, f"{killed.allowed_failures + 1} workers ended that had it")
        except Exception as error:  # any error of a worker's
            return _error_steps(task.run, f"a worker says: {_printable_in_one_short_line(error)}")
        if isinstance(answer, str):
            self._refuse_worker_and_resend(task, answer)
            return None
        return list(serialize.rebuild_steps_and_note_messages(task.run, task.parcel, answer, self._note))

    def _submit_task_or_leave_it_unsent(self, task: _Task) -> None:
        """Sends a task to the workers that may be used, if there are any."""
        task.workers = frozenset(self._threads)
        task.future = None
        if task.workers and task.sendings < _SENDINGS:
            task.sendings += 1
            task.future = self._client.submit(
                serialize.run_packed_batch_or_program_fault,
                task.parcel,
                self._wanted,
                workers=list(task.workers),
                pure=False,
            )
            task.future.add_done_callback(self._wake_waiter)

    def _resend_orphaned(self, tasks: Iterable[_Task]) -> None:
        """Sends each task again whose workers are all gone; what one of them made isn't there any more, either."""
        for task in tasks:
            is_settled = task.future is not None and task.future.status == "error"
            if not is_settled and not task.workers & self._threads.keys():
                self._submit_task_or_leave_it_unsent(task)

    def _refuse_worker_and_resend(self, task: _Task, fault: str) -> None:
        """Uses the worker no longer that has other programs by now, and sends its task elsewhere."""
        for workers in self._call_or_raise_scheduler_gone(self._client.who_has, [task.future]).values():
            for worker in workers:
                self._drop_worker_and_print_fault(worker, fault)
        task.sendings -= 1
        self._submit_task_or_leave_it_unsent(task)

    def _refresh_usable_workers_if_due(self) -> bool:
        """Looks which workers there are, once in a while; whether it did."""
        now = time.monotonic()
        if now < self._looked + _LOOK:
            return False
        self._looked = now
        threads = self._call_or_raise_scheduler_gone(self._client.nthreads)
        self._faults = {it: fault for it, fault in self._faults.items() if it in threads}
        self._admit_or_refuse_new_workers([it for it in threads if it not in self._faults])
        self._threads = {it: threads[it] for it, fault in self._faults.items() if not fault}
        if self._threads:
            self._served = now
        return True

    def _admit_or_refuse_new_workers(self, workers: list[str]) -> None:
        """Queries new workers whether they can be used. One that doesn't answer is queried again."""
        here = platform.python_version_tuple()[:2]
        pythons = self._call_on_workers_omitting_silent(workers, platform.python_version_tuple)
        for worker, python in pythons.items():
            if tuple(python[:2]) != here:
                self._drop_worker_and_print_fault(worker, f"has Python {'.'.join(python)}")
        same = [it for it in pythons if it not in self._faults]
        for worker, fault in self._call_on_workers_omitting_silent(
            same, serialize.why_wanted_program_unusable_or_empty, self._wanted
        ).items():
            self._faults[worker] = ""
            if fault:
                self._drop_worker_and_print_fault(worker, _printable_in_one_short_line(fault))

    def _drop_worker_and_print_fault(self, worker: str, fault: str) -> None:
        self._faults[worker] = fault
        self._threads.pop(worker, None)
        self._note(f"pdsuite: worker {worker} isn't used: {fault}")

    def _call_on_workers_omitting_silent(
        self, workers: list[str], function: Callable[..., Any], *words: Any
    ) -> dict[str, Any]:
        """The answers of workers to a call; workers that don't answer are left out."""
        if not workers:
            return {}
        answers = self._call_or_raise_scheduler_gone(
            self._client.run, function, *words, workers=workers, on_error="return"
        )
        return {it: answer for it, answer in answers.items() if not isinstance(answer, OSError)}

    def _call_or_raise_scheduler_gone(self, call: Callable[..., Any], *words: Any, **more: Any) -> Any:
        """The answer of the scheduler. Raises CutShortError where it went away."""
        try:
            return call(*words, **more)
        except (OSError, CancelledError) as error:
            raise self._scheduler_gone_error() from error

    def _scheduler_gone_error(self) -> CutShortError:
        return CutShortError(f"{self._address}: the scheduler went away")

    def _has_no_worker_for_long(self) -> bool:
        return not self._threads and time.monotonic() > self._served + _PATIENCE

    def _wait_for_done_task_stop_or_look(self) -> None:
        """Waits until a task is done, a signal comes, or it is time to look at the workers."""
        seconds = self._looked + _LOOK - time.monotonic()
        ready, _, _ = select.select([self._stop, self._near], [], [], max(0.0, seconds))
        if self._near in ready:
            self._near.recv(4_096)
        self._stop.raise_if_stopped()

    def _wake_waiter(self, future: Future) -> None:
        """Ends the waiting; called in a thread of the library's."""
        with suppress(OSError):
            self._far.send(b"\0")


def _error_steps(batch: Batch, reason: str) -> list[Step]:
    return [error_piece(piece, reason) for piece in batch.pieces]


def _printable_in_one_short_line(what: object) -> str:
    """In one line."""
    return printable_text(" ".join(str(what).split()), 200)
