"""Recoveries of random transfers, whose expected events are those of a second reading of the RFCs."""

import re
from collections.abc import Iterator, Sequence
from itertools import dropwhile, zip_longest

from model.scenarios import Expected, Transfer, endless_transfers_from_seed
from harness.calls import CallSteps, ProgramOutput
from harness.compare import MAX_FAULTS, RowResult
from harness.random_scripts import RandomScript
from harness.recordings import record_call

STATE = re.compile(r"//= at (\d+)\.(\d{6}) (.+?)(?: sent_by:\w+)?")
TIME = re.compile(r"\+[0-9.]+ ")
LAST_OF_OPENING = "accept("
SECOND = 1_000_000


def draw_transfers(count: int, algorithm: str, seed: int) -> Iterator[Transfer]:
    """Transfers by an algorithm, from a seed on, until there are so many recoveries."""
    found = 0
    for it in endless_transfers_from_seed(algorithm, seed):
        if found >= count:
            return
        found += it.recoveries
        yield it


def script_of_transfer(it: Transfer) -> RandomScript:
    return RandomScript(f"seed {it.seed}", it.settings, it.script.encode())


def events_of_trace(trace: str) -> Iterator[Expected]:
    """The events of a trace: the moment of each, the event without its time, and the state after it."""
    line = ""
    for each in trace.splitlines():
        if found := STATE.fullmatch(each):
            yield Expected(int(found[1]) * SECOND + int(found[2]), line, found[3])
        else:
            line = TIME.sub("", each, count=1)


def first_played_difference(it: Transfer, trace: str) -> str:
    """The first event that is played otherwise than it is expected; empty where none is."""
    done = dropwhile(lambda each: not each.line.startswith(LAST_OF_OPENING), events_of_trace(trace))
    before = event_text(next(done, None))
    for wanted, found in zip_longest(it.expected, done):
        if found != wanted:
            return f"after {before}\n  expected {event_text(wanted)}\n  played   {event_text(found)}"
        before = event_text(wanted)
    return ""


def event_text(it: Expected | None) -> str:
    return "nothing more" if it is None else f"{it.at / SECOND:.6f} {it.line} // {it.state}"


def fault_of_recording(it: Transfer, output: ProgramOutput) -> str:
    """The fault of the recording of a transfer; empty where it has none."""
    if output.status != 0:
        why = f"status {output.status}: {output.errors.decode(errors='backslashreplace')}"
    else:
        why = first_played_difference(it, output.output.decode(errors="backslashreplace"))
    return why and f"seed {it.seed} under {it.settings!r}: {why}"


def check_transfers(drawn: Sequence[Sequence[Transfer]]) -> CallSteps[list[RowResult]]:
    """Records the transfers of each draw, and compares the events with those that are expected."""
    outputs = iter((yield [record_call(script_of_transfer(it), b"--trace") for each in drawn for it in each]))
    return [result_of_draw([(it, next(outputs)) for it in each]) for each in drawn]


def result_of_draw(played: Sequence[tuple[Transfer, ProgramOutput | None]]) -> RowResult:
    faults = [fault for it, output in played if output is not None and (fault := fault_of_recording(it, output))]
    more = [f"{len(faults)} of {len(played)} transfers are played otherwise"] if faults else []
    return RowResult("\n".join([*faults[:MAX_FAULTS], *more]), any(output is None for _, output in played))
