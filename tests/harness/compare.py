"""Checks of programs by their outputs: what is run, what is wanted, and how the output differs from that."""

import difflib
import re
from collections.abc import Callable, Iterable, Iterator, Mapping, Sequence
from dataclasses import dataclass, replace
from typing import Generic, Optional, TypeVar, Union

from harness.calls import NO_STATUS, CallSteps, ProgramCall, ProgramOutput
from harness.tables import PROGRAM, RowError, Table, CaseRow, add_row_to_errors

CLASSES = ("pass", "fail", "syntax", "unsupported", "limit", "pending")
MAX_SCRIPTS = 500
# How many octets of a line are shown, and how many faults of a case.
MAX_SHOWN = 300
MAX_FAULTS = 3
BLOCK_LINE = re.compile(rb"  ")
OBJECT = re.compile(rb"[{].*[}]")
BLOCK = re.compile(rb"([A-Za-z0-9_.-]+:[0-9]+:) .")
T = TypeVar("T")
# The answer to a script, as a verdict, or the whole output of a run.
RowAnswer = Union[str, ProgramOutput]


@dataclass(frozen=True)
class ProgramRun:
    """A run of a program, and the wanted output.

    `is_short` leaves out the lines of blocks. With `is_refusal` its arguments are refused before anything is read: the
    file that is the input stays at its place, and of the text that refuses them the first line is compared.
    """

    row: CaseRow
    program: str
    arguments: tuple[bytes, ...]
    given: bytes
    wanted: ProgramOutput
    is_short: bool = False
    is_refusal: bool = False
    files: tuple[tuple[str, bytes], ...] = ()

    def program_call(self) -> ProgramCall:
        return ProgramCall(self.program, self.arguments, self.given, self.is_refusal, self.files)


@dataclass(frozen=True)
class ExpectedScript:
    """A script, the commands before it, and the wanted verdict or explanation."""

    row: CaseRow
    commands: str
    text: bytes
    wanted: str


@dataclass(frozen=True)
class RowCase(Generic[T]):
    """A test: its name in its table, its row, and what is checked, or else why its row can't be read.

    A mark has the message that its answer was taken from the program, and what to do about that.
    """

    name: str
    row: CaseRow
    checks: tuple[T, ...] = ()
    error: str = ""
    mark: str = ""


@dataclass(frozen=True)
class RowResult:
    """The fault of a case, if it has one, and whether a part of it is unanswered, since it needs a built program."""

    fault: str = ""
    is_unanswered: bool = False

    @staticmethod
    def join_results(results: "Iterable[RowResult]") -> "RowResult":
        each = list(results)
        faults = [it.fault for it in each if it.fault]
        more = [f"and {len(faults) - MAX_FAULTS} more"] if len(faults) > MAX_FAULTS else []
        return RowResult("\n".join([*faults[:MAX_FAULTS], *more]), any(it.is_unanswered for it in each))


@dataclass(frozen=True)
class TableKind(Generic[T]):
    """A kind of table: how its cases are read, how their checks are made, and by which programs.

    If rows have answers, which a change of the sender may change, `answer` gives in one step the answer of each check.
    """

    read: Callable[[Table], Iterator[RowCase[T]]]
    check: Callable[[Sequence[T]], CallSteps[list[RowResult]]]
    programs: tuple[str, ...] = ()
    answer: Optional[Callable[[Sequence[T]], CallSteps[list[Optional[RowAnswer]]]]] = None

    def check_cases(self, cases: Sequence[RowCase[T]]) -> CallSteps[list[RowResult]]:
        """Checks cases, all of one table or some, and gives the result of each."""
        results = iter((yield from self.check([it for case in cases for it in case.checks])))
        return [
            RowResult.join_results([RowResult(case.error), RowResult(case.mark), *(next(results) for _ in case.checks)])
            for case in cases
        ]


def read_case(row: CaseRow, read: Callable[[], Iterable[T]], name: str = "") -> RowCase[T]:
    """The case of a row, which may have an error."""
    name = name or f"line-{row.line}"
    try:
        with add_row_to_errors(row):
            return RowCase(name, row, tuple(read()))
    except RowError as why:
        return RowCase(name, row, error=str(why))


def cut_for_message(text: str) -> str:
    """A text as a message shows it."""
    return text if len(text) <= MAX_SHOWN else f"{text[:MAX_SHOWN]}.."


def output_as_story_lines(output: ProgramOutput) -> Iterator[str]:
    """An output, as a story writes it."""
    for mark, text in ((">", output.output), ("!", output.errors)):
        *lines, last = text.decode(errors="backslashreplace").split("\n")
        yield from (cut_for_message(f"{mark} {line}") for line in lines)
        if last:
            yield cut_for_message(f"{mark} {last}") + " (without a newline)"
    yield "came to no end" if output.status == NO_STATUS else f"= {output.status}"


def row_and_unified_diff_of_outputs(row: CaseRow, wanted: ProgramOutput, output: ProgramOutput) -> str:
    """A row, and how the output differs from what is wanted."""
    before, after = list(output_as_story_lines(wanted)), list(output_as_story_lines(output))
    return "\n".join(
        [cut_for_message(str(row)), *difflib.unified_diff(before, after, "wanted", "output", n=1, lineterm="")]
    )


def octets_of_add_command(name: str, text: bytes) -> bytes:
    """The command that adds a script."""
    lines = text.count(b"\n") + 1 if text else 0
    return f"add {name} {lines}\n".encode() + (text + b"\n" if lines else b"")


def total_line(classes: list[str]) -> str:
    """The last line of a report with rows of these classes."""
    counts = [f"{name} {classes.count(name)}" for name in CLASSES]
    return " ".join([f"total {len(classes)}", *counts]) + "\n"


def report_of_verdicts(verdicts: Mapping[str, str]) -> ProgramOutput:
    """The report of scripts with these verdicts."""
    classes = [verdict.split(" ", 1)[0] for verdict in verdicts.values()]
    rows = "".join(f"{name} {verdict}\n" for name, verdict in verdicts.items())
    return ProgramOutput((rows + total_line(classes)).encode(), b"", 0 if set(classes) <= {"pass"} else 1)


EMPTY_REPORT = report_of_verdicts({})


def verdict_with_known_class_or_raise(text: str) -> str:
    """A verdict, which begins with its class."""
    if text.split(" ", 1)[0] not in CLASSES:
        raise RowError("there is no such verdict")
    return text


def script_places_grouped_into_batches(scripts: Sequence[ExpectedScript]) -> list[list[int]]:
    """The places of scripts by the commands before them, so many at a time."""
    groups: dict[str, list[int]] = {}
    for place, script in enumerate(scripts):
        groups.setdefault(script.commands, []).append(place)
    return [group[at : at + MAX_SCRIPTS] for group in groups.values() for at in range(0, len(group), MAX_SCRIPTS)]


def batch_input(batch: Sequence[ExpectedScript]) -> bytes:
    """The input that adds the scripts of a batch, as `a1` and so on."""
    adds = [octets_of_add_command(f"a{number}", script.text) for number, script in enumerate(batch, 1)]
    return batch[0].commands.encode() + b"".join(adds)


def verdicts_of_batch(output: Optional[ProgramOutput], count: int) -> list[str]:
    """The verdicts of the scripts of a batch, empty where there is none."""
    lines = output.output.decode(errors="backslashreplace").split("\n") if output else []
    rows = {name: verdict for name, _, verdict in (line.partition(" ") for line in lines)}
    return [rows.get(f"a{number}", "") for number in range(1, count + 1)]


def run_batches_and_describe_differences(
    scripts: Sequence[ExpectedScript], each_batch: Sequence[list[int]]
) -> CallSteps[dict[int, str]]:
    """How the reports of several batches differ from the wanted ones, by the first place of each that differs."""
    texts = [[scripts[place] for place in places] for places in each_batch]
    outputs = yield [ProgramCall(PROGRAM, (), batch_input(it)) for it in texts]
    wrong = {}
    for places, batch, output in zip(each_batch, texts, outputs):
        wanted = report_of_verdicts({f"a{number}": script.wanted for number, script in enumerate(batch, 1)})
        if output is not None and output != wanted:
            wrong[places[0]] = row_and_unified_diff_of_outputs(batch[0].row, wanted, output)
    return wrong


def check_scripts(scripts: Sequence[ExpectedScript]) -> CallSteps[list[RowResult]]:
    """Compares the verdicts of scripts. If the report of a batch differs, each of its scripts is run by itself."""
    each_batch = script_places_grouped_into_batches(scripts)
    together = yield from run_batches_and_describe_differences(scripts, each_batch)
    wrong = [places for places in each_batch if places[0] in together]
    faults: dict[int, str] = {}
    if wrong:
        faults = yield from run_batches_and_describe_differences(
            scripts, [[place] for places in wrong for place in places]
        )
    for places in wrong:
        if faults.keys().isdisjoint(places):
            faults[places[0]] = f"run with those after it:\n{together[places[0]]}"
    return [RowResult(faults.get(place, "")) for place in range(len(scripts))]


def script_answers(scripts: Sequence[ExpectedScript]) -> CallSteps[list[Optional[RowAnswer]]]:
    """The verdict of each script; none where its run stopped."""
    each_batch = script_places_grouped_into_batches(scripts)
    outputs = yield [ProgramCall(PROGRAM, (), batch_input([scripts[it] for it in places])) for places in each_batch]
    found: dict[int, str] = {}
    for places, output in zip(each_batch, outputs):
        found.update(zip(places, verdicts_of_batch(output, len(places))))
    return [found[place] or None for place in range(len(scripts))]


def without_block_lines(text: bytes) -> bytes:
    """An error text without the lines of blocks: of the first line of each the name and the number stay."""
    short = []
    for line in text.split(b"\n"):
        block = BLOCK.match(line)
        if OBJECT.fullmatch(line):
            short.append(b"~ {}")
        elif block:
            short.append(b"~ " + block[1])
        elif not BLOCK_LINE.match(line):
            short.append(line)
    return b"\n".join(short)


def compared_part_of(run: ProgramRun, output: ProgramOutput) -> ProgramOutput:
    """The output of a run, as far as it is compared."""
    if run.is_refusal:
        first, newline, _ = output.errors.partition(b"\n")
        return replace(output, errors=first + newline, read=None)
    return replace(output, errors=without_block_lines(output.errors)) if run.is_short else output


def run_fault(run: ProgramRun, output: ProgramOutput) -> str:
    """How the output of a run differs from what is wanted; empty where it doesn't."""
    short = compared_part_of(run, output)
    fault = row_and_unified_diff_of_outputs(run.row, run.wanted, short) if short != run.wanted else ""
    return f"{fault or run.row}\n{output.read} octets read, none at most" if output.read else fault


def run_result(run: ProgramRun, output: Optional[ProgramOutput]) -> RowResult:
    """The result of a run. Only a built program shows how much of its input is read."""
    if output is None:
        return RowResult(is_unanswered=True)
    return RowResult(run_fault(run, output), run.is_refusal and output.read is None)


def check_runs(runs: Sequence[ProgramRun]) -> CallSteps[list[RowResult]]:
    """Compares the outputs of runs."""
    outputs = yield [run.program_call() for run in runs]
    return [run_result(run, it) for run, it in zip(runs, outputs)]


def run_answers(runs: Sequence[ProgramRun]) -> CallSteps[list[Optional[RowAnswer]]]:
    """The output of each run; none where it wasn't made."""
    outputs = yield [run.program_call() for run in runs]
    return [
        None if it is None or it.status == NO_STATUS else compared_part_of(run, it) for run, it in zip(runs, outputs)
    ]
