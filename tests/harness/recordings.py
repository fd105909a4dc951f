"""Tables of recordings: scripts are recorded, and what is true of every recording is tested.

It passes, it has each comment and each blank line of its script once, and recording it again gives the same octets.
"""

import re
from collections import Counter
from collections.abc import Iterator, Sequence
from dataclasses import dataclass, replace

from harness.calls import CallSteps, ProgramCall, ProgramOutput, Outputs
from harness.compare import (
    RowCase,
    RowResult,
    TableKind,
    script_places_grouped_into_batches,
    batch_input,
    verdicts_of_batch,
)
from harness.compare import ExpectedScript
from harness.random_scripts import RandomScript, random_scripts
from harness.scripts import parse_script_row, split_into_settings_and_options
from harness.tables import PROGRAM, CaseRow, Table, RowError, case_files, read_tables

TRACE = re.compile(rb"//= at (\d+\.\d{6}) [A-Z]")
RECORDS = "pdrecord"
REGULAR = (0, 1)
# A row: each so manyth of the scripts of the tables and of so many random ones.
CHOICE = re.compile(r"each ([1-9]\d*) of the tables and (\d+) random scripts")

# A comment, or what may hold what looks like one: a string, a command, code or an option.
PIECE = re.compile(
    rb'"(?:\\.|[^"\\])*"|`[^`]*`|%\{.*?\}%|--\w+(?:=[^ \t\r\n]*)?|(?P<comment>//[^\n]*|/\*.*?\*/)', re.DOTALL
)


@dataclass(frozen=True)
class RefusedRecording:
    """A script that isn't recorded, with the status and the error text."""

    script: RandomScript
    status: int
    errors: bytes


@dataclass(frozen=True)
class DoneRecording:
    """A script and its recording, with a trace and without."""

    script: RandomScript
    text: bytes
    trace: bytes

    @property
    def recorded_event_count(self) -> int:
        """How many events the recording has: one line of a trace each."""
        return sum(1 for line in self.trace.split(b"\n") if TRACE.match(line))


def toml_of_settings(settings: list[str]) -> str:
    """The text of settings `KEY VALUE`; of a key that is set twice the last value counts."""
    texts: dict[str, str] = {}
    for key, value in (it.split(" ", 1) for it in settings):
        texts[key] = value if re.fullmatch(r"\d+|true|false", value) else f'"{value}"'
    return "\n".join(f"{key} = {value}" for key, value in texts.items())


def scripts_of_all_script_tables() -> Iterator[RandomScript]:
    """The scripts of all tables of scripts, each option of a header in a line of its own."""
    for table in (it for file in case_files() for it in read_tables(file) if it.kind == "scripts"):
        for row in table.rows:
            _, terms, text = parse_script_row(table, row)
            settings, options = split_into_settings_and_options(terms)
            head = "".join(f"{option}\n" for option in options).encode()
            yield RandomScript(f"{row.file}:{row.line}", toml_of_settings(settings), head + text)


def every_nth_of_table_and_random_scripts(row: CaseRow) -> list[RandomScript]:
    """The scripts that a row takes."""
    found = CHOICE.fullmatch(row.text)
    if not found:
        raise RowError("a row is `each N of the tables and COUNT random scripts`")
    return [*scripts_of_all_script_tables(), *random_scripts(int(found[2]))][:: int(found[1])]


def read_cases_of_chosen_scripts(table: Table) -> Iterator[RowCase[RandomScript]]:
    """A case for each script that a row takes."""
    for row in table.rows:
        for script in every_nth_of_table_and_random_scripts(row):
            name = re.sub(r".*/|\.cases", "", script.name).replace(":", "-")
            yield RowCase(name, replace(row, text=script.name), (script,))


def record_call(script: RandomScript, *options: bytes) -> ProgramCall:
    """The call that records a script."""
    return ProgramCall(RECORDS, (b"--settings", script.settings.encode(), *options), script.text)


def text_to_run_under_script_settings(script: RandomScript, text: bytes) -> ExpectedScript:
    """A text to run under the settings of a script."""
    settings = (line.replace(" = ", " ").replace('"', "") for line in script.settings.splitlines())
    commands = "".join(f"set {it}\n" for it in settings)
    return ExpectedScript(CaseRow(script.name, 0, ""), commands, text.removesuffix(b"\n"), "")


def verdicts_of_batches_rerunning_stopped(
    scripts: Sequence[ExpectedScript], each_batch: Sequence[list[int]], outputs: Outputs
) -> CallSteps[dict[int, str]]:
    """The verdicts of scripts that were run in batches, or by themselves where a batch stopped at a fault."""
    rows: dict[int, str] = {}
    stopped: list[int] = []
    for places, output in zip(each_batch, outputs, strict=True):
        rows.update(zip(places, verdicts_of_batch(output, len(places))))
        if output is not None and output.status not in REGULAR:
            stopped += places
    if stopped:
        alone = yield [ProgramCall(PROGRAM, (), batch_input([scripts[place]])) for place in stopped]
        rows.update((place, verdicts_of_batch(output, 1)[0]) for place, output in zip(stopped, alone, strict=True))
    return rows


def without_trace_lines(text: bytes) -> bytes:
    """A trace without its lines."""
    return b"".join(line for line in text.splitlines(keepends=True) if not TRACE.match(line))


def count_comments_and_blanks(text: bytes) -> Counter[bytes]:
    """The comments of a text, and its blank lines, each with how often it stands there."""
    comments = Counter(found["comment"] for found in PIECE.finditer(text) if found["comment"])
    lines = text.removesuffix(b"\n").split(b"\n") if text else []
    blanks = Counter(b"" for line in lines if not line.strip(b" \t\r"))
    return comments + blanks


def comment_faults(done: DoneRecording) -> Iterator[str]:
    """The faults of a recording in comments and blank lines: each of the script has to stay, once."""
    script = count_comments_and_blanks(without_trace_lines(done.script.text))
    kept = count_comments_and_blanks(done.text)
    if script != kept:
        yield f"without {dict(script - kept)}, and with {dict(kept - script)} besides"


def too_large_if_row_is_limit_else_row(row: str) -> str:
    """A refusal in place of a row: of a run that stops at a full outbox the recording may be over the limits."""
    return "2 TooLarge" if row.startswith("limit") else row


def refusal_faults(refused: RefusedRecording, row: str) -> Iterator[str]:
    """The faults of a refusal.

    It has to be the row, unless that is about what the script expects, or the recording is too large, whose packets
    leave before they fill the outbox.
    """
    line, _, below = refused.errors.decode(errors="backslashreplace").partition("\n")
    reason = line.removeprefix("pdrecord: ")
    if refused.status != 1:
        yield f"status {refused.status}: {refused.errors!r}"
    elif bool(below) == reason.startswith("2") or not re.fullmatch(r"(  [ -~]*\n)*", below):
        yield f"refused by {reason!r}, with {below!r} below it"
    elif row and not row.startswith(("pass", "fail")) and reason not in (row, too_large_if_row_is_limit_else_row(row)):
        yield f"refused by {reason!r}, where the row is {row!r}"


def faults_unless_recording_passes_whole(done: DoneRecording, row: str) -> Iterator[str]:
    """The fault of the row of a recording, if it has one: it has to pass, with all of its events."""
    if row != f"pass {done.recorded_event_count}":
        yield f"{row}, with {done.recorded_event_count} events"


def rerecord_faults(done: DoneRecording, again: ProgramOutput | None, traced: ProgramOutput | None) -> Iterator[str]:
    """The faults of a recording and its trace, each of which is recorded again."""
    if again != ProgramOutput(done.text, b"", 0):
        yield "another recording of the recording"
    if traced != ProgramOutput(done.trace, b"", 0):
        yield "another trace of the trace"
    if without_trace_lines(done.trace) != done.text:
        yield "a trace that isn't the recording"


def record_scripts(scripts: Sequence[RandomScript]) -> CallSteps[list[DoneRecording | RefusedRecording | None]]:
    """The recordings of scripts; none where only a built program can record one."""
    outputs = yield [record_call(it, *options) for it in scripts for options in ((), (b"--trace",))]
    each: list[DoneRecording | RefusedRecording | None] = []
    for script, plain, traced in zip(scripts, outputs[::2], outputs[1::2], strict=True):
        if plain is None or traced is None:
            each.append(None)
        elif plain.status != 0:
            each.append(RefusedRecording(script, plain.status, plain.errors))
        else:
            each.append(DoneRecording(script, plain.output, traced.output))
    return each


def rerecord_calls(done: DoneRecording) -> tuple[ProgramCall, ProgramCall]:
    """The calls that record a recording, with its trace too."""
    again = replace(done.script, text=done.text)
    return record_call(again), record_call(replace(again, text=done.trace), b"--trace")


def check_recordings(scripts: Sequence[RandomScript]) -> CallSteps[list[RowResult]]:
    """Records scripts and their recordings, and runs each recording, or the script if that is refused."""
    each = yield from record_scripts(scripts)
    kept = [it for it in each if isinstance(it, DoneRecording)]
    refused = [it for it in each if isinstance(it, RefusedRecording)]
    calls = [call for it in kept for call in rerecord_calls(it)]
    texts = [*((it.script, it.text) for it in kept), *((it.script, it.script.text) for it in refused)]
    expected = [text_to_run_under_script_settings(*it) for it in texts]
    each_batch = script_places_grouped_into_batches(expected)
    runs = [ProgramCall(PROGRAM, (), batch_input([expected[place] for place in places])) for places in each_batch]
    outputs = yield [*calls, *runs]
    rows = yield from verdicts_of_batches_rerunning_stopped(expected, each_batch, outputs[len(calls) :])
    faults: dict[str, list[str]] = {}
    for at, it in enumerate(kept):
        again, traced = outputs[2 * at : 2 * at + 2]
        faults[it.script.name] = [
            *rerecord_faults(it, again, traced),
            *comment_faults(it),
            *faults_unless_recording_passes_whole(it, rows[at]),
        ]
    for at, other in enumerate(refused, len(kept)):
        faults[other.script.name] = list(refusal_faults(other, rows[at]))
    lines = ["\n".join(f"{it.name}: {fault}" for fault in faults.get(it.name, [])) for it in scripts]
    return [RowResult(it, is_unanswered=done is None) for it, done in zip(lines, each, strict=True)]


RECORDINGS = TableKind(read_cases_of_chosen_scripts, check_recordings, (RECORDS, PROGRAM))
