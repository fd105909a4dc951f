"""A batch as it travels to another machine, what is done there, and what comes back: plain values, no classes."""

import os
from collections.abc import Callable, Iterator
from itertools import chain, islice
from pathlib import Path

from pdsuite.faults import Fault, error_reason
from pdsuite.output.octets import printable_path
from pdsuite.programs.locate import PROGRAMS_VARIABLE, REGRESS, sha256_of
from pdsuite.programs.protocol import Cause
from pdsuite.programs.verdict import Row, Verdict
from pdsuite.run.batches import Batch, Piece, SuiteScript
from pdsuite.run.explainer import EXPLAIN_OPTIONS
from pdsuite.run.run_batches import (
    SettledPiece,
    Step,
    load_script_text_or_fault,
    make_settled_piece_of_scripts,
    run_batch,
    starter_with_options,
    starter_without_explanations,
)
from pdsuite.scripts.settings import Settings
from pdsuite.scripts.text import ScriptText, make_newline_ended_text_within_limits
from pdsuite.signals import Stop

# The settings, and pieces of scripts: of each its path and its text, or why it can't be run.
PackedBatch = tuple[Settings, list[list[tuple[str, bytes | str]]]]
# The program: its path on the machine that sends, and its SHA-256.
WantedProgram = tuple[str, str]
# A verdict with its number and word, and what is explained of the script by keys.
PlainRow = tuple[str, int, str, Cause | None]
# The rows of each piece, and before them what is printed on the way; or why nothing was run.
PlainAnswer = list[str | list[PlainRow]] | str

_INSTALLED = Path("/usr/bin")


def pack_batch_with_current_texts(batch: Batch) -> PackedBatch:
    """A batch with the texts that are in the files now."""
    return batch.settings, [
        [(script.path, _script_octets_or_load_fault(script)) for script in piece] for piece in batch.pieces
    ]


def why_wanted_program_unusable_or_empty(wanted: WantedProgram) -> str:
    """Why this machine can't be used, by its program; empty if it can."""
    try:
        _find_program_of_wanted_sha256_or_fault(*wanted)
    except Fault as fault:
        return str(fault)
    return ""


def run_packed_batch_or_program_fault(packed_batch: PackedBatch, wanted: WantedProgram) -> PlainAnswer:
    """Settles a batch on the machine where this is called, if its program is that one."""
    try:
        program = _find_program_of_wanted_sha256_or_fault(*wanted)
    except Fault as fault:
        return str(fault)
    batch, texts = _unpack_batch_and_texts_or_faults(packed_batch)
    answer: list[str | list[PlainRow]] = []
    with Stop(signals=()) as stop:
        start, plain_start = starter_with_options(program, EXPLAIN_OPTIONS, 1, stop), starter_without_explanations(
            program, 0, 1, stop
        )
        for step in run_batch(batch, start, lambda it: texts[it.index], plain_start):
            answer.append(_step_as_plain_rows_or_message(step))
    return answer


def rebuild_steps_and_note_messages(
    batch: Batch, packed_batch: PackedBatch, answer: list[str | list[PlainRow]], note: Callable[[str], None]
) -> Iterator[Step]:
    """The steps that an answer has of a batch; `note` gets what was printed on the way."""
    sent = zip(chain.from_iterable(batch.pieces), (text for piece in packed_batch[1] for _, text in piece))
    for it in answer:
        if isinstance(it, str):
            note(it)
            continue
        piece = [(script, _unpack_script_text_or_fault(text)) for script, text in islice(sent, len(it))]
        answered = [(script, row) for (script, text), row in zip(piece, it) if isinstance(text, ScriptText)]
        rows = (Row(Verdict(verdict), number, word) for _, (verdict, number, word, _) in answered)
        yield make_settled_piece_of_scripts(
            piece, rows, {script.index: row[3] for script, row in answered if row[3] is not None}
        )


def _script_octets_or_load_fault(script: SuiteScript) -> bytes | str:
    text = load_script_text_or_fault(script)
    return text.octets if isinstance(text, ScriptText) else text


def _unpack_batch_and_texts_or_faults(packed_batch: PackedBatch) -> tuple[Batch, dict[int, ScriptText | str]]:
    settings, plain = packed_batch
    pieces: list[Piece] = []
    texts: dict[int, ScriptText | str] = {}
    for each in plain:
        first = len(texts)
        pieces.append(tuple(SuiteScript(index, path, settings) for index, (path, _) in enumerate(each, first)))
        texts.update((index, _unpack_script_text_or_fault(it)) for index, (_, it) in enumerate(each, first))
    return Batch(settings, tuple(pieces)), texts


def _unpack_script_text_or_fault(plain: bytes | str) -> ScriptText | str:
    return make_newline_ended_text_within_limits(plain) if isinstance(plain, bytes) else plain


def _step_as_plain_rows_or_message(step: Step) -> str | list[PlainRow]:
    if not isinstance(step, SettledPiece):
        return str(step)
    rows = [(script.index, outcome.row) for script, outcome in step.outcomes]
    return [(row.verdict.value, row.number, row.word, step.causes.get(index)) for index, row in rows]


def _find_program_of_wanted_sha256_or_fault(path: str, wanted: str) -> Path:
    """The program of this machine, where it is the one that is wanted."""
    folder = os.environ.get(PROGRAMS_VARIABLE)
    places = [Path(folder, REGRESS)] if folder else [Path(path), _INSTALLED / REGRESS]
    there = [it for it in places if it.is_file() and os.access(it, os.X_OK)]
    if not there:
        raise Fault(f"no program {' or '.join(map(printable_path, places))}")
    try:
        same = [it for it in there if sha256_of(it) == wanted]
    except OSError as error:
        raise Fault(f"{printable_path(there[0])}: {error_reason(error)}") from error
    if not same:
        raise Fault(f"{printable_path(there[0])} has another SHA-256")
    return same[0]
