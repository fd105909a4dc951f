"""Has scripts settled, with explanations: piece by piece, and once more where a program ended on the way."""

from collections import deque
from contextlib import closing
from collections.abc import Callable, Generator, Iterable, Iterator, Mapping, Sequence
from dataclasses import dataclass, field, replace
from pathlib import Path

from pdsuite.output.octets import printable_path
from pdsuite.programs.program import Program, ProgramEndedError
from pdsuite.programs.protocol import (
    LONGEST_CAUSE,
    LONGEST_LINE,
    SETTLE,
    Cause,
    RulesByLine,
    UnexpectedAnswerError,
    add_command,
    parse_causes_by_script_and_line,
    parse_new_rows,
    parse_rules_by_script,
    rows_before_total,
    script_name_of_number,
)
from pdsuite.programs.verdict import Row, Verdict
from pdsuite.run.batches import Batch, Piece, SuiteScript, make_outcome_with_row_line
from pdsuite.run.explainer import outcome_with_failure_reason_or_end_warning
from pdsuite.run.outcomes import ScriptOutcome
from pdsuite.scripts.settings import Settings, settings_as_toml
from pdsuite.scripts.text import ScriptText, UnfitTextError, make_newline_ended_text_within_limits, read_text
from pdsuite.signals import Stop

Start = Callable[[Settings], Program]
# Answers a script's text, or why it can't be run.
LoadText = Callable[[SuiteScript], ScriptText | str]


@dataclass(frozen=True)
class SettledPiece:
    """A piece that has been settled; by the places of its scripts, the texts that were run and explanations by keys.

    Where the program lists the rules that events come to, it has these, too.
    """

    outcomes: list[tuple[SuiteScript, ScriptOutcome]]
    texts: dict[int, ScriptText] = field(default_factory=dict)
    causes: Mapping[int, Cause] = field(default_factory=dict)
    rules: Mapping[int, RulesByLine] = field(default_factory=dict)


@dataclass(frozen=True)
class Restart:
    """A program ended before it had answered for this script; a new one begins there."""

    script: SuiteScript
    reason: str

    def __str__(self) -> str:
        """The line that says so."""
        return f"pdsuite: {self.reason}; a new run begins at {printable_path(self.script.path)}"


@dataclass(frozen=True)
class UnexplainedScript:
    """A program ended where it was to explain this script, which has a row all the same."""

    script: SuiteScript
    reason: str

    def __str__(self) -> str:
        """The line that says so."""
        return f"pdsuite: {self.reason}; nothing is told of {printable_path(self.script.path)}"


Step = SettledPiece | Restart | UnexplainedScript
# Has batches settled, with explanations. The steps come in the order of the batches, whoever takes them.
Mapper = Callable[[Iterable[Batch]], Generator[Step, None, None]]


def starter_without_explanations(program: Path, workers: int, cache: int, stop: Stop) -> Start:
    """A function that starts the program for a run under settings, to print nothing of scripts but their rows."""
    return starter_with_options(program, ("--workers", str(workers)), cache, stop)


def starter_with_options(program: Path, options: Sequence[str], cache: int, stop: Stop) -> Start:
    """A function that starts the program for a run under settings; the options say what it explains of scripts."""

    def start(settings: Settings) -> Program:
        words: list[str | Path] = [program, *options, "--cache", str(cache)]
        text = settings_as_toml(settings)
        return Program([*words, "--settings", text] if text else words, stop)

    return start


def load_script_text_or_fault(script: SuiteScript) -> ScriptText | str:
    """The text that is in the script's file, or why it can't be run."""
    if script.fault:
        return script.fault
    try:
        return read_text(script.path) if script.held is None else make_newline_ended_text_within_limits(script.held)
    except UnfitTextError as unfit:
        return str(unfit)


def run_batch(
    batch: Batch, start: Start, load_text: LoadText = load_script_text_or_fault, plain_start: Start | None = None
) -> Generator[Step, None, None]:
    """Has a batch settled, as `run_batch_yielding_waits_and_restarts` does it, and waits for its programs."""
    with closing(run_batch_yielding_waits_and_restarts(batch, start, load_text, plain_start)) as steps:
        yield from _wait_for_programs_and_yield_steps(steps)


def _wait_for_programs_and_yield_steps(steps: Iterable[Step | Program]) -> Iterator[Step]:
    for step in steps:
        if isinstance(step, Program):
            step.wait_until_pipes_ready_or_signal()
        else:
            yield step


def run_batch_yielding_waits_and_restarts(
    batch: Batch, start: Start, load_text: LoadText = load_script_text_or_fault, plain_start: Start | None = None
) -> Generator[Step | Program, None, None]:
    """Has a batch settled, and gives way with its program where that is to be waited for.

    Where its program ends, a new one begins with what is left, each script of that piece by itself. A script whose
    program ends a second time is given to one that explains nothing, if there is one; else, or where that ends too, it
    is an error.
    """
    left = deque(batch.pieces)
    ended: set[int] = set()
    while left:
        try:
            with start(batch.settings) as program:
                yield from _run_and_pop_pieces_in_program(program, left, load_text)
        except ProgramEndedError as end:
            piece = left.popleft()
            if len(piece) == 1 and piece[0].index in ended:
                yield from _run_piece_unexplained_or_yield_error(
                    piece, batch.settings, plain_start, load_text, str(end)
                )
                continue
            ended.update(script.index for script in piece)
            left.extendleft((script,) for script in reversed(piece))
            yield Restart(piece[0], str(end))


def _run_piece_unexplained_or_yield_error(
    piece: Piece, settings: Settings, plain_start: Start | None, load_text: LoadText, reason: str
) -> Iterator[Step]:
    """Has a script settled on which programs end that explain it."""
    if plain_start is not None:
        try:
            with plain_start(settings) as program:
                steps = list(
                    _wait_for_programs_and_yield_steps(
                        _run_and_pop_pieces_in_program(program, deque([piece]), load_text)
                    )
                )
        except ProgramEndedError as end:
            reason = str(end)
        else:
            yield UnexplainedScript(piece[0], reason)
            yield from steps
            return
    yield error_piece(piece, reason)


def _run_and_pop_pieces_in_program(
    program: Program, left: deque[Piece], load_text: LoadText
) -> Iterator[SettledPiece | Program]:
    """Has one piece after another settled by this program; each is taken from `left` once it is."""
    before = b""
    count = 0
    while left:
        loaded = [(script, load_text(script)) for script in left[0]]
        texts = {script.index: it for script, it in loaded if isinstance(it, ScriptText)}
        rows: list[Row] = []
        causes: dict[int, Cause] = {}
        rules: dict[int, RulesByLine] = {}
        if texts:
            names = [script_name_of_number(count + number) for number in range(len(texts))]
            places = dict(zip(names, texts))
            count += len(texts)
            commands = b"".join(map(add_command, names, texts.values())) + SETTLE
            longest = LONGEST_LINE * (count + 2)
            answer, errors = yield from program.query_with_errors_as_generator(
                commands, longest, LONGEST_CAUSE * (len(texts) + 1)
            )
            rows, causes = _parse_answer_or_raise_program_ended(answer, errors, before, places, count)
            rules = {places[name]: it for name, it in parse_rules_by_script(errors).items() if name in places}
            before = rows_before_total(answer)
        left.popleft()
        yield replace(make_settled_piece_of_scripts(loaded, rows, causes), rules=rules)


def _parse_answer_or_raise_program_ended(
    answer: bytes, errors: bytes, before: bytes, places: Mapping[bytes, int], count: int
) -> tuple[list[Row], dict[int, Cause]]:
    try:
        return parse_rows_and_causes_of_same_line(answer, errors, before, places, count)
    except UnexpectedAnswerError as unexpected:
        raise ProgramEndedError(f"pdregress: {unexpected}") from unexpected


def parse_rows_and_causes_of_same_line(
    answer: bytes, errors: bytes, before: bytes, places: Mapping[bytes, int], count: int
) -> tuple[list[Row], dict[int, Cause]]:
    """The rows of scripts, whose places are given by their names, and explanations by keys, by their places.

    An explanation of another line than the row's is of no row.
    """
    rows = parse_new_rows(answer, before, list(places), count)
    lines = {name: row.line for name, row in zip(places, rows)}
    causes = parse_causes_by_script_and_line(errors).items()
    return rows, {places[name]: it for (name, line), it in causes if name in lines and lines[name] in (None, line)}


def make_settled_piece_of_scripts(
    loaded: Sequence[tuple[SuiteScript, ScriptText | str]], rows: Iterable[Row], causes: Mapping[int, Cause]
) -> SettledPiece:
    """A piece of scripts with their texts, or why they couldn't be run; those that could have these rows."""
    left = iter(rows)
    texts = {script.index: text for script, text in loaded if isinstance(text, ScriptText)}
    outcomes = [
        _error_outcome(script, text)
        if isinstance(text, str)
        else _explained_outcome(script, text, next(left), causes.get(script.index))
        for script, text in loaded
    ]
    return SettledPiece(outcomes, texts, causes)


def _explained_outcome(
    script: SuiteScript, text: ScriptText, row: Row, cause: Cause | None
) -> tuple[SuiteScript, ScriptOutcome]:
    line = None if row.line is None else text.find_line_by_number(row.line)
    return script, outcome_with_failure_reason_or_end_warning(
        make_outcome_with_row_line(script, row, line), cause, text
    )


def error_piece(piece: Piece, reason: str) -> SettledPiece:
    """A piece that couldn't be run."""
    return SettledPiece([_error_outcome(script, reason) for script in piece])


def _error_outcome(script: SuiteScript, reason: str) -> tuple[SuiteScript, ScriptOutcome]:
    return script, make_outcome_with_row_line(script, Row(Verdict.ERROR, word=reason))
