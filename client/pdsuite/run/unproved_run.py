"""Runs a suite on a sender as it stands, without proofs: one build runs scripts, explains them and records them."""

from collections.abc import Callable, Generator, Iterable, Mapping, Sequence
from dataclasses import dataclass, field, replace
from pathlib import Path

from pdsuite.faults import Fault
from pdsuite.programs.batch_protocol import ROOM, ProgramAnswer, Case
from pdsuite.programs.locate import RECORD, REGRESS
from pdsuite.programs.program import ProgramEndedError
from pdsuite.programs.protocol import (
    Cause,
    RulesByLine,
    UnexpectedAnswerError,
    LIST_RULES,
    add_command,
    parse_rules_by_script,
    script_name_of_number,
    set_and_show_commands,
    set_command,
)
from pdsuite.programs.recorder import Recording, recording_cases, recording_from_answer
from pdsuite.programs.refusals import Refusal, distinct_key_value_pairs, refusals_in_answer
from pdsuite.programs.unproved_batch import ProgramCases, build_and_run_cases
from pdsuite.programs.verdict import Row, Verdict
from pdsuite.run.batches import Batch, SuiteScript
from pdsuite.run.run_batches import (
    SettledPiece,
    Step,
    load_script_text_or_fault,
    make_settled_piece_of_scripts,
    parse_rows_and_causes_of_same_line,
)
from pdsuite.scripts.config import Claim
from pdsuite.scripts.settings import Settings, set_command_words_or_placeholders
from pdsuite.scripts.text import ScriptText
from pdsuite.signals import Stop

# Of a script the program is expected to print so much at most, beside as many octets as its text has.
_LONGEST_EXPLANATION = 4_096

# The rows of scripts with explanations by keys, by their places.
ExplainedRows = dict[int, tuple[Row, Cause | None]]


@dataclass(frozen=True)
class StartBatch:
    """Scripts with equal settings for one start of the program."""

    settings: Settings
    scripts: tuple[tuple[SuiteScript, ScriptText], ...]

    @property
    def most_output_octets(self) -> int:
        """How many octets are expected to be printed at most."""
        return sum(_most_output_octets(text) for _, text in self.scripts)

    def numbered_script_names(self) -> list[bytes]:
        """The names of the scripts in its commands."""
        return [script_name_of_number(number) for number in range(len(self.scripts))]

    def input_commands(self) -> bytes:
        """The commands that set the settings and add the scripts."""
        sets = [set_command(*set_command_words_or_placeholders(key, value)) for key, value in self.settings]
        return b"".join(
            sets + [add_command(name, text) for name, (_, text) in zip(self.numbered_script_names(), self.scripts)]
        )


@dataclass(frozen=True)
class UnprovedResults:
    """The results of a suite: the settings that are refused, or else settled scripts and recordings.

    With `lists_rules` the scripts have the rules that they come to.
    """

    refused: list[Refusal] = field(default_factory=list)
    settled: list[SettledPiece] = field(default_factory=list)
    recordings: Mapping[int, Recording] = field(default_factory=dict)
    lists_rules: bool = False

    def settled_steps(self, batches: Iterable[Batch]) -> Generator[Step, None, None]:
        """The pieces of the batches, in their order."""
        yield from self.settled


@dataclass(frozen=True)
class UnprovedPlan:
    """The plan of a run: the claims to be queried, and all pieces, which are recorded if need be.

    The options say what the program explains of scripts.
    """

    claims: Sequence[Claim]
    pieces: Sequence[Sequence[tuple[SuiteScript, ScriptText | str]]]
    explain_options: tuple[str, ...]
    records: bool = False

    @property
    def lists_rules(self) -> bool:
        """Whether the program lists the rules that scripts come to."""
        return LIST_RULES in self.explain_options

    @property
    def start_batches_of_runnable_scripts(self) -> list[StartBatch]:
        return [it for piece in self.pieces for it in runnable_scripts_in_output_sized_batches(piece)]

    @property
    def scripts_to_record(self) -> list[tuple[SuiteScript, ScriptText]]:
        """The scripts that are recorded."""
        return [one for it in self.start_batches_of_runnable_scripts for one in it.scripts] if self.records else []

    def cases_for_claims_batches_and_recordings(self, tree: Path) -> list[ProgramCases]:
        """The starts of a tree's programs: one queries the claims, the others run the batches and record."""
        settings_case = Case(
            (), b"".join(set_and_show_commands(*it) for it in distinct_key_value_pairs(self.claims)), is_alone=True
        )
        cases = cases_of_batches(self.start_batches_of_runnable_scripts)
        return [
            self.program_cases_with_explanations(tree, [settings_case, *cases]),
            recording_cases(tree, map(_settings_and_octets, self.scripts_to_record)),
        ]

    def program_cases_with_explanations(self, tree: Path, cases: Sequence[Case]) -> ProgramCases:
        """The starts of a tree's program, which explains."""
        return ProgramCases(tree, REGRESS, self.explain_options, tuple(cases))


def load_scripts_and_make_plan(
    batches: Iterable[Batch], claims: Iterable[Claim], explain_options: tuple[str, ...], records: bool = False
) -> UnprovedPlan:
    """Reads the scripts of these batches, and makes the plan of their run."""
    pieces = [
        [(script, load_script_text_or_fault(script)) for script in piece] for batch in batches for piece in batch.pieces
    ]
    return UnprovedPlan(list(claims), pieces, explain_options, records)


def build_and_run_plan(plan: UnprovedPlan, tree: Path, stop: Stop, note: Callable[[str], None]) -> UnprovedResults:
    """The results of a plan, after one build or two."""
    return results_after_rerunning_unanswered(
        plan, build_and_run_cases(plan.cases_for_claims_batches_and_recordings(tree), stop), tree, stop, note
    )


def results_after_rerunning_unanswered(
    plan: UnprovedPlan, answers: Sequence[Sequence[ProgramAnswer]], tree: Path, stop: Stop, note: Callable[[str], None]
) -> UnprovedResults:
    """The results of a plan, by its answers. Where a start ends early, a second build starts its scripts one by one."""
    (settings_answers, *explained), recorded = answers
    if refused := _claim_refusals_or_raise_fault(plan.claims, settings_answers):
        return UnprovedResults(refused)
    results = _BatchResults(plan, explained, recorded)
    results.rerun_unanswered_alone(tree, stop, note)
    settled = [results.settled_piece_from_rows(piece) for piece in plan.pieces]
    return UnprovedResults([], settled, results.recordings, plan.lists_rules)


class _BatchResults:
    """The answers about a plan's scripts, by their places."""

    def __init__(
        self, plan: UnprovedPlan, explained: Sequence[ProgramAnswer], recorded: Sequence[ProgramAnswer]
    ) -> None:
        self._plan = plan
        self._rows, self._unanswered = rows_and_unanswered_batches(plan.start_batches_of_runnable_scripts, explained)
        self._rules = rules_of_batches(plan.start_batches_of_runnable_scripts, explained)
        self.recordings = {
            script.index: recording_from_answer(answer) for (script, _), answer in zip(plan.scripts_to_record, recorded)
        }
        self._unrecorded = [(one, it.fault) for one, it in zip(plan.scripts_to_record, recorded) if it.is_shared]

    def rerun_unanswered_alone(self, tree: Path, stop: Stop, note: Callable[[str], None]) -> None:
        """Has each script that another one may have ended started by itself, if there is one."""
        singles = [StartBatch(it.settings, (one,)) for it, _ in self._unanswered for one in it.scripts]
        scripts = [one for one, _ in self._unrecorded]
        if singles:
            note(f"pdsuite: {self._unanswered[0][1]}; {len(singles):,} scripts are run again, each by itself")
        if scripts:
            why = self._unrecorded[0][1]
            note(f"pdsuite: {RECORD}: {why}; {len(scripts):,} scripts are recorded again, each by itself")
        if not (singles or scripts):
            return
        cases = [replace(it, is_alone=True) for it in cases_of_batches(singles)]
        builds = [
            self._plan.program_cases_with_explanations(tree, cases),
            recording_cases(tree, map(_settings_and_octets, scripts), is_alone=True),
        ]
        explained, recorded = build_and_run_cases(builds, stop)
        again, lost = rows_and_unanswered_batches(singles, explained)
        self._rules |= rules_of_batches(singles, explained)
        self._rows |= again | {it.scripts[0][0].index: (Row(Verdict.ERROR, word=why), None) for it, why in lost}
        self.recordings |= {
            script.index: recording_from_answer(answer) for (script, _), answer in zip(scripts, recorded)
        }

    def settled_piece_from_rows(self, piece: Sequence[tuple[SuiteScript, ScriptText | str]]) -> SettledPiece:
        """A piece with the outcomes and explanations of its scripts."""
        rows = {script.index: self._rows[script.index] for script, text in piece if isinstance(text, ScriptText)}
        causes = {index: cause for index, (_, cause) in rows.items() if cause is not None}
        rules = {index: self._rules[index] for index in rows if index in self._rules}
        return replace(make_settled_piece_of_scripts(piece, [row for row, _ in rows.values()], causes), rules=rules)


def _settings_and_octets(each: tuple[SuiteScript, ScriptText]) -> tuple[Settings, bytes]:
    script, text = each
    return script.settings, text.octets


def runnable_scripts_in_output_sized_batches(piece: Iterable[tuple[SuiteScript, ScriptText | str]]) -> list[StartBatch]:
    """The scripts of a piece that can be run, in batches of which no great output is expected."""
    batches: list[list[tuple[SuiteScript, ScriptText]]] = []
    room = 0
    for script, text in piece:
        if isinstance(text, str):
            continue
        if not batches or _most_output_octets(text) > room:
            batches.append([])
            room = ROOM
        room -= _most_output_octets(text)
        batches[-1].append((script, text))
    return [StartBatch(it[0][0].settings, tuple(it)) for it in batches]


def _most_output_octets(text: ScriptText) -> int:
    return _LONGEST_EXPLANATION + len(text.octets)


def cases_of_batches(batches: Iterable[StartBatch]) -> list[Case]:
    """The starts of the program on batches."""
    return [Case((), it.input_commands(), it.most_output_octets) for it in batches]


def rows_and_unanswered_batches(
    batches: Iterable[StartBatch], answers: Iterable[ProgramAnswer]
) -> tuple[ExplainedRows, list[tuple[StartBatch, str]]]:
    """Rows and explanations of scripts, by their places; and the batches without an answer, each with the reason."""
    explained: ExplainedRows = {}
    unanswered = []
    for batch, answer in zip(batches, answers):
        try:
            explained |= parse_explained_rows_of_batch(batch, answer)
        except UnexpectedAnswerError as unexpected:
            unanswered.append((batch, f"{REGRESS}: {unexpected}"))
    return explained, unanswered


def rules_of_batches(batches: Iterable[StartBatch], answers: Iterable[ProgramAnswer]) -> dict[int, RulesByLine]:
    """The rules that the scripts of batches come to, by their places, where the program lists them."""
    found: dict[int, RulesByLine] = {}
    for batch, answer in zip(batches, answers):
        rules = parse_rules_by_script(answer.errors)
        names = zip(batch.numbered_script_names(), batch.scripts)
        found |= {script.index: rules[name] for name, (script, _) in names if name in rules}
    return found


def parse_explained_rows_of_batch(batch: StartBatch, answer: ProgramAnswer) -> ExplainedRows:
    """The rows of the scripts of a batch, by their places, each with its explanation by keys."""
    places = {name: script.index for name, (script, _) in zip(batch.numbered_script_names(), batch.scripts)}
    rows, causes = parse_rows_and_causes_of_same_line(
        _require_answered(answer).output, answer.errors, b"", places, len(places)
    )
    return {index: (row, causes.get(index)) for index, row in zip(places.values(), rows)}


def _require_answered(answer: ProgramAnswer) -> ProgramAnswer:
    if answer.fault:
        raise UnexpectedAnswerError(answer.fault)
    return answer


def _claim_refusals_or_raise_fault(claims: Iterable[Claim], answer: ProgramAnswer) -> list[Refusal]:
    try:
        return refusals_in_answer(claims, _require_answered(answer).output)
    except (ProgramEndedError, UnexpectedAnswerError) as end:
        raise Fault(str(end)) from end
