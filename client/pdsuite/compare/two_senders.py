"""Runs two senders on the same scripts: programs at once, and trees that `rt try` has to build side by side."""

import os
from collections.abc import Callable, Collection, Iterable, Mapping, Sequence
from concurrent.futures import ThreadPoolExecutor
from dataclasses import dataclass, replace
from itertools import chain
from pathlib import Path

from pdsuite.compare.affected import RowStarts, tree_outputs_after_isolated_reruns, run_starts_on_programs
from pdsuite.compare.comparison import SenderResults
from pdsuite.compare.sides import Side, refuse_commonly_lacked_keys, note_renamed_and_lacking_keys
from pdsuite.programs.batch_protocol import ProgramAnswer, ProcessOutput, refuses_words
from pdsuite.programs.locate import RECORD, REGRESS
from pdsuite.programs.program import Program
from pdsuite.programs.protocol import LIST_RULES, Cause, RulesByLine
from pdsuite.programs.recorder import Recorder, Recording
from pdsuite.programs.refusals import query_refused_settings_retrying_once, query_whether_words_are_known
from pdsuite.programs.unproved_batch import ProgramCases, build_and_run_cases
from pdsuite.programs.verdict import Verdict
from pdsuite.run.batches import SuiteScript, batch_scripts_by_equal_settings
from pdsuite.run.explainer import EXPLAIN_FAILURES
from pdsuite.run.local_mapper import local_mapper
from pdsuite.run.outcomes import ScriptOutcome
from pdsuite.run.run_batches import SettledPiece, UnexplainedScript
from pdsuite.run.unproved_run import (
    UnprovedPlan,
    UnprovedResults,
    load_scripts_and_make_plan,
    results_after_rerunning_unanswered,
)
from pdsuite.scripts.config import Claim
from pdsuite.scripts.text import ScriptText
from pdsuite.signals import Stop

# So many of the builds of a sender are of scripts.
_OF_SCRIPTS = 2


@dataclass(frozen=True)
class ComparisonTask:
    """The task of both senders: which scripts they run, whether they record, and which rows they are run on.

    The claims are those of both sides. With `lists_rules` the rules that scripts come to are listed, too.
    """

    scripts: Sequence[SuiteScript]
    claims: Sequence[Claim]
    records: bool
    row_starts: RowStarts | None = None
    lists_rules: bool = False

    @property
    def explain_options(self) -> tuple[str, ...]:
        """The options by which a program explains scripts."""
        return (LIST_RULES, *EXPLAIN_FAILURES) if self.lists_rules else EXPLAIN_FAILURES

    def make_unproved_script_plan_for_side(self, side: Side) -> UnprovedPlan:
        """The plan for a sender that has to be built: the claims and scripts that it is started on."""
        batches = batch_scripts_by_equal_settings(side.scripts_with_effective_settings(self.scripts))
        return load_scripts_and_make_plan(
            batches, side.adapted_common_and_own_setting_claims(self.claims), self.explain_options, self.records
        )


def run_both_senders(
    sides: Sequence[Side], task: ComparisonTask, workers: int, stop: Stop, note: Callable[[str], None]
) -> list[SenderResults]:
    """The results of each sender, those of programs first. Each key that one of them lacks is reported once."""
    found = [_side_of_programs_with_accepted_keys(it, task, stop) if it.sender.has_programs else it for it in sides]
    if all(it.sender.has_programs for it in sides):
        refuse_commonly_lacked_keys(found, task.claims)
    proved = _run_sides_with_programs_in_parallel(found, task, workers, stop, note)
    unproved_sides = _UnprovedSides([it for it in found if not it.sender.has_programs], task, stop, note)
    unproved = iter(unproved_sides.sides)
    found = [it if it.sender.has_programs else next(unproved) for it in found]
    refuse_commonly_lacked_keys(found, task.claims)
    note_renamed_and_lacking_keys(found, note)
    results = iter(unproved_sides.collect_results_rerunning_refused())
    return [next(results) if it is None else it for it in proved]


def _run_sides_with_programs_in_parallel(
    sides: Sequence[Side], task: ComparisonTask, workers: int, stop: Stop, note: Callable[[str], None]
) -> list[SenderResults | None]:
    """The results of each sender that has programs; notes on one come after notes on those before it."""
    notes: list[list[str]] = [[] for _ in sides]

    def run_side_if_it_has_programs(side: Side, lines: list[str]) -> SenderResults | None:
        return (
            _run_and_record_side_with_programs(side, task, workers, stop, lines.append)
            if side.sender.has_programs
            else None
        )

    with ThreadPoolExecutor(len(sides)) as pool:
        found = list(pool.map(run_side_if_it_has_programs, sides, notes))
    for line in chain.from_iterable(notes):
        note(line)
    return found


class _UnprovedSides:
    """Sides whose trees `rt try` builds side by side, each with the keys that it lacks, and their results."""

    def __init__(self, sides: Sequence[Side], task: ComparisonTask, stop: Stop, note: Callable[[str], None]) -> None:
        self._task, self._stop, self._note = task, stop, note
        self._plans = [task.make_unproved_script_plan_for_side(it) for it in sides]
        cases = [self._script_and_row_cases_of_tree(side, plan) for side, plan in zip(sides, self._plans)]
        answers = iter(build_and_run_cases([it for each in cases for it in each], stop))
        self._answers = [[next(answers) for _ in each] for each in cases]
        self._tried = [self._script_results_rerunning_unanswered(*it) for it in zip(sides, self._plans, self._answers)]
        self.sides = [side.with_refused_keys_dropped_or_renamed(it.refused) for side, it in zip(sides, self._tried)]

    def collect_results_rerunning_refused(self) -> list[SenderResults]:
        """The results of each. One that refused a key is built again, to run without it."""
        return [self._collect_result_rerunning_if_refused(*it) for it in zip(self.sides, self._tried, self._answers)]

    def _collect_result_rerunning_if_refused(
        self, side: Side, results: UnprovedResults, answers: Sequence[Sequence[ProgramAnswer]]
    ) -> SenderResults:
        row_starts, tree = self._task.row_starts, side.sender.asserted_tree_to_build
        if results.refused:
            plan = self._task.make_unproved_script_plan_for_side(side)
            results = self._script_results_rerunning_unanswered(
                side, plan, build_and_run_cases(plan.cases_for_claims_batches_and_recordings(tree), self._stop)
            )
        outputs = (
            tree_outputs_after_isolated_reruns(row_starts, answers[_OF_SCRIPTS:], tree, self._stop, self._note)
            if row_starts
            else []
        )
        rules = _rules_of_scripts_that_ran(results.settled) if results.lists_rules else None
        return _merge_pieces_into_sender_results(results.settled, results.recordings, outputs, rules)

    def _script_and_row_cases_of_tree(self, side: Side, plan: UnprovedPlan) -> list[ProgramCases]:
        """The starts of a tree's programs: on the scripts, and then on the rows."""
        row_starts, tree = self._task.row_starts, side.sender.asserted_tree_to_build
        return [
            *plan.cases_for_claims_batches_and_recordings(tree),
            *(row_starts.cases_of_pdregress_and_pdrecord(tree) if row_starts else []),
        ]

    def _script_results_rerunning_unanswered(
        self, side: Side, plan: UnprovedPlan, answers: Sequence[Sequence[ProgramAnswer]]
    ) -> UnprovedResults:
        tree = side.sender.asserted_tree_to_build
        if plan.lists_rules and refuses_words(answers[0][0].fault):
            plan = replace(plan, explain_options=EXPLAIN_FAILURES)
            answers = build_and_run_cases(plan.cases_for_claims_batches_and_recordings(tree), self._stop)
        return results_after_rerunning_unanswered(plan, answers[:_OF_SCRIPTS], tree, self._stop, self._note)


def _side_of_programs_with_accepted_keys(side: Side, task: ComparisonTask, stop: Stop) -> Side:
    """A side of programs, without the keys that they lack."""
    program = _side_programs(side)[REGRESS]
    return side.with_keys_that_sender_accepts(
        task.claims, lambda claims: query_refused_settings_retrying_once(claims, lambda: Program([program], stop))
    )


def _side_programs(side: Side) -> dict[str, Path]:
    return side.sender.programs or {}


def _merge_pieces_into_sender_results(
    settled: Iterable[SettledPiece],
    recordings: Mapping[int, Recording],
    outputs: Sequence[ProcessOutput],
    rules: Mapping[int, RulesByLine] | None,
) -> SenderResults:
    outcomes: dict[int, ScriptOutcome] = {}
    texts: dict[int, ScriptText] = {}
    causes: dict[int, Cause] = {}
    for it in settled:
        outcomes |= {script.index: outcome for script, outcome in it.outcomes}
        texts |= it.texts
        causes |= it.causes
    return SenderResults(outcomes, texts, recordings, causes, outputs, rules)


def _rules_of_scripts_that_ran(
    settled: Iterable[SettledPiece], unlisted: Collection[int] = ()
) -> dict[int, RulesByLine]:
    """The rules that scripts come to, by their places, but for those of which none could be listed."""
    return {
        script.index: it.rules.get(script.index, {})
        for it in settled
        for script, outcome in it.outcomes
        if outcome.row.verdict is not Verdict.ERROR and script.index not in unlisted
    }


def _run_and_record_side_with_programs(
    side: Side, task: ComparisonTask, workers: int, stop: Stop, note: Callable[[str], None]
) -> SenderResults:
    """The results of programs."""
    programs = _side_programs(side)
    program = programs[REGRESS]
    if task.lists_rules and not query_whether_words_are_known(lambda: Program([program, LIST_RULES], stop)):
        task = replace(task, lists_rules=False)
    mapper = local_mapper(program, task.explain_options, workers, stop)
    settled: list[SettledPiece] = []
    unlisted: list[int] = []
    for step in mapper(batch_scripts_by_equal_settings(side.scripts_with_effective_settings(task.scripts))):
        if isinstance(step, SettledPiece):
            settled.append(step)
            continue
        note(str(step))
        if isinstance(step, UnexplainedScript):
            unlisted.append(step.script.index)
    recordings = _record_scripts(programs[RECORD], settled, stop, note) if task.records else {}
    outputs = run_starts_on_programs(programs, task.row_starts, stop) if task.row_starts else []
    rules = _rules_of_scripts_that_ran(settled, unlisted) if task.lists_rules else None
    return _merge_pieces_into_sender_results(settled, recordings, outputs, rules)


def _record_scripts(
    program: Path, settled: Iterable[SettledPiece], stop: Stop, note: Callable[[str], None]
) -> dict[int, Recording]:
    """The recordings of all scripts that were read, several at a time."""
    recorder = Recorder(stop, note, program)
    scripts = [
        (script, it.texts[script.index]) for it in settled for script, _ in it.outcomes if script.index in it.texts
    ]

    def record_script_with_index(each: tuple[SuiteScript, ScriptText]) -> tuple[int, Recording]:
        script, text = each
        return script.index, recorder.record_script_or_return_and_note_reason(script.path, text.octets, script.settings)

    with ThreadPoolExecutor(len(os.sched_getaffinity(0))) as pool:
        return dict(pool.map(record_script_with_index, scripts))
