"""Queries a sender for recordings of inputs, and for what comes of scripts."""

import os
from collections.abc import Callable, Iterable, Iterator, Mapping, Sequence
from concurrent.futures import ThreadPoolExecutor
from contextlib import ExitStack, closing, contextmanager
from dataclasses import dataclass, replace
from itertools import repeat
from pathlib import Path
from typing import Protocol, TypeVar

from pdsuite.compare.built_senders import build_plain_if_sender_is_optimised
from pdsuite.compare.senders import Sender
from pdsuite.compare.sides import Side
from pdsuite.faults import Fault
from pdsuite.output.octets import printable_octets
from pdsuite.programs.batch_protocol import ProgramAnswer, Case
from pdsuite.programs.locate import RECORD, REGRESS
from pdsuite.programs.program import Program, ProgramEndedError
from pdsuite.programs.protocol import (
    LIST_RULES,
    LONGEST_BLOCK,
    LONGEST_LINE,
    SETTLE,
    RulesByLine,
    UnexpectedAnswerError,
)
from pdsuite.programs.protocol import (
    add_command,
    parse_blocks_by_script_and_line,
    parse_new_rows,
    parse_rules_by_script,
    script_name_of_number,
    set_and_show_commands,
    set_command,
)
from pdsuite.programs.recorder import TRACE, Recording, record_texts, recording_cases, recording_from_answer
from pdsuite.programs.refusals import (
    Refusal,
    distinct_key_value_pairs,
    query_refusal_lines,
    query_refused_settings_retrying_once,
    refusals_in_answer,
)
from pdsuite.programs.unproved_batch import ProgramCases
from pdsuite.programs.unproved_session import UnprovedSession
from pdsuite.programs.verdict import Row, Verdict
from pdsuite.run.batches import split_into_chunks_of_size
from pdsuite.run.explainer import EXPLAIN
from pdsuite.scripts.config import Claim
from pdsuite.scripts.settings import Settings, set_command_words_or_placeholders, settings_as_toml, sorted_settings
from pdsuite.scripts.text import ScriptText, UnfitTextError, make_newline_ended_text_within_limits
from pdsuite.search.inputs import Inputs
from pdsuite.search.rule_listers import RuleListers
from pdsuite.signals import Stop

A = TypeVar("A", bound="Inputs | ConfiguredScript")
T = TypeVar("T")
U = TypeVar("U")

# Begins what a program that isn't proved says where it stops.
_STOPS = "unproved: Faulted: "
# So many scripts are run by one start of a program at most.
_PIECE = 16
_FIRST = (8, 16, 32)
_LATER = 64


@dataclass(frozen=True, slots=True)
class ConfiguredScript:
    """A script with its settings."""

    settings: Settings
    octets: bytes

    def script_octets(self) -> bytes:
        """The script."""
        return self.octets


class SenderOracle(Protocol):
    """Queries one sender."""

    def record_inputs_or_scripts(self, inputs: Sequence[Inputs | ConfiguredScript]) -> list[Recording]:
        """The recordings of inputs or of scripts, with states."""

    def run_scripts_for_rows(self, scripts: Sequence[ConfiguredScript]) -> list[Row]:
        """The rows of scripts."""

    def explanation_lines_of_script(self, script: ConfiguredScript) -> list[str]:
        """The row of a script that doesn't pass with what it means, and the lines below it."""


class RulesOracle(Protocol):
    """Queries one sender about its rules."""

    def require_that_rules_are_listed(self) -> None:
        """Raises Fault where the sender lists no rules."""

    def list_rules_of_scripts(self, scripts: Sequence[ConfiguredScript]) -> list[RulesByLine]:
        """The rules that each script comes to, by the lines of its events; none of one on which the program ends."""


class SenderAndRulesOracle(SenderOracle, RulesOracle, Protocol):
    """Queries one sender about its rules, too."""


class SettingsOracle(SenderAndRulesOracle, Protocol):
    """Queries one sender about settings and rules, too."""

    def refusals_of_claims(self, claims: Sequence[Claim]) -> list[Refusal]:
        """The claims that the sender refuses."""


@dataclass(frozen=True)
class SideOracle:
    """Queries the sender of a side, under the settings that hold there beside those of inputs and scripts."""

    oracle: SenderAndRulesOracle
    side: Side
    common: Settings

    def settings_on_side(self, given: Settings) -> Settings:
        """The settings under which inputs or a script with these are played."""
        return self.side.adapted_given_and_own_settings(sorted_settings({**dict(given), **dict(self.common)}))

    def record_inputs_or_scripts(self, inputs: Sequence[Inputs | ConfiguredScript]) -> list[Recording]:
        return self.oracle.record_inputs_or_scripts(
            [replace(it, settings=self.settings_on_side(it.settings)) for it in inputs]
        )

    def run_scripts_for_rows(self, scripts: Sequence[ConfiguredScript]) -> list[Row]:
        return self.oracle.run_scripts_for_rows([self._with_side_settings(it) for it in scripts])

    def explanation_lines_of_script(self, script: ConfiguredScript) -> list[str]:
        return self.oracle.explanation_lines_of_script(self._with_side_settings(script))

    def require_that_rules_are_listed(self) -> None:
        self.oracle.require_that_rules_are_listed()

    def list_rules_of_scripts(self, scripts: Sequence[ConfiguredScript]) -> list[RulesByLine]:
        return self.oracle.list_rules_of_scripts([self._with_side_settings(it) for it in scripts])

    def _with_side_settings(self, it: ConfiguredScript) -> ConfiguredScript:
        return replace(it, settings=self.settings_on_side(it.settings))


@contextmanager
def open_oracles_building_missing_programs(senders: Sequence[Sender], stop: Stop) -> Iterator[list[SettingsOracle]]:
    """The oracles of senders: programs, or those of a tree, which `rt try` builds once for the block, side by side."""
    with ExitStack() as stack:
        trees = {it.asserted_tree_to_build for it in senders if not it.has_programs}
        sessions = {tree: stack.enter_context(UnprovedSession(tree, stop)) for tree in trees}
        for session in sessions.values():
            session.wait_silently_until_built()
        yield [_program_or_unproved_oracle(it, stop, sessions, stack) for it in senders]


def _program_or_unproved_oracle(
    sender: Sender, stop: Stop, sessions: Mapping[Path, UnprovedSession], stack: ExitStack
) -> SettingsOracle:
    if sender.has_programs:
        return stack.enter_context(closing(ProgramOracle(sender, stop)))
    return UnprovedOracle(sender, sessions[sender.asserted_tree_to_build])


def input_counts_of_successive_queries() -> Iterator[int]:
    """How many inputs senders are queried about at once, one time after the other."""
    # Few inputs at first make an early find cheap; many later on keep all processors at work.
    yield from _FIRST
    yield from repeat(_LATER)


class ProgramOracle:
    """Queries programs, several at a time."""

    def __init__(self, sender: Sender, stop: Stop) -> None:
        self._sender = sender
        programs = sender.programs or {}
        self._program = programs[REGRESS]
        self._recorder = programs[RECORD]
        self._stop = stop
        self._count = len(os.sched_getaffinity(0))
        self._listers = RuleListers(self._program, stop)

    def close(self) -> None:
        """Ends the programs that stay up."""
        self._listers.close()

    def refusals_of_claims(self, claims: Sequence[Claim]) -> list[Refusal]:
        return query_refused_settings_retrying_once(claims, lambda: Program([self._program], self._stop))

    def record_inputs_or_scripts(self, inputs: Sequence[Inputs | ConfiguredScript]) -> list[Recording]:
        return self._query_groups_of_equal_settings(inputs, self._record_with_equal_settings)

    def run_scripts_for_rows(self, scripts: Sequence[ConfiguredScript]) -> list[Row]:
        return self._query_groups_of_equal_settings(scripts, self._rows_of_joint_run_or_else_of_single_runs)

    def require_that_rules_are_listed(self) -> None:
        query_refusal_lines((), lambda: Program([self._program, LIST_RULES], self._stop))

    def list_rules_of_scripts(self, scripts: Sequence[ConfiguredScript]) -> list[RulesByLine]:
        return self._query_groups_of_equal_settings(scripts, self._rules_of_joint_run_or_else_of_single_runs)

    def _rules_of_joint_run_or_else_of_single_runs(self, scripts: Sequence[ConfiguredScript]) -> list[RulesByLine]:
        """The rules of scripts with equal settings. Where a program ends on the way, each is run by itself."""
        texts = [_script_text_or_failing_if_too_long(it.octets) for it in scripts]
        try:
            return self._listers.list_rules(scripts[0].settings, texts)
        except (ProgramEndedError, UnexpectedAnswerError):
            if len(scripts) == 1:
                return [{}]
            return [rules for it in scripts for rules in self._rules_of_joint_run_or_else_of_single_runs([it])]

    def _record_with_equal_settings(self, inputs: Sequence[Inputs | ConfiguredScript]) -> list[Recording]:
        """The recordings of inputs with equal settings."""
        texts = [it.script_octets() for it in inputs]
        return list(record_texts(self._recorder, texts, inputs[0].settings, self._stop, (TRACE,)))

    def _query_groups_of_equal_settings(
        self, items: Sequence[A], work: Callable[[Sequence[A]], Sequence[U]]
    ) -> list[U]:
        """The result of each item: `work` gets those with equal settings together, `_PIECE` of them at most."""
        pieces = list(_chunks_of_places_with_equal_settings(items))
        answers = self._map_in_threads(lambda it: work([items[place] for place in it]), pieces)
        found = {place: one for piece, answer in zip(pieces, answers) for place, one in zip(piece, answer)}
        return [found[place] for place in range(len(items))]

    def explanation_lines_of_script(self, script: ConfiguredScript) -> list[str]:
        with self._start_program(script.settings, EXPLAIN) as program:
            return _explanation_lines(
                program.send_last_commands_and_read_errors(_add_commands([script]), 2 * LONGEST_BLOCK)
            )

    def _rows_of_joint_run_or_else_of_single_runs(self, scripts: Sequence[ConfiguredScript]) -> list[Row]:
        """The rows of scripts with equal settings. Where the program ends on the way, each is run by itself."""
        try:
            with self._start_program(scripts[0].settings) as program:
                answer = program.query_answer_regardless_of_errors(
                    _add_commands(scripts) + SETTLE, LONGEST_LINE * (len(scripts) + 2)
                )
                return parse_new_rows(answer, b"", _numbered_names(scripts), len(scripts))
        except (ProgramEndedError, UnexpectedAnswerError) as end:
            if len(scripts) == 1:
                return [Row(Verdict.ERROR, 0, self._end_reason_from_plain_build_if_stopped(scripts[0], str(end)))]
            return [row for it in scripts for row in self._rows_of_joint_run_or_else_of_single_runs([it])]

    def _end_reason_from_plain_build_if_stopped(self, script: ConfiguredScript, end: str) -> str:
        """Why the program ended on a script. Where an optimised one stops, a plain one says where."""
        plain = build_plain_if_sender_is_optimised(self._sender, self._stop) if _STOPS in end else None
        (row,) = (
            ProgramOracle(plain, self._stop).run_scripts_for_rows([script]) if plain else [Row(Verdict.ERROR, 0, end)]
        )
        return row.word if row.verdict is Verdict.ERROR else end

    def _start_program(self, settings: Settings, *words: str) -> Program:
        text = settings_as_toml(settings)
        return Program([self._program, *words, *(["--settings", text] if text else [])], self._stop)

    def _map_in_threads(self, work: Callable[[T], U], items: Sequence[T]) -> list[U]:
        with ThreadPoolExecutor(self._count) as pool:
            return list(pool.map(work, items))


class UnprovedOracle:
    """Queries the programs of a tree as it stands, which `rt try` has built."""

    def __init__(self, sender: Sender, session: UnprovedSession) -> None:
        self._tree = sender.asserted_tree_to_build
        self._session = session

    def refusals_of_claims(self, claims: Sequence[Claim]) -> list[Refusal]:
        settings_case = Case(
            (), b"".join(set_and_show_commands(*it) for it in distinct_key_value_pairs(claims)), is_alone=True
        )
        (answer,) = self._session.run_cases(ProgramCases(self._tree, REGRESS, (), (settings_case,)))
        if answer.fault:
            raise Fault(answer.fault)
        return refusals_in_answer(claims, answer.output)

    def record_inputs_or_scripts(self, inputs: Sequence[Inputs | ConfiguredScript]) -> list[Recording]:
        answers = self._session.run_cases(
            recording_cases(self._tree, [(it.settings, it.script_octets()) for it in inputs])
        )
        return [recording_from_answer(it) for it in answers]

    def run_scripts_for_rows(self, scripts: Sequence[ConfiguredScript]) -> list[Row]:
        return [_row_of_only_script_or_error_row(it) for it in self._run_each_script_in_own_start(scripts)]

    def explanation_lines_of_script(self, script: ConfiguredScript) -> list[str]:
        (answer,) = self._run_each_script_in_own_start([script], EXPLAIN)
        return [answer.fault] if answer.fault else _explanation_lines(answer.errors)

    def require_that_rules_are_listed(self) -> None:
        (answer,) = self._session.run_cases(ProgramCases(self._tree, REGRESS, (LIST_RULES,), (Case((), b""),)))
        if answer.fault:
            raise Fault(answer.fault)

    def list_rules_of_scripts(self, scripts: Sequence[ConfiguredScript]) -> list[RulesByLine]:
        answers = self._run_each_script_in_own_start(scripts, LIST_RULES)
        return [parse_rules_by_script(it.errors).get(script_name_of_number(0), {}) for it in answers]

    def _run_each_script_in_own_start(self, scripts: Sequence[ConfiguredScript], *words: str) -> list[ProgramAnswer]:
        """The answer to each script, run in a start of its own, which costs little."""
        cases = tuple(Case((), _set_commands(it.settings) + _add_commands([it])) for it in scripts)
        return self._session.run_cases(ProgramCases(self._tree, REGRESS, words, cases))


def _row_of_only_script_or_error_row(answer: ProgramAnswer) -> Row:
    """The row of the only script."""
    if answer.fault:
        return Row(Verdict.ERROR, 0, answer.fault)
    try:
        (row,) = parse_new_rows(answer.output, b"", [script_name_of_number(0)], 1)
        return row
    except UnexpectedAnswerError as unexpected:
        return Row(Verdict.ERROR, 0, str(unexpected))


def _chunks_of_places_with_equal_settings(items: Sequence[A]) -> Iterable[tuple[int, ...]]:
    """The places of inputs or scripts, those with equal settings together."""
    groups: dict[Settings, list[int]] = {}
    for place, it in enumerate(items):
        groups.setdefault(it.settings, []).append(place)
    return [piece for group in groups.values() for piece in split_into_chunks_of_size(group, _PIECE)]


def _numbered_names(scripts: Sequence[ConfiguredScript]) -> list[bytes]:
    return [script_name_of_number(number) for number in range(len(scripts))]


def _set_commands(settings: Settings) -> bytes:
    return b"".join(set_command(*set_command_words_or_placeholders(key, value)) for key, value in settings)


def _add_commands(scripts: Sequence[ConfiguredScript]) -> bytes:
    return b"".join(
        add_command(name, _script_text_or_failing_if_too_long(it.octets))
        for name, it in zip(_numbered_names(scripts), scripts)
    )


def _script_text_or_failing_if_too_long(octets: bytes) -> ScriptText:
    """The text of a recording, or one that fails where it is over the limits."""
    try:
        return make_newline_ended_text_within_limits(octets)
    except UnfitTextError:
        return make_newline_ended_text_within_limits(b"too long")


def _explanation_lines(errors: bytes) -> list[str]:
    """The block of the only script: what its row means, and the lines below that."""
    blocks = parse_blocks_by_script_and_line(errors)
    (lines,) = blocks.values() or [[]]
    return [printable_octets(it) for it in lines]
