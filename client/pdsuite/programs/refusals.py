"""Queries the program, in a run without scripts, which settings it takes."""

import re
from collections.abc import Callable, Iterable
from contextlib import suppress
from dataclasses import dataclass

from pdsuite.faults import Fault
from pdsuite.programs.batch_protocol import refuses_words
from pdsuite.programs.program import Program, ProgramEndedError
from pdsuite.programs.protocol import (
    LONGEST_LINE,
    SHOW,
    UnexpectedAnswerError,
    parse_new_rows,
    refusal_kind_if_refused,
    set_and_show_commands,
)
from pdsuite.scripts.config import Claim
from pdsuite.scripts.renamed import BAD_VALUE, UNKNOWN_KEY
from pdsuite.scripts.settings import set_command_words_or_placeholders

# Why the program refuses a key or its value; any other refusal ends the run.
_REFUSALS = (UNKNOWN_KEY, BAD_VALUE)
# Where the answer to a question ends.
_AFTER_TOTAL = re.compile(rb"(?<=pending 0\n)")

# The keys with their values that were queried already, and why each is refused, if it is.
_Known = dict[tuple[str, str], str | None]


@dataclass(frozen=True, slots=True)
class Refusal:
    """A claim that the program refuses, and why."""

    claim: Claim
    reason: str

    @property
    def refusal_line(self) -> str:
        """The line that says so."""
        return self.claim.refusal_line(self.reason)


def query_refusal_lines(claims: Iterable[Claim], start: Callable[[], Program]) -> list[str]:
    """The lines of the claims that the program refuses. Without claims it is still queried whether it answers."""
    return [it.refusal_line for it in query_refused_settings_retrying_once(claims, start)]


def query_refused_settings_retrying_once(claims: Iterable[Claim], start: Callable[[], Program]) -> list[Refusal]:
    """The claims that the program refuses. Without claims it is still queried whether it answers."""
    each = list(claims)
    known: _Known = {}
    with suppress(ProgramEndedError):  # a new run begins with what is left
        return _query_refusals(each, known, start)
    try:
        return _query_refusals(each, known, start)
    except ProgramEndedError as end:
        raise Fault(str(end)) from end


def query_whether_words_are_known(start: Callable[[], Program]) -> bool:
    """Whether a program takes the words that it is started with; whether it runs at all is found out elsewhere."""
    try:
        with start() as program:
            program.query_answer_regardless_of_errors(SHOW, 2 * LONGEST_LINE)
    except ProgramEndedError as end:
        return not refuses_words(str(end))
    return True


def _query_refusals(claims: list[Claim], known: _Known, start: Callable[[], Program]) -> list[Refusal]:
    with start() as program:
        _require_report_without_scripts(program.query_answer_regardless_of_errors(SHOW, 2 * LONGEST_LINE), b"")
        for claim in claims:
            words = set_command_words_or_placeholders(claim.key, claim.value)
            if words not in known:
                known[words] = _query_refusal_of_setting(words, program)
    return _refusals_of_claims_with_known_reason(claims, known)


def distinct_key_value_pairs(claims: Iterable[Claim]) -> list[tuple[str, str]]:
    """The queries where all are made at once: each key with its value, once."""
    return list(dict.fromkeys(set_command_words_or_placeholders(it.key, it.value) for it in claims))


def refusals_in_answer(claims: Iterable[Claim], answer: bytes) -> list[Refusal]:
    """The claims that the program refuses, by its answer to `set_and_show_commands` of all questions."""
    each = list(claims)
    pairs = distinct_key_value_pairs(each)
    *parts, rest = _AFTER_TOTAL.split(answer)
    # The last part is the report at the end.
    if rest or len(parts) != len(pairs) + 1:
        raise ProgramEndedError(f"pdregress answered {len(parts) - 1} of {len(pairs)} questions")
    return _refusals_of_claims_with_known_reason(
        each, {words: _refusal_reason_in_set_and_show_answer(part) for words, part in zip(pairs, parts)}
    )


def _refusals_of_claims_with_known_reason(claims: Iterable[Claim], known: _Known) -> list[Refusal]:
    reasons = ((claim, known[set_command_words_or_placeholders(claim.key, claim.value)]) for claim in claims)
    return [Refusal(claim, reason) for claim, reason in reasons if reason is not None]


def _query_refusal_of_setting(words: tuple[str, str], program: Program) -> str | None:
    """Why the program refuses a key with its value, if it does."""
    return _refusal_reason_in_set_and_show_answer(
        program.query_answer_regardless_of_errors(set_and_show_commands(*words), 3 * LONGEST_LINE)
    )


def _refusal_reason_in_set_and_show_answer(answer: bytes) -> str | None:
    """Why a key with its value is refused, by the answer to both, if it is."""
    reason = refusal_kind_if_refused(answer)
    _require_report_without_scripts(answer, answer.split(b"\n", 1)[0] + b"\n" if reason in _REFUSALS else b"")
    return reason


def _require_report_without_scripts(answer: bytes, before: bytes) -> None:
    """Raises ProgramEndedError where an answer is no report without scripts, behind what may stand before it."""
    try:
        parse_new_rows(answer, before, (), 0)
    except UnexpectedAnswerError as unexpected:
        raise ProgramEndedError(f"pdregress: {unexpected}") from unexpected
