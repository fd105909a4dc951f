"""Queries to programs beside the runs that stay up.

They are for recordings, rules of the sender, rows of other texts, and what may stand where.
"""

from collections.abc import Callable, Sequence
from typing import TypeVar

from pdsuite.lsp.completion import PROBE
from pdsuite.programs.locate import REGRESS
from pdsuite.programs.program import Program, ProgramEndedError
from pdsuite.programs.protocol import (
    LIST_RULES,
    LONGEST_CAUSE,
    LONGEST_LINE,
    SETTLE,
    Cause,
    RulesByLine,
    UnexpectedAnswerError,
    add_command,
    parse_causes_by_script_and_line,
    parse_new_rows,
    parse_rules_by_script,
    script_name_of_number,
)
from pdsuite.programs.recorder import MINIMAL, Recorder, Recording
from pdsuite.programs.refusals import query_refusal_lines
from pdsuite.programs.verdict import Row
from pdsuite.run.batches import BATCH_SIZE
from pdsuite.run.explainer import EXPLAIN, JSON, LEFTOVERS
from pdsuite.scripts.config import Claim
from pdsuite.scripts.settings import Settings, settings_as_toml
from pdsuite.scripts.text import ScriptText, UnfitTextError, make_newline_ended_text_within_limits
from pdsuite.signals import Stop
from pdsuite.watch.sender import LiveSender

# Has the program say how many steps each run takes.
STEPS = "--steps"
# Of so many scripts the recordings are kept, and the rules.
_KEPT = 8

Key = TypeVar("Key")
Value = TypeVar("Value")


class ProgramQueries:
    """The programs of a sender, each started anew for a query; `note` gets a line where one ends."""

    def __init__(self, sender: LiveSender, stop: Stop, note: Callable[[str], None]) -> None:
        self.sender = sender
        self._regress, record = sender.program_paths
        self.stop = stop
        self.note = note
        self._recorder = Recorder(stop, note, record)
        self._recordings: dict[tuple[bytes, Settings], Recording] = {}
        self._rules: dict[tuple[str, Settings], RulesByLine] = {}

    def start_explaining_run_that_stays_up(self, settings: Settings) -> Program:
        """Starts a run that stays up and explains; SenderChangedError where another file lies at the program's path."""
        return self._start_program(settings, STEPS, EXPLAIN, LEFTOVERS, JSON, "--cache", str(BATCH_SIZE))

    def refusal_lines_of_settings_claims(self, claims: Sequence[Claim]) -> list[str]:
        """The lines of the settings that are refused."""
        return query_refusal_lines(claims, lambda: Program([self._regress], self.stop))

    def script_recording_maybe_empty(self, text: str, settings: Settings) -> Recording:
        """The recording of a script with its trace; that of the same script is kept for a while."""
        octets = text.encode("utf-8", "surrogatepass")
        key = octets, settings
        if key not in self._recordings:
            _drop_oldest_to_keep_one_more(self._recordings)
            self.sender.require_unchanged()
            self._recordings[key] = self._recorder.record_script_or_return_and_note_reason(
                "the script", octets, settings
            )
        return self._recordings[key]

    def script_rules_maybe_empty(self, text: str, settings: Settings) -> RulesByLine:
        """The rules that the events of a script come to, by lines; those of the same script are kept for a while.

        They are empty where the program ends, as one does that lists no rules.
        """
        key = text, settings
        if key not in self._rules:
            _drop_oldest_to_keep_one_more(self._rules)
            self._rules[key] = self._query_script_rules(text, settings)
        return self._rules[key]

    def _query_script_rules(self, text: str, settings: Settings) -> RulesByLine:
        fit = _script_text_or_none_if_unfit(text)
        if fit is None:
            return {}
        name = script_name_of_number(0)
        try:
            with self._start_program(settings, LIST_RULES, "--cache", "1") as program:
                errors = program.send_last_commands_and_read_errors(add_command(name, fit), 2 * LONGEST_CAUSE)
        except ProgramEndedError:
            return {}
        return parse_rules_by_script(errors).get(name, {})

    def mended_script_or_empty(self, text: str, settings: Settings) -> str:
        """A script with the least change with which it passes; empty where there is none."""
        self.sender.require_unchanged()
        return self._recorder.record_script_or_return_and_note_reason(
            "the script", text.encode("utf-8", "surrogatepass"), settings, MINIMAL
        ).text

    def run_texts_for_rows(self, texts: Sequence[str], settings: Settings) -> list[Row | None]:
        """The rows of these texts; None of one that can't be a script."""
        fit = [_script_text_or_none_if_unfit(it) for it in texts]
        names = [script_name_of_number(number) for number, it in enumerate(fit) if it is not None]
        commands = b"".join(
            add_command(script_name_of_number(number), it) for number, it in enumerate(fit) if it is not None
        )
        if not names:
            return [None for _ in texts]
        with self._start_program(settings, "--cache", "1") as program:
            answer = program.query_answer_regardless_of_errors(commands + SETTLE, LONGEST_LINE * (len(names) + 2))
        try:
            rows = iter(parse_new_rows(answer, b"", names, len(names)))
        except UnexpectedAnswerError as unexpected:
            raise ProgramEndedError(f"{REGRESS}: {unexpected}") from unexpected
        return [None if it is None else next(rows) for it in fit]

    def expected_after_text(self, before: str, settings: Settings) -> list[str]:
        """The tokens that may stand after a text; none where no script begins so."""
        text = _script_text_or_none_if_unfit(before + PROBE)
        if text is None:
            return []
        with self._start_program(settings, EXPLAIN, JSON, "--cache", "1") as program:
            errors = program.send_last_commands_and_read_errors(
                add_command(script_name_of_number(0), text), 2 * LONGEST_CAUSE
            )
        try:
            cause = next(iter(parse_causes_by_script_and_line(errors).values()), None)
        except UnexpectedAnswerError as unexpected:
            raise ProgramEndedError(f"{REGRESS}: {unexpected}") from unexpected
        return _expected_at_probe(cause, before)

    def _start_program(self, settings: Settings, *words: str) -> Program:
        self.sender.require_unchanged()
        text = settings_as_toml(settings)
        return Program([self._regress, *words, *(["--settings", text] if text else [])], self.stop)


def _drop_oldest_to_keep_one_more(kept: dict[Key, Value]) -> None:
    """Lets the answers go that were kept first, so that there is room for one more."""
    while len(kept) >= _KEPT:
        del kept[next(iter(kept))]


def _expected_at_probe(cause: Cause | None, before: str) -> list[str]:
    """The tokens that are expected in the place of the probe, where the script breaks off there."""
    match cause:
        case {"verdict": "syntax", "line": int(line), "column": int(column), "expected": list(expected)}:
            is_probe = line == before.count("\n") + 1 and column == _length_with_unprintables_escaped(
                before.rpartition("\n")[2]
            )
            return [str(it) for it in expected] if is_probe else []
    return []


def _length_with_unprintables_escaped(text: str) -> int:
    octets = text.encode("utf-8", "surrogatepass")
    return sum(1 if 0x20 <= it <= 0x7E else 4 for it in octets)


def _script_text_or_none_if_unfit(text: str) -> ScriptText | None:
    try:
        return make_newline_ended_text_within_limits(text.encode("utf-8", "surrogatepass"))
    except UnfitTextError:
        return None
