"""Plays transfers against a program, many side by side: scripts that grow at their ends, and share each settle.

At its end each script expects a packet that no sender sends. Where the run fails there, what the program explains has
the packets that left and weren't taken yet, and when the timer expires. They are taken by lines before the next inputs.
"""

import re
from collections.abc import Iterator, Mapping, Sequence
from dataclasses import dataclass, field
from pathlib import Path

from pdsuite.measure.transfer import TransferResult, SegmentDeparture, SenderReply, StalledTransferError, TransferSteps
from pdsuite.output.octets import printable_text
from pdsuite.packetdrill.items import SECOND
from pdsuite.programs.program import Program, ProgramEndedError
from pdsuite.programs.protocol import (
    LONGEST_CAUSE,
    SETTLE,
    Cause,
    UnexpectedAnswerError,
    parse_causes_by_script_and_line,
    script_name_of_number,
)
from pdsuite.programs.protocol import refusal_kind_if_refused
from pdsuite.run.explainer import EXPLAIN, JSON
from pdsuite.scripts.settings import Settings, settings_as_toml
from pdsuite.scripts.text import LINES, OCTETS
from pdsuite.signals import Stop

# Expects a packet that no sender sends.
_END = "+0 > R 0:0(0)"
_SENT = re.compile(r"> (\S+)\s+(\d+):(\d+)\(\d+\)(.*)// (\d+)\.(\d{6})")


class UnfinishedTransferError(Exception):
    """That a transfer came to no end; the text says why."""


TransferOutcome = TransferResult | UnfinishedTransferError


@dataclass
class _GrowingScript:
    """A transfer that is played: how long its text is, what it has to take yet, and what left since the last reply."""

    name: bytes
    game: TransferSteps
    lines: int = 0
    octets: int = 0
    taking: list[str] = field(default_factory=list)
    departures: list[SegmentDeparture] = field(default_factory=list)

    def command_appending_expectations_and_inputs(self, inputs: Sequence[str]) -> bytes:
        """The command that puts inputs at the end, below the lines that take the packets before them."""
        put = [*self.taking, *inputs]
        self.taking = []
        text = "".join(f"{it}\n" for it in (*put, _END)).encode()
        begin = self.lines
        self.lines += len(put)
        self.octets += len(text) - len(_END) - 1
        if self.lines >= LINES or self.octets + len(_END) + 1 > OCTETS:
            raise UnfinishedTransferError(
                "its packets don't fit into a script; let it be smaller, or have a larger mss"
            )
        if not begin:
            return b"add %s %d\n%s" % (self.name, len(put) + 1, text)
        return b"edit %s %d 1 %d\n%s" % (self.name, begin + 1, len(put) + 1, text)

    def take_reported_packets_and_check_complete(self, cause: Cause) -> bool:
        """Takes what the program explains; whether all that left is reported."""
        if cause.get("verdict") != "fail" or cause.get("line") != self.lines + 1:
            raise UnfinishedTransferError(
                f"line {cause.get('line')} of its script: {cause.get('verdict')}: {cause.get('what')}"
            )
        for text, by in _packets_in_cause_with_sent_by(cause):
            self._append_expectation_and_departure(text, by)
        return not cause.get("more_untaken_packets")

    def _append_expectation_and_departure(self, text: str, by: object) -> None:
        found = _SENT.search(text)
        if found is None:
            raise UnfinishedTransferError(f"no packet: {printable_text(text)}")
        options = " <...>" if "<" in found[4] else ""
        start, end = int(found[2]), int(found[3])
        self.taking.append(f"* > {found[1]} {start}:{end}({end - start}){options}")
        if start < end:
            is_by_timer = isinstance(by, Mapping) and "line" not in by
            self.departures.append(SegmentDeparture(int(found[5]) * SECOND + int(found[6]), start, end, is_by_timer))

    def take_departures_and_expiry_as_reply(self, cause: Cause) -> SenderReply:
        """The sender's reply to all inputs since the last reply."""
        state = cause.get("state")
        expiry = state.get("expiry_us") if isinstance(state, Mapping) else None
        departures, self.departures = tuple(self.departures), []
        return SenderReply(departures, expiry if isinstance(expiry, int) else None)


def _packets_in_cause_with_sent_by(cause: Cause) -> Iterator[tuple[str, object]]:
    """The packets that are reported, each with what sent it."""
    first = cause.get("actual_packet")
    if isinstance(first, str):
        yield first, cause.get("sent_by")
    packets, senders = cause.get("untaken_packets"), cause.get("untaken_sent_by")
    if isinstance(packets, list) and isinstance(senders, list):
        yield from zip(packets, senders)


def play_transfers(
    games: Sequence[TransferSteps], program: Path, settings: Settings, stop: Stop
) -> list[TransferOutcome]:
    """Plays transfers against a program under these settings, and returns their outcomes."""
    text = settings_as_toml(settings)
    words: list[str | Path] = [program, EXPLAIN, JSON, *(["--settings", text] if text else [])]
    batch = _TransferBatch([_GrowingScript(script_name_of_number(number), game) for number, game in enumerate(games)])
    try:
        with Program(words, stop) as started:
            batch.play_and_fill_outcomes(started)
    except (ProgramEndedError, UnexpectedAnswerError) as end:
        return [batch.outcomes.get(it.name, UnfinishedTransferError(str(end))) for it in batch.scripts]
    return [batch.outcomes[it.name] for it in batch.scripts]


@dataclass
class _TransferBatch:
    """Transfers that are played side by side, and what came of those that are over."""

    scripts: Sequence[_GrowingScript]
    outcomes: dict[bytes, TransferOutcome] = field(default_factory=dict)

    def play_and_fill_outcomes(self, program: Program) -> None:
        commands = {it.name: self._next_command_or_note_outcome(it, None) for it in self.scripts}
        while pending := {name: it for name, it in commands.items() if it}:
            causes = _query_cause_of_each_script(program, b"".join(pending.values()), len(pending))
            commands = {
                it.name: self._next_command_or_note_outcome(it, causes[it.name])
                for it in self.scripts
                if it.name in causes
            }

    def _next_command_or_note_outcome(self, script: _GrowingScript, cause: Cause | None) -> bytes:
        """The next command about a script: nothing where the transfer is over."""
        try:
            if cause is None:
                return script.command_appending_expectations_and_inputs(next(script.game))
            if not script.take_reported_packets_and_check_complete(cause):
                return script.command_appending_expectations_and_inputs(())
            return script.command_appending_expectations_and_inputs(
                script.game.send(script.take_departures_and_expiry_as_reply(cause))
            )
        except StopIteration as end:
            self.outcomes[script.name] = end.value
        except (StalledTransferError, UnfinishedTransferError) as why:
            self.outcomes[script.name] = UnfinishedTransferError(str(why))
        return b""


def _query_cause_of_each_script(program: Program, commands: bytes, count: int) -> dict[bytes, Cause]:
    """The explanations of the scripts that the commands change, by their names."""
    answer, errors = program.query_with_errors(commands + SETTLE, (count + 1) * LONGEST_CAUSE)
    if refusal := refusal_kind_if_refused(answer):
        raise UnexpectedAnswerError(f"pdregress refuses a script of a transfer: {refusal}")
    causes = {name: cause for (name, _), cause in parse_causes_by_script_and_line(errors).items()}
    if len(causes) != count:
        raise UnexpectedAnswerError(f"pdregress explains {len(causes)} of {count} scripts")
    return causes
