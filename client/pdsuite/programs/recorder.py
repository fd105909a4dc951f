"""Has pdrecord record scripts: one with the sender's state after each event, or many in few processes."""

import tempfile
from collections.abc import Callable, Iterable, Iterator, Sequence
from dataclasses import dataclass
from pathlib import Path

from pdsuite.faults import Fault
from pdsuite.output.octets import printable_octets, printable_path
from pdsuite.programs.batch_protocol import ProgramAnswer, Case
from pdsuite.programs.locate import RECORD, locate_given_or_proved_program
from pdsuite.programs.program import Program, ProgramEndedError
from pdsuite.programs.unproved_batch import ProgramCases
from pdsuite.scripts.settings import Settings, settings_as_toml
from pdsuite.signals import Stop

# A recording has at most 4,096 events, each with a line of its state.
_LONGEST = 8 << 20
TRACE = "--trace"
# Has it change as little of a script as makes it pass, and leave no comment of packets that aren't sent.
MINIMAL = "--minimal"
DROP_MISSING = "--drop-missing"
# A recording is expected to have so many octets at most, and so many for each octet of its script.
_ROOM = 2_048
_WRITTEN = 6
# So many files go to one process at most.
_FILES = 1_024
_RECORDED = b"recorded"


@dataclass(frozen=True, slots=True)
class Recording:
    """A recording, with its trace if it has one; or nothing, and why."""

    text: str
    fault: str = ""


class Recorder:
    """Records scripts; `note` gets a line where the program isn't there, and for each script on which it ends."""

    def __init__(self, stop: Stop, note: Callable[[str], None], program: Path | None = None) -> None:
        self._stop = stop
        self._note = note
        self._program = program
        self._fault = ""

    def record_script_or_return_and_note_reason(
        self, path: str, text: bytes, settings: Settings, word: str = TRACE
    ) -> Recording:
        """The recording of a script, or why there is none: the program refuses it, ends on it, or isn't there.

        It has a trace, or is what another option names.
        """
        program = self._locate_program_or_note_fault_once()
        if program is None:
            return Recording("", self._fault)
        try:
            with Program([program, word, *_settings_words(settings)], self._stop) as started:
                octets, reason = started.record_script_with_first_error_line(text, _LONGEST)
        except ProgramEndedError as end:
            self._note(f"pdsuite: {end}; {printable_path(Path(path))} isn't recorded")
            return Recording("", str(end))
        return Recording(octets.decode("utf-8", "surrogateescape"), reason)

    def _locate_program_or_note_fault_once(self) -> Path | None:
        """The program; that it isn't there is reported once."""
        if self._program is None and not self._fault:
            try:
                self._program = locate_given_or_proved_program(RECORD)
            except Fault as fault:
                self._fault = str(fault)
                self._note(f"pdsuite: {fault}; nothing is recorded")
        return self._program


def record_texts(
    program: Path, texts: Sequence[bytes], settings: Settings, stop: Stop, words: Sequence[str] = ()
) -> Iterator[Recording]:
    """The recordings of texts under settings, without traces, or why there are none; a process records many.

    Where the program ends on a text, a new process goes on after that.
    """
    with tempfile.TemporaryDirectory(prefix="pdsuite-") as folder:
        paths = [Path(folder, str(number)) for number in range(len(texts))]
        for path, text in zip(paths, texts):
            path.write_bytes(text)
        done = 0
        while done < len(paths):
            part = paths[done : done + _FILES]
            try:
                with Program([program, *words, *_settings_words(settings), *part], stop) as started:
                    for word, octets in started.read_titled_section_per_file(len(part), _LONGEST):
                        done += 1
                        yield _recording_in_section(word, octets)
            except ProgramEndedError as end:
                done += 1
                yield Recording("", str(end))


def _recording_in_section(word: bytes, octets: bytes) -> Recording:
    """A recording, or why there is none, as the lines after a title have it."""
    if word == _RECORDED:
        return Recording(octets.decode("utf-8", "surrogateescape"))
    return Recording("", printable_octets(octets.partition(b"\n")[0].removeprefix(b"pdrecord: ")))


def recording_cases(tree: Path, scripts: Iterable[tuple[Settings, bytes]], is_alone: bool = False) -> ProgramCases:
    """The cases in which a tree's program, as it stands, records scripts, which are texts under settings."""
    cases = [Case(_settings_words(it), text, _ROOM + _WRITTEN * len(text), is_alone) for it, text in scripts]
    return ProgramCases(tree, RECORD, (TRACE,), tuple(cases))


def recording_from_answer(answer: ProgramAnswer) -> Recording:
    """The recording in the answer to such a case, or why there is none."""
    lines = [line for line in answer.errors.split(b"\n") if line.strip()]
    fault = answer.fault or (printable_octets(lines[0]) if lines else "")
    return Recording(answer.output.decode("utf-8", "surrogateescape"), fault)


def _settings_words(settings: Settings) -> tuple[str, ...]:
    return ("--settings", settings_as_toml(settings)) if settings else ()
