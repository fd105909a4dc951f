"""`pdsuite record`: records scripts anew, by the least change or whole, and shows what that changes, or writes it."""

import os
import sys
from collections.abc import Iterable, Iterator, Sequence
from dataclasses import dataclass
from pathlib import Path

from pdsuite.commands.options import thread_count_or_one_per_processor
from pdsuite.faults import Fault
from pdsuite.files import write_file_atomically
from pdsuite.output.octets import printable_path, printable_text
from pdsuite.output.screen import Screen, print_line_on_stderr
from pdsuite.output.styled_text import StyledText, styled_text_of_one_plain_piece
from pdsuite.programs.locate import RECORD, REGRESS, locate_given_or_proved_program
from pdsuite.programs.lookup import SenderGuard, client_programs_lookup
from pdsuite.programs.program import Program
from pdsuite.programs.protocol import Cause
from pdsuite.programs.recorder import DROP_MISSING, MINIMAL, Recording, record_texts
from pdsuite.programs.refusals import query_refusal_lines
from pdsuite.programs.unproved_programs import proved_or_built_program
from pdsuite.programs.verdict import Verdict
from pdsuite.run.batches import SuiteScript, batch_scripts_by_equal_settings
from pdsuite.run.collect import (
    INPUT,
    find_selected_script_files_and_read_configs,
    suite_scripts_with_config,
    read_standard_input_script_if_named,
)
from pdsuite.run.explainer import EXPLAIN_OPTIONS
from pdsuite.run.local_mapper import local_mapper
from pdsuite.run.outcomes import ScriptOutcome
from pdsuite.run.run_batches import SettledPiece
from pdsuite.scripts.config import SuiteConfig, layer_of_option
from pdsuite.scripts.file_diff import FileDiff, give_recording_line_ends_of_file, unified_hunks
from pdsuite.scripts.settings import Settings
from pdsuite.scripts.text import (
    LONGEST_FILE,
    ScriptText,
    UnfitTextError,
    make_newline_ended_text_within_limits,
    read_regular_file_up_to_limit,
)
from pdsuite.scripts.unused_tables import unused_table_warning_lines_under_paths
from pdsuite.signals import Stop, StoppedError

_FAULT = 2
_STYLES = {"+": "green", "-": "red", "@": "cyan"}
# The words by which a script is recorded; None where it stays as it is.
RecordMode = Sequence[str] | None


@dataclass(frozen=True)
class RecordOptions:
    """The options of a call: which scripts, how they are recorded, and whether they are written."""

    paths: Sequence[Path]
    only: Sequence[str]
    settings: str
    workers: int | None
    writes: bool
    whole: bool
    drops_missing: bool

    def __post_init__(self) -> None:
        if self.whole and self.drops_missing:
            raise Fault("--drop-missing: not together with --whole")

    @property
    def program_options(self) -> Sequence[str]:
        """The options that say how the program records."""
        if self.whole:
            return ()
        return (MINIMAL, DROP_MISSING) if self.drops_missing else (MINIMAL,)


@dataclass(frozen=True, slots=True)
class RecordedFile:
    """A script, with what its file holds and would hold, or why it isn't recorded."""

    script: SuiteScript
    diff: FileDiff
    fault: str = ""

    @property
    def would_change_file(self) -> bool:
        """Whether the file would hold something else."""
        return not self.fault and self.diff.old != self.diff.new


def record_scripts(options: RecordOptions, screen: Screen) -> int:
    """Records scripts, shows or writes what changes, and answers the exit status."""
    with Stop() as stop:
        suite = SuiteConfig(layer_of_option(options.settings))
        scripts: list[SuiteScript] = []
        try:
            scripts = _standard_input_or_found_scripts(options, suite, stop)
            steady = SenderGuard(client_programs_lookup(REGRESS, RECORD))
            program = proved_or_built_program(REGRESS, stop, screen)
            refused = query_refusal_lines(suite.all_claims(), lambda: Program([program], stop))
            if lines := [*unused_table_warning_lines_under_paths(suite, options.paths), *refused]:
                for line in lines:
                    print_line_on_stderr(line)
                return _FAULT
            recorder = locate_given_or_proved_program(RECORD)
            texts = {it.index: _octets_or_fault(it) for it in scripts}
            modes = _run_to_choose_record_modes(scripts, texts, program, options, screen, stop)
            each = _record_by_modes(scripts, texts, modes, recorder, screen, stop)
            steady.require_unchanged("nothing is written" if options.writes else "record again")
        except StoppedError as stopped:
            if options.writes:
                print_line_on_stderr(_interrupted_line(0, len(scripts)))
            return stopped.status
        finally:
            screen.clear_live_lines()
        return _show_or_write_changes(each, options.writes, screen, stop)


def _standard_input_or_found_scripts(options: RecordOptions, suite: SuiteConfig, stop: Stop) -> list[SuiteScript]:
    """The scripts that are meant: standard input, or those that are found."""
    if (script := read_standard_input_script_if_named(options.paths, suite)) is not None:
        return [script]
    return suite_scripts_with_config(
        find_selected_script_files_and_read_configs(options.paths, options.only, suite, stop), suite
    )


def _octets_or_fault(script: SuiteScript) -> bytes | str:
    """The octets of a script's file, or why it can't be recorded."""
    if script.fault:
        return script.fault
    try:
        held = read_regular_file_up_to_limit(script.path, LONGEST_FILE + 1) if script.held is None else script.held
        make_newline_ended_text_within_limits(held)
    except UnfitTextError as unfit:
        return str(unfit)
    return held


def _run_to_choose_record_modes(
    scripts: Sequence[SuiteScript],
    texts: dict[int, bytes | str],
    program: Path,
    options: RecordOptions,
    screen: Screen,
    stop: Stop,
) -> dict[int, RecordMode]:
    """How each script is recorded, by its place."""
    modes: dict[int, RecordMode] = {}

    def already_read_text_or_fault(script: SuiteScript) -> ScriptText | str:
        held = texts[script.index]
        return held if isinstance(held, str) else make_newline_ended_text_within_limits(held)

    for step in local_mapper(
        program, EXPLAIN_OPTIONS, thread_count_or_one_per_processor(options.workers), stop, already_read_text_or_fault
    )(batch_scripts_by_equal_settings(scripts)):
        if not isinstance(step, SettledPiece):
            screen.print_note_on_stderr(str(step))
            continue
        modes |= {
            it.index: record_mode_or_none_to_keep(it, outcome, step.causes.get(it.index), options.program_options)
            for it, outcome in step.outcomes
        }
        screen.show_progress(len(modes), len(scripts), "scripts run")
    return modes


def record_mode_or_none_to_keep(
    script: SuiteScript, outcome: ScriptOutcome, leaving: Cause | None, requested: Sequence[str]
) -> RecordMode:
    """How a script is recorded that came to this, and leaves this where it passes.

    One of inputs alone is recorded whole. One that passes stays as it is, unless it is strict and leaves packets, and
    so does one that is known not to pass.
    """
    if outcome.is_known_failure:
        return None
    if outcome.row.verdict is not Verdict.PASS:
        return requested
    if leaving is None or not leaving.get("untaken_packets"):
        return None
    if leaving.get("awaits_packet") is False:
        return ()
    return requested if script.is_strict else None


def _record_by_modes(
    scripts: Sequence[SuiteScript],
    texts: dict[int, bytes | str],
    modes: dict[int, RecordMode],
    recorder: Path,
    screen: Screen,
    stop: Stop,
) -> list[RecordedFile]:
    """Records the scripts by their modes, and answers them in their order; those that stay aren't recorded."""
    groups: dict[tuple[Settings, Sequence[str]], list[tuple[SuiteScript, bytes]]] = {}
    each: dict[int, RecordedFile] = {}
    for script in scripts:
        held, mode = texts[script.index], modes[script.index]
        if isinstance(held, str):
            each[script.index] = RecordedFile(script, FileDiff(script.path, b"", b""), held)
        elif mode is None:
            each[script.index] = RecordedFile(script, FileDiff(script.path, held, held))
        else:
            groups.setdefault((script.settings, mode), []).append((script, held))
    for (settings, mode), group in groups.items():
        made = record_texts(recorder, [text for _, text in group], settings, stop, mode)
        for (script, text), it in zip(group, made):
            each[script.index] = _recorded_file_from_recording(script, text, it)
            screen.show_progress(len(each), len(scripts), "scripts recorded")
    return [each[it.index] for it in scripts]


def _recorded_file_from_recording(script: SuiteScript, text: bytes, it: Recording) -> RecordedFile:
    if it.fault:
        return RecordedFile(script, FileDiff(script.path, text, text), it.fault)
    recording = it.text.encode("utf-8", "surrogateescape")
    return RecordedFile(script, FileDiff(script.path, text, give_recording_line_ends_of_file(text, recording)))


def _interrupted_line(written: int, count: int) -> str:
    """The line that says what was written before a signal came."""
    return f"pdsuite: ended by a signal: {written:,} of {count:,} scripts were written"


def _show_or_write_changes(each: Sequence[RecordedFile], writes: bool, screen: Screen, stop: Stop) -> int:
    """Shows or writes what changes, and says what isn't recorded."""
    changed = [it for it in each if it.would_change_file]
    is_input = [it.script.path for it in each] == [str(INPUT)]
    if is_input and writes:
        _write_to_standard_output(each[0])
    else:
        for number, it in enumerate(changed):
            if writes:
                try:
                    stop.raise_if_stopped()
                except StoppedError as stopped:
                    print_line_on_stderr(_interrupted_line(number, len(changed)))
                    return stopped.status
                write_file_atomically(Path(it.script.path), it.diff.new, keeps_rights=True)
            else:
                screen.show(unified_diff_text(it.diff))
        screen.show(
            styled_text_of_one_plain_piece("".join(f"{line}\n" for line in changed_folder_and_total_lines(each)))
        )
    for it in each:
        if it.fault:
            print_line_on_stderr(f"{printable_path(it.script.path)}: isn't recorded: {it.fault}")
    if any(it.fault for it in each):
        return _FAULT
    return 1 if changed and not writes else 0


def _write_to_standard_output(it: RecordedFile) -> None:
    """Writes the recording of standard input on standard output."""
    if not it.fault:
        sys.stdout.flush()
        sys.stdout.buffer.write(it.diff.new)
        sys.stdout.buffer.flush()


def unified_diff_text(it: FileDiff) -> StyledText:
    """A unified diff of what a script's file holds and would hold."""
    path = printable_path(it.path)
    text = StyledText().append(f"--- {path}\n", "bold").append(f"+++ {path}\n", "bold")
    for line in unified_hunks(it.old, it.new):
        text.append(f"{_printable_line(line)}\n", _STYLES.get(line[:1], ""))
    return text


def _printable_line(line: str) -> str:
    """A line as it is, or as people see it where a character doesn't print; a tab does."""
    return line if line.replace("\t", " ").isprintable() else printable_text(line)


def changed_folder_and_total_lines(each: Sequence[RecordedFile]) -> Iterator[str]:
    """A line for each folder with a script that changes, and one for all."""
    folders: dict[str, list[RecordedFile]] = {}
    for it in each:
        folders.setdefault(os.path.dirname(it.script.path) or os.curdir, []).append(it)
    if len(folders) > 1:
        for folder, below in folders.items():
            if any(it.would_change_file for it in below):
                yield f"{printable_path(folder)}: {_script_and_line_change_counts_text(below)}"
    yield f"total {_script_and_line_change_counts_text(each)}"


def _script_and_line_change_counts_text(each: Iterable[RecordedFile]) -> str:
    scripts = list(each)
    changed = [it for it in scripts if it.would_change_file]
    counts = [it.diff.added_and_removed_counts for it in changed]
    more, less = sum(it for it, _ in counts), sum(it for _, it in counts)
    lost = sum(bool(it.fault) for it in scripts)
    return f"{len(scripts)} changed {len(changed)} lines +{more} -{less} not recorded {lost}"
