"""`pdsuite expect`: writes into pdsuite.toml which scripts are known not to pass, and takes away those that pass."""

from collections.abc import Iterable, Iterator, Sequence
from dataclasses import dataclass
from pathlib import Path

from pdsuite.commands.options import thread_count_or_one_per_processor
from pdsuite.faults import Fault
from pdsuite.files import write_file_atomically
from pdsuite.imports.tables import is_encodable_as_toml_key
from pdsuite.output.octets import printable_path, printable_text
from pdsuite.output.screen import Screen, print_line_on_stderr
from pdsuite.output.styled_text import styled_text_of_one_plain_piece
from pdsuite.programs.locate import REGRESS
from pdsuite.programs.lookup import SenderGuard, client_programs_lookup
from pdsuite.programs.program import Program
from pdsuite.programs.refusals import query_refusal_lines
from pdsuite.programs.unproved_programs import proved_or_built_program
from pdsuite.programs.verdict import Verdict
from pdsuite.run.batches import SuiteScript, batch_scripts_by_equal_settings
from pdsuite.run.collect import find_selected_script_files_and_read_configs, suite_scripts_with_config
from pdsuite.run.outcomes import ScriptOutcome
from pdsuite.run.run_batches import SettledPiece, Start, run_batch, starter_without_explanations
from pdsuite.scripts.config import (
    CONFIG_FILE,
    LONGEST,
    SuiteConfig,
    layer_of_option,
    read_config_octets_if_file_exists,
    printable_path_from_working_folder,
)
from pdsuite.scripts.discover import SUFFIX, ScriptFile
from pdsuite.scripts.expectation import Expectation
from pdsuite.scripts.toml_text import TableEdit, TableEdits, TableRemoval, edit_expectations
from pdsuite.scripts.unused_tables import (
    already_read_layers_under_paths,
    unused_table_warning_lines,
    unused_table_names,
)
from pdsuite.signals import Stop, StoppedError

_FAULT = 2


@dataclass(frozen=True)
class ExpectOptions:
    """The options of a call: which scripts, how they are run, and why those that don't pass are known."""

    paths: Sequence[Path]
    only: Sequence[str]
    settings: str
    workers: int | None
    reason: str | None
    prune: bool


@dataclass(frozen=True)
class ExpectationChange:
    """The row expected of a script from now on, if any, by its folder and name, and the line that says so."""

    folder: str
    name: str
    expected: TableEdit
    message: str


def run_scripts_and_update_expectations(options: ExpectOptions, screen: Screen) -> int:
    """Runs the scripts, writes what is expected of them, and answers the exit status."""
    with Stop() as stop:
        suite = SuiteConfig(layer_of_option(options.settings))
        try:
            found = find_selected_script_files_and_read_configs(options.paths, options.only, suite, stop)
            scripts = suite_scripts_with_config(found, suite)
            steady = SenderGuard(client_programs_lookup(REGRESS))
            program = proved_or_built_program(REGRESS, stop, screen)
            refused = query_refusal_lines(suite.all_claims(), lambda: Program([program], stop))
            lost = list(removals_of_unused_expectation_tables_or_all(suite, options.paths, options.prune))
            if lines := [*_lines_of_unused_tables_not_removed(suite, options.paths, lost), *refused]:
                for line in lines:
                    print_line_on_stderr(line)
                return _FAULT
            outcomes = _run_scripts(
                scripts,
                starter_without_explanations(program, thread_count_or_one_per_processor(options.workers), 1, stop),
                screen,
            )
            steady.require_unchanged("nothing is written")
        except StoppedError as stopped:
            return stopped.status
        finally:
            screen.clear_live_lines()
    return _write_expectations_if_reasoned_then_report(list(zip(found, outcomes)), lost, options.reason, screen)


def _run_scripts(scripts: Sequence[SuiteScript], start: Start, screen: Screen) -> list[ScriptOutcome]:
    """Runs the scripts, and answers their outcomes in the same order."""
    outcomes: dict[int, ScriptOutcome] = {}
    for run in batch_scripts_by_equal_settings(scripts):
        for step in run_batch(run, start):
            if not isinstance(step, SettledPiece):
                screen.print_note_on_stderr(str(step))
                continue
            outcomes.update((script.index, outcome) for script, outcome in step.outcomes)
            screen.show_progress(len(outcomes), len(scripts))
    return [outcomes[it.index] for it in scripts]


def removals_of_unused_expectation_tables_or_all(
    suite: SuiteConfig, paths: Sequence[Path], every: bool
) -> Iterator[ExpectationChange]:
    """The tables of scripts that aren't there which go: those that say nothing but what is expected, or all."""
    for folder, layer in already_read_layers_under_paths(suite, paths):
        for name in unused_table_names(layer, folder):
            if every or (name in layer.expected and not layer.tables[name] and name not in layer.strict):
                place = f'{layer.places.file_and_line_of_key(name)}: ["{printable_text(name)}"]'
                message = f"{place}: no script has this name, so its table goes"
                yield ExpectationChange(folder, name, TableRemoval.TAKEN, message)


def _lines_of_unused_tables_not_removed(
    suite: SuiteConfig, paths: Sequence[Path], lost: Sequence[ExpectationChange]
) -> list[str]:
    """The lines of tables whose scripts aren't there and which don't go."""
    each = already_read_layers_under_paths(suite, paths)
    going = {
        folder: {it.name for it in lost if it.folder == folder} for folder, _ in suite.sorted_read_layers_with_folders()
    }
    return [line for folder, layer in each for line in unused_table_warning_lines(layer, folder, going[folder])]


def _write_expectations_if_reasoned_then_report(
    settled: Sequence[tuple[ScriptFile, ScriptOutcome]],
    lost: Sequence[ExpectationChange],
    reason: str | None,
    screen: Screen,
) -> int:
    """Writes what is expected from now on, and says what changed."""
    changes = [*lost, *expectation_changes(settled, reason or "")]
    written = sum(isinstance(it.expected, Expectation) for it in changes)
    if written and reason is None:
        raise Fault(f"{_failing_count_in_words(written)}, and no --reason says why: nothing is written")
    for path, octets in list(_new_contents_of_config_files(changes)):
        write_file_atomically(path, octets, keeps_rights=True)
    left = [
        f"{printable_path(outcome.path)}: {why}"
        for found, outcome in settled
        if (why := _why_unwritable(found, outcome))
    ]
    for line in left:
        print_line_on_stderr(line)
    lines = [
        *(it.message for it in changes),
        f"total {len(settled)} written {written} taken away {len(changes) - written}",
    ]
    screen.show(styled_text_of_one_plain_piece("".join(f"{line}\n" for line in lines)))
    return _FAULT if left else 0


def expectation_changes(
    settled: Iterable[tuple[ScriptFile, ScriptOutcome]], reason: str
) -> Iterator[ExpectationChange]:
    """The changes to the files: a row is expected that isn't yet, or none any more of a script that passes."""
    for found, outcome in settled:
        path, row = printable_path(outcome.path), outcome.row.whole_text_without_name
        if outcome.row.verdict is Verdict.PASS:
            if outcome.expected is not None:
                yield ExpectationChange(
                    found.folder, found.name, None, f'{path}: passes, so "{outcome.expected.row}" is expected no more'
                )
        elif not outcome.is_known_failure and not _why_unwritable(found, outcome):
            yield ExpectationChange(
                found.folder, found.name, Expectation(row, reason), f'{path}: "{row}" is expected from now on'
            )


def _why_unwritable(found: ScriptFile, outcome: ScriptOutcome) -> str:
    """Why no row is expected of a script that isn't known not to pass, where that is so."""
    if outcome.row.verdict is Verdict.PASS or outcome.is_known_failure:
        return ""
    if outcome.row.verdict is Verdict.ERROR:
        return str(outcome.row)
    if not found.name.endswith(SUFFIX):
        return f"its name doesn't end in {SUFFIX}, so no {CONFIG_FILE} has a table for it"
    return (
        "" if is_encodable_as_toml_key(found.name) else f"its name isn't UTF-8, so no {CONFIG_FILE} has a table for it"
    )


def _new_contents_of_config_files(changes: Iterable[ExpectationChange]) -> Iterator[tuple[Path, bytes]]:
    """The files that are to be written."""
    folders: dict[str, dict[str, TableEdit]] = {}
    for it in changes:
        folders.setdefault(it.folder, {})[it.name] = it.expected
    for folder, edits in folders.items():
        yield _new_content_of_config_file(Path(folder, CONFIG_FILE), edits)


def _new_content_of_config_file(path: Path, edits: TableEdits) -> tuple[Path, bytes]:
    place = printable_path_from_working_folder(path)
    try:
        octets = edit_expectations(place, (read_config_octets_if_file_exists(path) or b"").decode(), edits).encode()
    except ValueError as error:  # somebody has written it since it was read
        raise Fault(f"{place}: no TOML any more: nothing is written") from error
    if len(octets) > LONGEST:
        raise Fault(f"{place}: it would have more than {LONGEST:,} octets: nothing is written")
    return path, octets


def _failing_count_in_words(scripts: int) -> str:
    return "1 script doesn't pass" if scripts == 1 else f"{scripts:,} scripts don't pass"
