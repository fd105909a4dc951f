"""The part that the commands have in common: which scripts are meant, and with which settings."""

import os
import sys
from collections.abc import Iterable, Sequence, Set
from dataclasses import dataclass, replace
from pathlib import Path

from pdsuite.faults import Fault, error_reason
from pdsuite.output.octets import make_absolute_printable_path_function
from pdsuite.run.batches import SuiteScript
from pdsuite.scripts.config import SuiteConfig
from pdsuite.scripts.discover import ScriptFile, find_scripts_and_folders
from pdsuite.scripts.shards import Shard, scripts_of_shard
from pdsuite.scripts.text import LONGEST_FILE
from pdsuite.signals import Stop


@dataclass(frozen=True)
class Selection:
    """Which of the scripts that are found are meant: those of a shard, and those with one of these absolute paths."""

    shard: Shard | None = None
    paths: Set[str] | None = None

    def empty_message(self) -> str:
        """The words that say that it has no script."""
        return f"shard {self.shard} has no script" if self.paths is None else "none of these scripts failed last"


_WHOLE = Selection()
# Standard input, as a path.
INPUT = Path("-")


def find_selected_script_files_and_read_configs(
    paths: Sequence[Path], only: Sequence[str], suite: SuiteConfig, stop: Stop, part: Selection = _WHOLE
) -> list[ScriptFile]:
    """The scripts that are meant, in the order of their paths; all files with their settings are read."""
    finding = find_scripts_and_folders(paths, only, stop)
    if not finding.scripts:
        raise Fault("no script found")
    suite.read_own_config_files_of_folders(finding.folders)
    return _filter_by_shard_and_absolute_paths(finding.scripts, part)


def read_standard_input_script_if_named(
    paths: Sequence[Path], suite: SuiteConfig, is_strict: bool = False
) -> SuiteScript | None:
    """The script that standard input is, where `-` is meant; it has the settings of the working folder."""
    if INPUT not in paths:
        return None
    if len(paths) > 1:
        raise Fault(f"{INPUT}: standard input stands alone")
    folder = os.path.realpath(os.curdir)
    suite.read_own_config_files_of_folders([folder])
    return replace(
        _make_suite_script_keeping_file_fault(0, ScriptFile(str(INPUT), folder, str(INPUT)), suite, is_strict),
        held=_standard_input_up_to_one_past_limit(),
    )


def _standard_input_up_to_one_past_limit() -> bytes:
    try:
        return sys.stdin.buffer.read(LONGEST_FILE + 1)
    except OSError as error:
        raise Fault(f"standard input: {error_reason(error)}") from error


def suite_scripts_with_config(
    found: Iterable[ScriptFile], suite: SuiteConfig, is_strict: bool = False
) -> list[SuiteScript]:
    """The scripts with what holds for them; all of them are strict, or those that the files name."""
    return [_make_suite_script_keeping_file_fault(index, it, suite, is_strict) for index, it in enumerate(found)]


def _filter_by_shard_and_absolute_paths(found: list[ScriptFile], part: Selection) -> list[ScriptFile]:
    """The scripts of a part. A shard is one of all scripts, so that what failed on its machine is found there again."""
    if part.shard is not None:
        found = scripts_of_shard(found, part.shard)
    if part.paths is None:
        return found
    absolute = make_absolute_printable_path_function()
    return [it for it in found if absolute(it.path) in part.paths]


def _make_suite_script_keeping_file_fault(
    index: int, it: ScriptFile, suite: SuiteConfig, is_strict: bool
) -> SuiteScript:
    if it.fault:
        return SuiteScript(index, it.path, (), it.fault)
    rules = suite.rules_of_script(it)
    return SuiteScript(index, it.path, rules.settings, "", is_strict or rules.is_strict, rules.expected)
