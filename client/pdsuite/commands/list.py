"""`pdsuite list`: which scripts there are, with their settings. It runs nothing."""

from collections.abc import Sequence
from pathlib import Path


from pdsuite.output.octets import printable_path, printable_text
from pdsuite.output.screen import Screen, print_line_on_stderr
from pdsuite.output.styled_text import styled_text_of_one_plain_piece
from pdsuite.reports.last_run import paths_of_scripts_failed_last_or_fault
from pdsuite.run.batches import SuiteScript
from pdsuite.run.collect import Selection, find_selected_script_files_and_read_configs, suite_scripts_with_config
from pdsuite.scripts.config import SuiteConfig, layer_of_option, old_name_refusals
from pdsuite.scripts.settings import Settings, value_as_toml
from pdsuite.scripts.shards import Shard
from pdsuite.scripts.unused_tables import unused_table_warning_lines_under_paths
from pdsuite.signals import Stop


def list_script_paths_and_settings(
    paths: Sequence[Path],
    only: Sequence[str],
    shard: Shard | None,
    last_failed: bool,
    settings: str,
    screen: Screen,
) -> int:
    """Lists the scripts, and answers the exit status."""
    with Stop() as stop:
        part = Selection(shard, paths_of_scripts_failed_last_or_fault(paths) if last_failed else None)
        suite = SuiteConfig(layer_of_option(settings))
        scripts = suite_scripts_with_config(
            find_selected_script_files_and_read_configs(paths, only, suite, stop, part), suite
        )
        if lines := [*unused_table_warning_lines_under_paths(suite, paths), *old_name_refusals(suite.all_claims())]:
            for line in lines:
                print_line_on_stderr(line)
            return 2
        if not scripts:
            screen.print_note_on_stderr(f"pdsuite: {part.empty_message()}")
        screen.show(
            styled_text_of_one_plain_piece(
                "".join(f"{_path_and_settings_or_error_line(script)}\n" for script in scripts)
            )
        )
    return 2 if any(script.fault for script in scripts) else 0


def _path_and_settings_or_error_line(script: SuiteScript) -> str:
    path = printable_path(script.path)
    if script.fault:
        return f"{path}: error: {script.fault}"
    return f"{path}: {_settings_in_words(script.settings)}" if script.settings else path


def _settings_in_words(settings: Settings) -> str:
    text = ", ".join(f"{key} = {value_as_toml(value)}" for key, value in settings)
    return printable_text(text)
