"""`pdsuite rules`: which rules of the sender scripts come to."""

from collections.abc import Sequence
from contextlib import closing
from dataclasses import dataclass
from pathlib import Path
from typing import TYPE_CHECKING

from pdsuite.commands.options import thread_count_or_one_per_processor
from pdsuite.faults import Fault
from pdsuite.output.octets import printable_path
from pdsuite.output.screen import Screen, print_line_on_stderr
from pdsuite.programs.locate import REGRESS, UnprovedError
from pdsuite.programs.lookup import ProgramLookup, SenderGuard, client_programs_lookup
from pdsuite.programs.program import Program
from pdsuite.programs.protocol import LIST_RULES
from pdsuite.programs.refusals import query_refusal_lines
from pdsuite.programs.unproved_programs import proved_or_built_program
from pdsuite.rules.reached_rules import (
    RuleRun,
    RuleUse,
    gather_reached_rules,
    sort_by_fewest_scripts,
    uses_of_rules_by_name,
)
from pdsuite.rules.report import (
    rules_of_script_json,
    rules_of_script_text,
    scripts_of_rule_json,
    scripts_of_rule_text,
    table_json,
    table_text,
)
from pdsuite.rules.rule_list import load_sender_rules
from pdsuite.run.batches import SuiteScript, batch_scripts_by_equal_settings
from pdsuite.run.collect import find_selected_script_files_and_read_configs, suite_scripts_with_config
from pdsuite.run.explainer import EXPLAIN_FAILURES
from pdsuite.run.local_mapper import local_mapper
from pdsuite.scripts.config import SuiteConfig, layer_of_option
from pdsuite.scripts.unused_tables import unused_table_warning_lines_under_paths
from pdsuite.signals import Stop, StoppedError

if TYPE_CHECKING:
    from pdsuite.page.rules import RulesPage

_FAULT = 2


@dataclass(frozen=True)
class RulesOptions:
    """The options of a call: which scripts, how they are run, and of which rule or script a list is requested."""

    paths: Sequence[Path]
    only: Sequence[str]
    settings: str
    workers: int | None
    rule: str | None
    script: Path | None
    is_json: bool
    html: Path | None = None
    tries_mutants: bool = False

    @property
    def script_paths(self) -> Sequence[Path]:
        """The paths of the scripts that are run."""
        return self.paths if self.script is None else [self.script]


def list_rules_of_scripts(options: RulesOptions, screen: Screen) -> int:
    """Lists the rules, the scripts of one, or the rules of a script, and answers the exit status."""
    if options.script is not None and options.script.is_dir():
        raise Fault(f"{printable_path(options.script)}: is a folder")
    with Stop() as stop:
        suite = SuiteConfig(layer_of_option(options.settings))
        try:
            found = find_selected_script_files_and_read_configs(options.script_paths, options.only, suite, stop)
            scripts = suite_scripts_with_config(found, suite)
            look = client_programs_lookup(REGRESS)
            steady, is_unproved = SenderGuard(look), _is_unproved(look)
            program = proved_or_built_program(REGRESS, stop, screen)
            if lines := refused_settings_lines(suite, options.script_paths, program, stop):
                for line in lines:
                    print_line_on_stderr(line)
                return _FAULT
            page = None if options.html is None else _rules_page_in_folder(options.html)
            run = reach_rules_of_scripts(scripts, program, options.workers, screen, stop)
            steady.require_unchanged("list the rules again")
        except StoppedError as stopped:
            return stopped.status
        finally:
            screen.clear_live_lines()
    _show_requested_form(options, run, is_unproved, screen)
    if page is not None:
        page.write_page_and_remove_stale(_uses_of_listed_rules(run).values(), run, is_unproved)
    for line in run.fault_lines:
        print_line_on_stderr(line)
    return _FAULT if run.fault_lines else 0


def _is_unproved(look: ProgramLookup) -> bool:
    return isinstance(look.current_programs_or_faults()[REGRESS], UnprovedError)


def _rules_page_in_folder(folder: Path) -> "RulesPage":
    # Only who requests a page pays for what writes it.
    from pdsuite.page.rules import RulesPage

    return RulesPage(folder)


def refused_settings_lines(suite: SuiteConfig, paths: Sequence[Path], program: Path, stop: Stop) -> list[str]:
    """A line for each table of settings that no script has, and for each setting that the program refuses."""
    refused = query_refusal_lines(suite.all_claims(), lambda: Program([program, LIST_RULES], stop))
    return [*unused_table_warning_lines_under_paths(suite, paths), *refused]


def reach_rules_of_scripts(
    scripts: Sequence[SuiteScript], program: Path, workers: int | None, screen: Screen, stop: Stop
) -> RuleRun:
    """The rules that scripts come to, by the program."""
    mapper = local_mapper(program, (LIST_RULES, *EXPLAIN_FAILURES), thread_count_or_one_per_processor(workers), stop)
    with closing(mapper(batch_scripts_by_equal_settings(scripts))) as steps:
        return gather_reached_rules(
            steps, screen.print_note_on_stderr, lambda done: screen.show_progress(done, len(scripts))
        )


def _show_requested_form(options: RulesOptions, run: RuleRun, is_unproved: bool, screen: Screen) -> None:
    """Shows the rules of a script, the scripts of a rule, or the table, whichever is requested."""
    if options.script is not None:
        (script,) = run.scripts
        screen.show(rules_of_script_json(script, is_unproved) if options.is_json else rules_of_script_text(script))
        return
    uses = _uses_of_listed_rules(run)
    if options.rule is not None:
        use = uses[options.rule]
        screen.show(scripts_of_rule_json(use, is_unproved) if options.is_json else scripts_of_rule_text(use))
        if not use.scripts:
            screen.print_note_on_stderr(f"pdsuite: no script comes to {options.rule}")
        return
    table = table_json if options.is_json else table_text
    screen.show(table(sort_by_fewest_scripts(uses.values()), run, is_unproved))


def _uses_of_listed_rules(run: RuleRun) -> dict[str, RuleUse]:
    return uses_of_rules_by_name(load_sender_rules(), run.scripts)
