"""`pdsuite rules --mutants`: which rules of the sender scripts guard, and which mutants turn none."""

import os
from collections.abc import Sequence
from contextlib import suppress
from pathlib import Path
from tempfile import TemporaryDirectory

from pdsuite.commands.options import thread_count_or_one_per_processor
from pdsuite.commands.rules import RulesOptions, reach_rules_of_scripts, refused_settings_lines
from pdsuite.faults import Fault
from pdsuite.output.octets import printable_path
from pdsuite.output.screen import Screen, print_line_on_stderr
from pdsuite.programs.build import NoKeptBuildError, build_if_needed_and_get_folder
from pdsuite.programs.locate import MUTANTS_TOOL, PROGRAMS_VARIABLE, TOP, find_tree_if_launcher_folder
from pdsuite.programs.unproved_programs import build_progress_printer
from pdsuite.rules.mutant_report import guard_of_rule_text, guards_json, guards_text
from pdsuite.rules.mutants import (
    UNCHANGED,
    GuardedRule,
    BuiltMutant,
    MutantBuild,
    MutantRunner,
    TriedMutant,
    guarded_rules,
    read_mutant_build,
)
from pdsuite.rules.reached_rules import RuleRun, uses_of_rules_by_name
from pdsuite.rules.rule_list import load_sender_rules
from pdsuite.run.batches import SuiteScript, batch_scripts_by_equal_settings
from pdsuite.run.collect import find_selected_script_files_and_read_configs, suite_scripts_with_config
from pdsuite.scripts.config import SuiteConfig, layer_of_option
from pdsuite.signals import Stop, StoppedError

_FAULT = 2
# In a tree: the scripts that are tried where none are named.
_SUITE = "examples/suite"


def list_guarded_rules(options: RulesOptions, screen: Screen) -> int:
    """Lists the rules that have mutants, with those that turn no script, and answers the exit status."""
    tree = _tree_with_sources()
    paths = options.paths or [_suite_of_tree(tree)]
    with Stop() as stop, TemporaryDirectory(prefix="pdsuite-") as folder:
        try:
            suite = SuiteConfig(layer_of_option(options.settings))
            found = find_selected_script_files_and_read_configs(paths, options.only, suite, stop)
            scripts = suite_scripts_with_config(found, suite)
            build = _build_mutants(tree, stop, screen)
            program = build.put_program_of_mutant(UNCHANGED, Path(folder))
            if lines := refused_settings_lines(suite, paths, program, stop):
                for line in lines:
                    print_line_on_stderr(line)
                return _FAULT
            run = reach_rules_of_scripts(scripts, program, options.workers, screen, stop)
            tried = _try_mutants(
                build, _mutants_of_rule(build, options.rule), scripts, options, Path(folder), screen, stop
            )
        except StoppedError as stopped:
            return stopped.status
        finally:
            screen.clear_live_lines()
    _show_requested_form(options, tried, run, build, screen)
    for line in run.fault_lines:
        print_line_on_stderr(line)
    return _FAULT if run.fault_lines else 0


def _tree_with_sources() -> Path:
    """The tree whose sender is built, or a refusal where there are programs alone."""
    folder = os.environ.get(PROGRAMS_VARIABLE)
    tree = find_tree_if_launcher_folder(Path(folder)) if folder else TOP
    if tree is None:
        raise Fault(f"--mutants builds the sender: {PROGRAMS_VARIABLE} names programs, and no tree of their sources")
    if not MUTANTS_TOOL.is_file():
        raise Fault("--mutants builds the sender, and here is no tree of its sources")
    return tree


def _suite_of_tree(tree: Path) -> Path:
    """The tree's own scripts, as they are named from here."""
    suite = tree / _SUITE
    with suppress(OSError, ValueError):
        return suite.relative_to(Path.cwd())
    return suite


def _build_mutants(tree: Path, stop: Stop, screen: Screen) -> MutantBuild:
    """The mutants of a tree's sender, built first if need be; those that can't be built are named."""
    show_phase = build_progress_printer(screen)
    noted: list[str] = []

    def note(phase: str, seconds: float) -> None:
        if not noted:
            noted.append(phase)
            screen.print_note_on_stderr("pdsuite: building the sender with its mutants first")
        show_phase(phase, seconds)

    try:
        build = read_mutant_build(build_if_needed_and_get_folder(tree, "mutants", stop, note))
    except NoKeptBuildError as reason:
        why = str(reason).removeprefix("NoBuild: ")
        raise Fault(f"--mutants: the sender can't be built here: {why}") from reason
    finally:
        screen.clear_live_lines()
    for name, why in build.left_out.items():
        screen.print_note_on_stderr(f"pdsuite: {name} is left out: {why}")
    return build


def _mutants_of_rule(build: MutantBuild, rule: str | None) -> list[BuiltMutant]:
    return [it for it in build.mutants if rule is None or rule in it.rules]


def _try_mutants(
    build: MutantBuild,
    mutants: Sequence[BuiltMutant],
    scripts: Sequence[SuiteScript],
    options: RulesOptions,
    folder: Path,
    screen: Screen,
    stop: Stop,
) -> list[TriedMutant]:
    workers = thread_count_or_one_per_processor(options.workers)
    runner = MutantRunner(build, batch_scripts_by_equal_settings(scripts), folder, workers, stop)
    return list(runner.try_mutants(mutants, lambda done: screen.show_progress(done, len(mutants), "mutants")))


def _show_requested_form(
    options: RulesOptions, tried: Sequence[TriedMutant], run: RuleRun, build: MutantBuild, screen: Screen
) -> None:
    """Shows the table, or the rule that is requested."""
    uses = uses_of_rules_by_name(load_sender_rules(), run.scripts)
    rules = [it for it in guarded_rules(uses, tried) if options.rule in (None, it.use.rule.name)]
    if options.is_json:
        screen.show(guards_json(rules, run, build.left_out))
    elif options.rule is None:
        screen.show(guards_text(rules, run, build.left_out))
    else:
        _show_rule(options.rule, rules, screen)


def _show_rule(name: str, rules: Sequence[GuardedRule], screen: Screen) -> None:
    for it in rules:
        screen.show(guard_of_rule_text(it))
    if not rules:
        screen.print_note_on_stderr(f"pdsuite: no mutant breaks {printable_path(Path(name))}")
