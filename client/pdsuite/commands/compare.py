"""`pdsuite compare`: what two senders do with the same scripts, before a change and after it."""

import shlex
import time
from collections.abc import Sequence
from dataclasses import dataclass, replace
from pathlib import Path
from tempfile import TemporaryDirectory
from typing import TYPE_CHECKING

from pdsuite.commands.options import thread_count_or_one_per_processor
from pdsuite.compare.affected import (
    Affected,
    RulesOfChange,
    RowStarts,
    affected_rules_of_trees,
    can_find_affected_rules,
    find_affected_rows_and_paragraphs,
    query_test_row_starts_of_sender,
)
from pdsuite.compare.built_senders import build_missing_programs
from pdsuite.compare.comparison import ComparedScript, SenderResults, compare_results
from pdsuite.compare.quantities import Quantity
from pdsuite.compare.senders import Sender
from pdsuite.compare.sides import SideSettingsError, sides_before_and_after_change
from pdsuite.compare.two_senders import ComparisonTask, run_both_senders
from pdsuite.output.fitting import wrap_prose_in_styled_text, columns_without_autowrap
from pdsuite.output.screen import Screen, print_line_on_stderr
from pdsuite.output.styled_text import StyledText
from pdsuite.programs.lookup import SenderGuard
from pdsuite.programs.verdict import Verdict
from pdsuite.reports.comparison import ComparisonReport, comparison_json, plain_comparison
from pdsuite.reports.comparison_markdown import whole_comparison_as_markdown
from pdsuite.run.collect import find_selected_script_files_and_read_configs, suite_scripts_with_config
from pdsuite.scripts.config import SuiteConfig, layer_of_option
from pdsuite.scripts.unused_tables import unused_table_warning_lines_under_paths
from pdsuite.signals import Stop, StoppedError

if TYPE_CHECKING:
    from pdsuite.commands.search import SearchOptions
    from pdsuite.compare.rule_changes import ChangedRules, RuleChanges
    from pdsuite.page.comparison import ComparisonPage

_FAULT = 2
# For so many seconds the search for a script takes that is offered for a rule.
_SEARCH = 60


@dataclass(frozen=True)
class CompareOptions:
    """The options of a call: which scripts, which senders, and how the comparison is reported."""

    paths: Sequence[Path]
    only: Sequence[str]
    settings: str
    base_settings: str
    with_settings: str
    base: str | None
    other: str | None
    is_json: bool
    affected: bool
    html: Path | None
    sort: str = Quantity.TIME
    every: bool = False
    is_markdown: bool = False
    rules: bool = False
    search: "SearchOptions | None" = None

    @property
    def command_of_search_for_rule(self) -> str:
        """The command that searches, with the same senders, for a script that comes to a rule; its name is missing."""
        given = (
            ("--base", self.base),
            ("--with", self.other),
            ("--settings", self.settings),
            ("--base-settings", self.base_settings),
            ("--with-settings", self.with_settings),
        )
        words = [word for name, value in given if value for word in (name, value)]
        return shlex.join(["pdsuite", "compare", *words, "--search", str(_SEARCH), "--for"]) + " rule:"


@dataclass(frozen=True)
class _AffectedParts:
    """The parts of a tree that a change affects, and the rules of changed sources or why they are unknown."""

    tree: Affected | None
    rules: RulesOfChange | str | None


def compare_senders(options: CompareOptions, screen: Screen) -> int:
    """Compares two senders, and answers the exit status: 1 where something differs."""
    begin = time.monotonic()
    suite = SuiteConfig(layer_of_option(options.settings))
    try:
        with Stop() as stop, TemporaryDirectory(prefix="pdsuite-") as room:
            if options.search is not None:
                return _search_input_where_senders_differ(options, options.search, Path(room), stop, screen)
            scripts = suite_scripts_with_config(
                find_selected_script_files_and_read_configs(options.paths, options.only, suite, stop), suite
            )
            if lines := unused_table_warning_lines_under_paths(suite, options.paths):
                return _print_errors_always_returning_fault(lines)
            page = None if options.html is None else _comparison_page_in_folder(options.html)
            sides = sides_before_and_after_change(
                options.base, options.base_settings, options.other, options.with_settings, Path(room)
            )
            senders = (sides[0].sender, sides[1].sender)
            _print_senders_and_missing_recorders(senders, screen)
            records = all(it.has_recorder_or_is_unbuilt for it in senders)
            row_starts = query_test_row_starts_of_sender(senders[1], Path(room)) if options.affected else None
            task = ComparisonTask(scripts, list(suite.all_claims()), records, row_starts, options.rules)
            steady = SenderGuard(*(it.lookup_of_programs_or_of_unbuilt_tree for it in senders))
            built = zip(sides, build_missing_programs(senders, "any", stop, screen))
            results = run_both_senders(
                [replace(side, sender=it) for side, it in built],
                task,
                thread_count_or_one_per_processor(None),
                stop,
                screen.print_note_on_stderr,
            )
            steady.require_unchanged("compare again")
            affected = _AffectedParts(
                _affected_rows_and_paragraphs_if_requested(row_starts, senders[0], results, Path(room)),
                _affected_rules_or_why_unknown(senders, Path(room)) if options.rules else None,
            )
            return _report_comparison_returning_exit_status(senders, results, (page, affected), options, screen, begin)
    except SideSettingsError as refused:
        return _print_errors_always_returning_fault(refused.lines)
    except StoppedError as stopped:
        return stopped.status


def _search_input_where_senders_differ(
    options: CompareOptions, search: "SearchOptions", room: Path, stop: Stop, screen: Screen
) -> int:
    """Searches for inputs that tell the senders apart."""
    # Only who searches pays for what makes inputs.
    from pdsuite.commands.search import search_difference

    sides = sides_before_and_after_change(
        options.base, options.base_settings, options.other, options.with_settings, room
    )
    _print_senders_and_missing_recorders((sides[0].sender, sides[1].sender), screen)
    before, after = (
        it.sender.find_or_check_out_sources(room / f"sources of {it.option.file_or_option_name}") for it in sides
    )
    return search_difference(sides, layer_of_option(options.settings), (before, after), search, stop, screen)


def _print_errors_always_returning_fault(lines: Sequence[str]) -> int:
    for line in lines:
        print_line_on_stderr(line)
    return _FAULT


def _print_senders_and_missing_recorders(senders: tuple[Sender, Sender], screen: Screen) -> None:
    """Says what is compared, and what can't be."""
    before, after = senders
    screen.print_note_on_stderr(f"pdsuite: before: {before}; after: {after}")
    for name in dict.fromkeys(str(it) for it in senders if not it.has_recorder_or_is_unbuilt):
        screen.print_note_on_stderr(f"pdsuite: {name} has no pdrecord: scripts whose row stays aren't compared")


def _comparison_page_in_folder(folder: Path) -> "ComparisonPage":
    # Only who requests a page pays for what draws it.
    from pdsuite.page.comparison import ComparisonPage

    return ComparisonPage(folder)


def _affected_rows_and_paragraphs_if_requested(
    row_starts: RowStarts | None, before: Sender, results: Sequence[SenderResults], room: Path
) -> Affected | None:
    """The rows and paragraphs that the change affects in the tree of the sender after it."""
    if row_starts is None:
        return None
    sources = before.find_or_check_out_sources(room / "sources")
    return find_affected_rows_and_paragraphs(row_starts, [it.outputs for it in results], sources, room)


def _affected_rules_or_why_unknown(senders: tuple[Sender, Sender], room: Path) -> RulesOfChange | str:
    """The rules whose sources changed from one sender to the other."""
    if not can_find_affected_rules():
        return "here is no tree with tools/affected.py"
    trees = [it.find_or_check_out_sources(room / f"sources {side}") for it, side in zip(senders, ("before", "after"))]
    if names := [str(it) for it, tree in zip(senders, trees) if tree is None]:
        return f"the sources of {' and '.join(dict.fromkeys(names))} aren't known"
    before, after = filter(None, trees)
    return affected_rules_of_trees(before, after)


def _report_comparison_returning_exit_status(
    senders: tuple[Sender, Sender],
    results: Sequence[SenderResults],
    more: "tuple[ComparisonPage | None, _AffectedParts]",
    options: CompareOptions,
    screen: Screen,
    begin: float,
) -> int:
    """Reports what differs, rules and what is affected, and answers the exit status."""
    page, affected = more
    before, after = results
    compared = compare_results(before, after)
    is_unproved = not all(it.is_proved for it in senders)
    names = (str(senders[0]), str(senders[1]))
    rules = None
    if affected.rules is not None:
        changed = _changed_rules(affected.rules, compared, (before, after), options.command_of_search_for_rule)
        rules = replace(_changes_of_reached_rules(compared, (before, after), names), changed=changed)
    if page is not None:
        page.write_page_and_remove_stale(compared, (before, after), names, is_unproved, rules)
    seconds = time.monotonic() - begin
    report = ComparisonReport(
        compared, affected.tree, seconds, is_unproved, Quantity(options.sort), options.every, rules
    )
    if options.is_markdown:
        screen.show(whole_comparison_as_markdown(report, names))
    else:
        screen.show(
            comparison_json(report, names)
            if options.is_json
            else _wrap_prose_to_terminal(plain_comparison(report), screen)
        )
    return _exit_status_of_report(report)


def _changes_of_reached_rules(
    compared: Sequence[ComparedScript], results: tuple[SenderResults, SenderResults], names: tuple[str, str]
) -> "RuleChanges":
    # Only who requests rules pays for what counts them.
    from pdsuite.rules.changes import changes_of_reached_rules

    return changes_of_reached_rules(compared, *results, names)


def _changed_rules(
    affected: RulesOfChange | str,
    compared: Sequence[ComparedScript],
    results: tuple[SenderResults, SenderResults],
    command: str,
) -> "ChangedRules | None":
    """The rules whose sources changed, with their scripts; none where no sender says which these are."""
    from pdsuite.compare.rule_changes import ChangedRules
    from pdsuite.rules.changed_rules import changed_rules_with_scripts

    if all(it.rules is None for it in results):
        return None
    if isinstance(affected, str):
        return ChangedRules(why_unknown=affected)
    return changed_rules_with_scripts(affected, compared, *results, command)


def _wrap_prose_to_terminal(text: StyledText, screen: Screen) -> StyledText:
    """A text in lines that fit, where there is a terminal."""
    return (
        text
        if screen.terminal_columns_if_any is None
        else wrap_prose_in_styled_text(text, columns_without_autowrap(screen.terminal_columns_if_any))
    )


def _exit_status_of_report(report: ComparisonReport) -> int:
    if any(Verdict.ERROR in (it.before.row.verdict, it.after.row.verdict) for it in report.compared):
        return _FAULT
    differs = (
        any(it.differs for it in report.compared),
        report.rules is not None and bool(report.rules.changes),
        report.affected is not None and report.affected.has_affected_or_unanswered_rows,
    )
    return 1 if any(differs) else 0
