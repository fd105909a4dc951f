"""The comparison of two senders by the same scripts, as Markdown for a pull request."""

from collections.abc import Iterator

from pdsuite.compare.comparison import ComparedScript, ComparisonKind, counts_by_folder_and_total
from pdsuite.compare.groups import Group
from pdsuite.compare.rule_changes import ChangedRules, RuleChange, RuleChanges
from pdsuite.output.octets import printable_path
from pdsuite.output.styled_text import StyledText, styled_text_of_one_plain_piece
from pdsuite.reports.affected import affected_lines
from pdsuite.reports.changed_rules import (
    changed_rule_in_words,
    line_if_changed_rules_unknown_or_none,
    line_on_more_scripts,
    line_on_what_states_no_rule,
    scripts_of_changed_rule,
    way_to_script_of_changed_rule,
    what_changed_in_words,
)
from pdsuite.reports.comparison import ComparisonReport, compared_script_lines
from pdsuite.reports.quantities import total_and_changed_quantity_lines
from pdsuite.reports.rule_changes import (
    UNREACHED,
    line_if_unknown_or_unchanged,
    line_on_scripts_left_out,
    script_counts_in_words,
    scripts_with_their_lines,
    way_to_first_script,
)
from pdsuite.run.outcomes import UNPROVED

# Longer than any row of backquotes that a script may have is no fence; so the text stands indented.
_INDENT = "    "


def whole_comparison_as_markdown(report: ComparisonReport, names: tuple[str, str]) -> StyledText:
    """A summary, a part for each group, and what else is reported, folded."""
    return styled_text_of_one_plain_piece("".join(f"{line}\n" for line in _markdown_lines(report, names)))


def _markdown_lines(report: ComparisonReport, names: tuple[str, str]) -> Iterator[str]:
    *_, total = counts_by_folder_and_total(report.compared)
    yield "## Before and after"
    yield ""
    yield f"- before: {_as_code(names[0])}"
    yield f"- after: {_as_code(names[1])}"
    yield f"- {total.counts_in_words}{f' ({UNPROVED})' if report.is_unproved else ''}"
    for kind, group in report.groups_by_kind_and_difference():
        yield from _group_lines(kind, group, report.is_every)
    if report.rules is not None:
        yield from _rule_lines(report.rules, report.is_every)
        yield from _changed_rule_lines(report.rules.changed, report.is_every)
    more = list(total_and_changed_quantity_lines(report.compared, report.sort, report.is_every))
    more += [] if report.affected is None else affected_lines(report.affected)
    if more:
        yield from _details_block("Quantities and what is affected" if report.affected else "Quantities", more)


def _group_lines(kind: ComparisonKind, group: Group, is_every: bool) -> Iterator[str]:
    count = len(group.scripts)
    yield ""
    yield f"### {kind}: {count} {'script' if count == 1 else 'scripts'}, first in {group.title}"
    yield ""
    whole = count if is_every else 1
    for it in group.scripts[:whole]:
        yield from _script_lines(it)
    for it in group.scripts[whole:]:
        yield f"- {_path_and_comment(it)}"


def _path_and_comment(it: ComparedScript) -> str:
    comment = f": {_escape_markup_but_backquotes(it.comment)}" if it.comment else ""
    return f"{_as_code(printable_path(it.path))}{comment}"


def _script_lines(it: ComparedScript) -> Iterator[str]:
    yield _path_and_comment(it)
    yield ""
    yield from (f"{_INDENT}{line}" for line in compared_script_lines(it))
    yield ""


def _rule_lines(found: RuleChanges, is_every: bool) -> Iterator[str]:
    yield ""
    if line := line_if_unknown_or_unchanged(found):
        yield f"### {_escape_markup_but_backquotes(line)}"
        return
    count = len(found.changes)
    yield f"### rules: other scripts come to {count} {'rule' if count == 1 else 'rules'}"
    yield ""
    for it in found.changes:
        yield from _lines_on_rule(it, is_every)


def _lines_on_rule(it: RuleChange, is_every: bool) -> Iterator[str]:
    yield f"- {_as_code(it.name)}: {script_counts_in_words(it)}"
    if not it.after:
        yield f"  - **{UNREACHED}**: {way_to_first_script(it)}"
    yield from (f"  - {_as_code(path)}: {words}" for path, words in scripts_with_their_lines(it, is_every))
    yield from (f"  - {line}" for line in line_on_scripts_left_out(it, is_every))


def _changed_rule_lines(found: ChangedRules | None, is_every: bool) -> Iterator[str]:
    """The rules whose sources changed, if they were looked for."""
    if found is None:
        return
    yield ""
    if line := line_if_changed_rules_unknown_or_none(found):
        yield f"### {_escape_markup_but_backquotes(line)}"
        return
    count = len(found.rules)
    yield f"### rules: the sources of {count or 'no'} {'rule' if count < 2 else 'rules'} changed"
    yield ""
    for it in found.rules:
        yield f"- {_as_code(it.name)}: {_escape_markup_but_backquotes(changed_rule_in_words(it))}"
        yield f"  - changed: {_escape_markup_but_backquotes(what_changed_in_words(it, is_every))}"
        if not it.scripts:
            yield f"  - {_escape_markup_but_backquotes(way_to_script_of_changed_rule(it, found))}"
        yield from (f"  - {_as_code(path)}: {words}" for path, words in scripts_of_changed_rule(it, is_every))
        yield from (f"  - {line}" for line in line_on_more_scripts(it, is_every))
    yield from (f"- {_escape_markup_but_backquotes(it)}" for it in line_on_what_states_no_rule(found, is_every))


def _details_block(title: str, lines: list[str]) -> Iterator[str]:
    yield ""
    yield f"<details><summary>{title}</summary>"
    yield ""
    yield from (f"{_INDENT}{line}" for line in lines)
    yield ""
    yield "</details>"


def _as_code(text: str) -> str:
    """A text as code, in more backquotes than it has in a row."""
    fence = "`"
    while fence in text:
        fence += "`"
    pad = " " if "`" in text else ""
    return f"{fence}{pad}{text}{pad}{fence}"


def _escape_markup_but_backquotes(text: str) -> str:
    """A comment, of which no character is markup but its backquotes."""
    return "".join(f"\\{it}" if it in "\\<>*_[]#|" else it for it in text)
