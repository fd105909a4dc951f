"""The page of a comparison: the scripts that differ, each with both blocks and both diagrams, one over the other."""

from collections.abc import Iterator, Sequence
from dataclasses import dataclass
from pathlib import Path

from pdsuite.compare.comparison import (
    ComparedScript,
    ComparisonKind,
    KindCounts,
    SenderResults,
    counts_by_folder_and_total,
)
from pdsuite.compare.groups import group_by_first_difference
from pdsuite.compare.rule_changes import ChangedRules, RuleChanges
from pdsuite.diagram.failing_line import failing_line_of
from pdsuite.diagram.timeline import timeline_if_any_packet
from pdsuite.files import write_file_atomically
from pdsuite.output.octets import printable_path
from pdsuite.packages import message_if_module_missing
from pdsuite.page.folder import TABLE, prepare_page_folder_or_refuse_foreign_files, remove_stale_pages
from pdsuite.page.links import page_file_name_of
from pdsuite.page.render import render_comparison_page
from pdsuite.programs.trace import traced_events_in
from pdsuite.programs.verdict import Verdict
from pdsuite.reports.changed_rules import (
    changed_rule_in_words,
    line_if_changed_rules_unknown_or_none,
    line_on_what_states_no_rule,
    scripts_of_changed_rule,
    way_to_script_of_changed_rule,
    what_changed_in_words,
)
from pdsuite.reports.comparison import compared_script_lines
from pdsuite.reports.rule_changes import (
    UNREACHED,
    line_if_unknown_or_unchanged,
    script_counts_in_words,
    scripts_with_their_lines,
    way_to_first_script,
)

# So many scripts are drawn.
_MOST = 50


@dataclass(frozen=True, slots=True)
class ComparisonPicture:
    """A diagram as SVG, or the words why there is none."""

    side: str
    svg: str
    words: str = ""


@dataclass(frozen=True)
class ComparisonSection:
    """A script that differs."""

    path: str
    name: str
    kind: str
    lines: tuple[str, ...]
    pictures: tuple[ComparisonPicture, ...]
    group: str = ""  # what a group of several begins with


@dataclass(frozen=True, slots=True)
class ChangedRuleSection:
    """A rule: its counts, a warning if no script comes to it, scripts with lines, and what changed."""

    place: str
    name: str
    words: str
    counts: str
    warning: str
    scripts: tuple[tuple[str, str], ...]
    changed: str = ""


@dataclass(frozen=True, slots=True)
class ComparedRules:
    """A part of a page with rules, or with the line that stands in their place; and lines below them."""

    name: str
    title: str
    line: str
    sections: tuple[ChangedRuleSection, ...]
    below: tuple[str, ...] = ()


class ComparisonPage:
    """The page in a folder."""

    def __init__(self, folder: Path) -> None:
        prepare_page_folder_or_refuse_foreign_files(folder)
        self._folder = folder

    def write_page_and_remove_stale(
        self,
        compared: Sequence[ComparedScript],
        results: tuple[SenderResults, SenderResults],
        names: tuple[str, str],
        is_unproved: bool,
        rules: RuleChanges | None = None,
    ) -> None:
        """Writes the page."""
        sections = tuple(_yield_sections_turned_first(compared, results))
        counts: tuple[KindCounts, ...] = tuple(counts_by_folder_and_total(compared))
        shown = () if rules is None else tuple(_parts_with_rules(rules))
        write_file_atomically(self._folder / TABLE, render_comparison_page(sections, counts, shown, names, is_unproved))
        remove_stale_pages(self._folder, (), ())


def _parts_with_rules(found: RuleChanges) -> Iterator[ComparedRules]:
    """The rules that other scripts come to, and those whose sources changed."""
    sections = (
        ChangedRuleSection(
            it.name,
            it.name,
            it.words,
            script_counts_in_words(it),
            "" if it.after else f"{UNREACHED}: {way_to_first_script(it)}",
            tuple(scripts_with_their_lines(it, is_every=True)),
        )
        for it in found.changes
    )
    title = "Rules that other scripts come to"
    yield ComparedRules("rules", title, line_if_unknown_or_unchanged(found), tuple(sections))
    if found.changed is not None:
        yield _part_with_changed_rules(found.changed)


def _part_with_changed_rules(found: ChangedRules) -> ComparedRules:
    sections = (
        ChangedRuleSection(
            f"changed-{it.name}",
            it.name,
            it.words,
            changed_rule_in_words(it),
            "" if it.scripts else way_to_script_of_changed_rule(it, found),
            tuple(scripts_of_changed_rule(it, is_every=True)),
            f"Changed: {what_changed_in_words(it, is_every=True)}",
        )
        for it in found.rules
    )
    line = line_if_changed_rules_unknown_or_none(found)
    below = tuple(line_on_what_states_no_rule(found, is_every=True))
    return ComparedRules("changed-rules", "Rules whose sources changed", line, tuple(sections), below)


def _yield_sections_turned_first(
    compared: Sequence[ComparedScript], results: tuple[SenderResults, SenderResults]
) -> Iterator[ComparisonSection]:
    """The scripts that differ, those that turned first, group by group."""
    number = 0
    for kind in (ComparisonKind.TURNED, ComparisonKind.OTHERWISE):
        for group in group_by_first_difference([it for it in compared if it.kind is kind]):
            title = f"{len(group.scripts)} scripts differ first in {group.title}" if len(group.scripts) > 1 else ""
            for it in group.scripts:
                yield _make_section(it, results, number < _MOST, title)
                title = ""
                number += 1


def _make_section(
    it: ComparedScript, results: tuple[SenderResults, SenderResults], is_drawn: bool, title: str
) -> ComparisonSection:
    pictures = [
        _picture_or_reason_undrawn(side, it.index, sender, is_drawn)
        for side, sender in zip(("before", "after"), results)
    ]
    name = page_file_name_of(it.path).removesuffix(".html")
    lines = [it.comment] * bool(it.comment) + compared_script_lines(it)
    return ComparisonSection(printable_path(it.path), name, it.kind, tuple(lines), tuple(pictures), title)


def _picture_or_reason_undrawn(side: str, index: int, sender: SenderResults, is_drawn: bool) -> ComparisonPicture:
    """The diagram of a script under one of the senders."""
    recording = sender.recordings.get(index)
    if recording is None or not recording.text:
        return ComparisonPicture(
            side, "", f"There is no recording: {recording.fault if recording else 'nothing is recorded'}"
        )
    if not is_drawn:
        return ComparisonPicture(side, "", f"It isn't drawn, since {_MOST} others are.")
    if reason := message_if_module_missing("matplotlib"):
        return ComparisonPicture(side, "", f"It isn't drawn: {reason}")
    outcome, text = sender.outcomes[index], sender.texts[index]
    failing = None
    if outcome.row.verdict is Verdict.FAIL and outcome.row.line is not None:
        script = text.octets.decode("utf-8", "surrogateescape")
        failing = failing_line_of(script, outcome.row.line, sender.causes.get(index, {}))
    strokes = timeline_if_any_packet(traced_events_in(recording.text), failing)
    if strokes is None:
        return ComparisonPicture(side, "", "There is nothing to draw: no packet comes or leaves.")
    # Only who draws pays for what draws.
    from pdsuite.diagram.pictures import wide_and_narrow_svgs_for_page

    return ComparisonPicture(side, wide_and_narrow_svgs_for_page(strokes))
