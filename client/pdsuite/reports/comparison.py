"""The comparison of two senders by the same scripts: for people, and as JSON."""

import json
from collections.abc import Iterator, Sequence
from dataclasses import asdict, dataclass

from pdsuite.compare.affected import Affected
from pdsuite.compare.comparison import ComparedScript, ComparisonKind, KindCounts, counts_by_folder_and_total
from pdsuite.compare.divergence import Divergence, PlayedEvent
from pdsuite.compare.groups import Group, group_by_first_difference
from pdsuite.compare.quantities import Quantity
from pdsuite.compare.rule_changes import RuleChanges
from pdsuite.output.octets import printable_path, printable_text
from pdsuite.output.styled_text import StyledText, styled_text_of_one_plain_piece
from pdsuite.reports.affected import affected_lines
from pdsuite.reports.outcome_text import explanation_or_line_below_row, row_meaning_suffix_if_explained
from pdsuite.reports.quantities import changed_quantities_json_object, total_and_changed_quantity_lines
from pdsuite.reports.rule_changes import rule_changes_json_object, rule_changes_text
from pdsuite.run.outcomes import UNPROVED, ScriptOutcome

_STYLES = {ComparisonKind.TURNED: "bold red", ComparisonKind.OTHERWISE: "yellow"}
_SIDES = ("before", "after")
_ENDS = "nothing more"
# Of the JSON, as docs/compare.schema.json has it.
VERSION = 2


def compared_script_lines(it: ComparedScript) -> list[str]:
    """The lines below a script: both blocks where it turned, and where the recordings part."""
    lines = (
        [*_outcome_lines_of_one_side("before", it.before), *_outcome_lines_of_one_side("after", it.after)]
        if it.kind is ComparisonKind.TURNED
        else []
    )
    if it.divergence is not None:
        return [*lines, *_lines_of_first_divergence_and_state(it.divergence)]
    if it.kind is ComparisonKind.OTHERWISE:
        lines += [f"{side}: {_whether_recorded_in_words(why)}" for side, why in zip(_SIDES, it.unrecorded)]
    return lines


def _outcome_lines_of_one_side(side: str, outcome: ScriptOutcome) -> Iterator[str]:
    line = "" if outcome.explained_or_row_line_number is None else f"line {outcome.explained_or_row_line_number}: "
    yield f"{side}: {line}{outcome.row}{row_meaning_suffix_if_explained(outcome)}"
    yield from (f"  {it}" for it in explanation_or_line_below_row(outcome))


def _lines_of_first_divergence_and_state(it: Divergence) -> Iterator[str]:
    yield "the first event that differs:"
    yield f"  before: {_event_or_nothing_more(it.before)}"
    yield f"  after:  {_event_or_nothing_more(it.after)}"
    if it.state_before == it.state_after:
        yield f"  state:  {it.state_before or 'none'}"
    else:
        yield f"  state of the sender before: {it.state_before}"
        yield f"  state of the sender after:  {it.state_after}"


def _event_or_nothing_more(it: PlayedEvent | None) -> str:
    return _ENDS if it is None else printable_text(str(it))


def _whether_recorded_in_words(why: str) -> str:
    return f"not recorded: {why}" if why else "recorded"


@dataclass(frozen=True)
class ComparisonReport:
    """The report of a comparison: scripts, what is affected in a tree, the seconds, and whether it is unproved.

    Scripts whose quantities changed are sorted by one of them. With `is_every` all scripts are reported whole. The
    rules that other scripts come to are reported where they were requested.
    """

    compared: Sequence[ComparedScript]
    affected: Affected | None
    seconds: float
    is_unproved: bool
    sort: Quantity = Quantity.TIME
    is_every: bool = False
    rules: RuleChanges | None = None

    def groups_by_kind_and_difference(self) -> Iterator[tuple[ComparisonKind, Group]]:
        """The groups of the scripts that turned, and then of those that are played otherwise."""
        for kind in _STYLES:
            for group in group_by_first_difference([it for it in self.compared if it.kind is kind]):
                yield kind, group


def compared_script_entry(it: ComparedScript) -> StyledText:
    """A script that differs, and what is reported of it."""
    text = StyledText().append(f"{printable_path(it.path)}: ").append(it.kind, _STYLES[it.kind]).append("\n")
    return text.append("".join(f"  {line}\n" for line in compared_script_lines(it)), "dim")


def plain_comparison(report: ComparisonReport) -> StyledText:
    """Scripts that turned, those that are played otherwise, totals by folder, rules, and what is affected in a tree."""
    text = StyledText()
    for kind, group in report.groups_by_kind_and_difference():
        whole = len(group.scripts) if report.is_every else 1
        if len(group.scripts) > 1:
            text.append(f"{len(group.scripts)} scripts differ first in {group.title}:\n", "bold")
        for it in group.scripts[:whole]:
            text.append_text(compared_script_entry(it))
        for it in group.scripts[whole:]:
            text.append(f"{printable_path(it.path)}: ").append(kind, _STYLES[kind])
            text.append(f": {it.comment}\n" if it.comment else "\n")
    text.append(
        "".join(f"{line}\n" for line in total_and_changed_quantity_lines(report.compared, report.sort, report.is_every))
    )
    *folders, total = counts_by_folder_and_total(report.compared)
    for count in folders:
        text.append(f"{printable_path(count.name)}: {count.counts_in_words}\n")
    if report.rules is not None:
        text.append_text(rule_changes_text(report.rules, report.is_every))
    if report.affected is not None:
        text.append("".join(f"{line}\n" for line in affected_lines(report.affected)))
    mark = f" {UNPROVED}" if report.is_unproved else ""
    return text.append(f"total {total} in {report.seconds:.2f} s{mark}\n")


def comparison_json(report: ComparisonReport, names: tuple[str, str]) -> StyledText:
    """One object: the two senders, scripts that differ, totals by folder, rules, and what is affected in the tree."""
    *folders, total = counts_by_folder_and_total(report.compared)
    whole: dict[str, object] = {
        "version": VERSION,
        **dict(zip(_SIDES, names)),
        "scripts": [_compared_script_json_object(it) for it in report.compared if it.differs],
        "groups": [_group_json_object(kind, it) for kind, it in report.groups_by_kind_and_difference()],
        "quantities": changed_quantities_json_object(report.compared, report.sort),
        "folders": {printable_path(it.name): _counts_by_kind(it) for it in folders},
        "total": _counts_by_kind(total),
        "seconds": round(report.seconds, 2),
    }
    if report.rules is not None:
        whole["rules"] = rule_changes_json_object(report.rules)
    if report.affected is not None:
        whole["affected"] = asdict(report.affected)
    if report.is_unproved:
        whole[UNPROVED] = True
    return styled_text_of_one_plain_piece(json.dumps(whole, ensure_ascii=False, indent=1) + "\n")


def _counts_by_kind(count: KindCounts) -> dict[str, int]:
    return {"scripts": sum(count.counts.values()), **{it.value: count.counts[it] for it in ComparisonKind}}


def _compared_script_json_object(it: ComparedScript) -> dict[str, object]:
    script: dict[str, object] = {"path": printable_path(it.path), "kind": it.kind.value}
    for side, outcome in zip(_SIDES, (it.before, it.after)):
        script[side] = {
            "row": str(outcome.row),
            "line": outcome.row.line,
            "what": outcome.why,
            "below": explanation_or_line_below_row(outcome),
        }
    if it.divergence is not None:
        script["parting"] = {
            "before": _event_json_object(it.divergence.before, it.divergence.state_before),
            "after": _event_json_object(it.divergence.after, it.divergence.state_after),
        }
    elif it.kind is ComparisonKind.OTHERWISE:
        script["unrecorded"] = dict(zip(_SIDES, it.unrecorded))
    return script


def _group_json_object(kind: ComparisonKind, it: Group) -> dict[str, object]:
    return {
        "kind": kind.value,
        "field": it.field,
        "event": it.event,
        "scripts": [{"path": printable_path(each.path), "comment": each.comment} for each in it.scripts],
    }


def _event_json_object(it: PlayedEvent | None, state: str) -> dict[str, object]:
    if it is None:
        return {"event": None, "state": state}
    return {"event": printable_text(it.line), "moment": it.moment, "state": state}
