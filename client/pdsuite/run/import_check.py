"""Reports of imported scripts that fail which feature that was dropped acts at the line, where one is known to."""

from collections.abc import Iterable, Iterator
from dataclasses import replace

from pdsuite.programs.verdict import Verdict
from pdsuite.run.outcomes import ScriptOutcome
from pdsuite.run.run_batches import SettledPiece, Step
from pdsuite.scripts.text import ScriptText

# Stands in each script whose set-up an import dropped.
MARK = b"// why: set-up, which is read and never run"
_EARLY = "early by: "


def add_dropped_import_features_to_failures(steps: Iterable[Step]) -> Iterator[Step]:
    """The steps, with what acts at the lines at which imported scripts fail."""
    for step in steps:
        if isinstance(step, SettledPiece):
            outcomes = [
                (it, _add_acting_dropped_feature_if_failing(outcome, step.texts.get(it.index)))
                for it, outcome in step.outcomes
            ]
            step = replace(step, outcomes=outcomes)
        yield step


def _add_acting_dropped_feature_if_failing(outcome: ScriptOutcome, text: ScriptText | None) -> ScriptOutcome:
    if outcome.row.verdict is not Verdict.FAIL or text is None or text.octets.find(MARK) < 0:
        return outcome
    # Only who has imported scripts pays for what reads them.
    from pdsuite.imports.dropped_features import dropped_feature_explaining_failure
    from pdsuite.packetdrill.layout import layout_of
    from pdsuite.run.line_diff import count_passed_events, failing_event_text_by_explanation_key

    layout = layout_of(text.octets.decode("utf-8", "surrogateescape"))
    place = count_passed_events(layout, outcome.row, failing_event_text_by_explanation_key(outcome.block_lines))
    is_early = any(it.startswith(_EARLY) for it in outcome.block_lines)
    found = (
        dropped_feature_explaining_failure(layout.packets_and_calls, place, outcome.row.word, is_early)
        if place < len(layout.packets_and_calls)
        else None
    )
    return (
        outcome
        if found is None
        else replace(outcome, block_lines=(*outcome.block_lines, f"of what the import dropped, {found}"))
    )
