"""The answers to requests: what stands in a text and came of it, and what the programs say beside that."""

from collections.abc import Iterator, Sequence
from dataclasses import dataclass

from pdsuite.compare.comparison import ComparedScript
from pdsuite.lsp import doc_lookup
from pdsuite.lsp.actions import CodeAction, FailingScript, single_whole_line_edit_to_text, leads_past_failing_line
from pdsuite.lsp.actions import (
    commenting_out_actions,
    mend_all_actions,
    record_all_actions,
    actions_recording_from_failing_event_on,
    actions_recording_unmatched_outputs,
)
from pdsuite.lsp.actions import actions_taking_actual_packet_or_result
from pdsuite.lsp.completion import (
    completion_items,
    proposals_for_expected,
    proposals_for_every_setting_key,
    typed_word_start,
)
from pdsuite.lsp.diagnostics import Diagnostic, diagnostics_of, with_unmatched_packets
from pdsuite.lsp.documents import Document
from pdsuite.lsp.hover import Hover, hover_of_event, rules_of_line_as_list
from pdsuite.lsp.json_values import Json
from pdsuite.lsp.positions import Position
from pdsuite.lsp.queries import ProgramQueries
from pdsuite.lsp.toml_positions import key_at_line
from pdsuite.lsp.workspace import Result, Workspace, path_if_settings_uri
from pdsuite.packetdrill.layout import NOTHING, Event, Layout, layout_of
from pdsuite.packetdrill.lines import Extent
from pdsuite.packetdrill.recorded import (
    MatchedEvent,
    RecordedEvent,
    match_events,
    recorded_events_in,
    tolerance_from_header_or_settings,
)
from pdsuite.programs.protocol import Cause
from pdsuite.programs.verdict import Row, Verdict
from pdsuite.run.line_diff import count_passed_events, tolerance_us_of_settings
from pdsuite.run.locate_row import find_failing_event_of_row
from pdsuite.watch.plan_changes import WantedScript
from pdsuite.watch.sender import LiveSender
from pdsuite.watch.turned_scripts import EarlierBuild, ShownScripts, find_turned_scripts

DRAW = "pdsuite.draw"
_NO_CAUSE: Cause = {}


@dataclass(frozen=True)
class Offer:
    """An action that leads past the line that failed, and the edits that it takes."""

    action: CodeAction
    edits: list[Json]


@dataclass(frozen=True)
class _Played:
    """A script's recording: its text, its events, and those of the script that it is of; and the text of that."""

    text: str
    recorded: tuple[RecordedEvent, ...]
    events: Sequence[Event]
    script: str


class LanguageFeatures:
    """Answers about texts, by the programs. The layout of a text is kept until the text is another."""

    def __init__(self, queries: ProgramQueries) -> None:
        self.queries = queries
        self._layouts: dict[str, tuple[str, Layout]] = {}

    def layout_of_document(self, document: Document) -> Layout:
        """Where the parts of an open script stand."""
        known = self._layouts.get(document.uri)
        if known is None or known[0] != document.text:
            known = document.text, layout_of(document.text)
            self._layouts[document.uri] = known
        return known[1]

    def forget_document(self, uri: str) -> None:
        """Lets a text go that was closed."""
        self._layouts.pop(uri, None)

    def diagnostics(self, document: Document, result: Result) -> list[Diagnostic]:
        """The diagnostics of an open script, with its unmatched packets where they left."""
        if not result.has_diagnostics:
            return []
        layout = NOTHING if result.outcome.row.line is None else self.layout_of_document(document)
        found = list(diagnostics_of(result.outcome, result.cause, layout, document.lines))
        return [with_unmatched_packets(it, layout, result.cause or _NO_CAUSE) for it in found]

    def hover(self, document: Document, result: Result | None, position: Position) -> Hover | None:
        """The hover at a place, where there is anything to say."""
        offset = document.lines.offset_of(position)
        if path_if_settings_uri(document.uri):
            key = key_at_line(document.lines, document.lines.line_of(offset))
            words = doc_lookup.doc_of_setting(key) if key else ""
            extent = document.lines.line_extent_after_indent(document.lines.line_of(offset))
            return Hover(words, extent) if words else None
        event = self.layout_of_document(document).item_at(offset)
        if event is None:
            return None
        if result is None or result.text is None:
            words = hover_of_event(event, offset, [], "")
            return Hover(words, event.extent) if words else None
        played = self._record_playable_part(document, result)
        words = hover_of_event(event, offset, self._match_events_to_recording(document, result, played), played.text)
        rules = self.queries.script_rules_maybe_empty(played.script, result.outcome.settings)
        found = Hover(words, event.extent, rules_of_line_as_list(event.item.line, rules))
        return found if found.words or found.rules else None

    def _match_events_to_recording(self, document: Document, result: Result, played: _Played) -> list[MatchedEvent]:
        layout = self.layout_of_document(document)
        passed = _passed_event_count(layout, result.outcome.row, result.cause)
        allowed = tolerance_from_header_or_settings(layout.items, tolerance_us_of_settings(result.outcome.settings))
        return list(match_events(played.events, played.recorded, passed, allowed))

    def _record_playable_part(self, document: Document, result: Result) -> _Played:
        """The recording of a script, or of as much of it as can be recorded."""
        layout = self.layout_of_document(document)
        for text in dict.fromkeys(_recordable_texts_longest_first(layout, result)):
            recording = self.queries.script_recording_maybe_empty(text, result.outcome.settings).text
            if recorded := recorded_events_in(recording):
                events = [it for it in layout.packets_and_calls if it.item.end <= len(text)]
                return _Played(recording, recorded, events, text)
        return _Played("", (), (), layout.text)

    def actions_tested_to_lead_past_failure(self, document: Document, result: Result, places: Extent) -> list[Offer]:
        """The offers for a script whose failing line, or warning, lies there; by a run each leads past it."""
        row = result.outcome.row
        if result.text is None or row.line is None and not result.outcome.warnings:
            return []
        failing = FailingScript(document.lines, self.layout_of_document(document), row, result.cause or _NO_CAUSE)
        if not _touches_failing_lines(failing, places):
            return []
        each = list(self._candidate_actions(failing, result))
        rows = self.queries.run_texts_for_rows([it.text for it in each], result.outcome.settings)
        good = [it for it, after in zip(each, rows) if after is not None and leads_past_failing_line(it, row, after)]
        first = {it.title: it for it in reversed(good)}
        return [
            Offer(it, single_whole_line_edit_to_text(document.lines, it.text)) for it in good if first[it.title] is it
        ]

    def _candidate_actions(self, failing: FailingScript, result: Result) -> Iterator[CodeAction]:
        settings = result.outcome.settings
        if failing.row.verdict is Verdict.PASS:
            recording = self.queries.script_recording_maybe_empty(failing.lines.text, settings).text
            yield from actions_recording_unmatched_outputs(
                failing, self.queries.mended_script_or_empty(failing.lines.text, settings), recording
            )
            return
        yield from actions_taking_actual_packet_or_result(failing)
        if failing.row.verdict is Verdict.FAIL:
            recording = self.queries.script_recording_maybe_empty(failing.lines.text, settings).text
            yield from actions_recording_from_failing_event_on(failing, recording)
            yield from mend_all_actions(failing, self.queries.mended_script_or_empty(failing.lines.text, settings))
            yield from record_all_actions(failing, recording)
        yield from commenting_out_actions(failing)

    def completion(self, document: Document, result: Result | None, position: Position, snippets: bool) -> list[Json]:
        """The completion items for a place."""
        lines = document.lines
        offset = lines.offset_of(position)
        newline = "\r\n" if "\r\n" in document.text else "\n"
        if path_if_settings_uri(document.uri):
            line = lines.line_content(lines.line_of(offset))
            return (
                completion_items(list(proposals_for_every_setting_key()), lines, offset, snippets)
                if "=" not in line
                else []
            )
        settings = () if result is None else result.outcome.settings
        before = document.text[: typed_word_start(document.text, offset)]
        expected = self.queries.expected_after_text(before, settings)
        return completion_items(list(proposals_for_expected(expected)), lines, offset, snippets, newline)


@dataclass(frozen=True)
class SenderSession:
    """A session with the programs of a sender: the workspace, and answers about its texts."""

    workspace: Workspace
    features: LanguageFeatures
    sender: LiveSender


def turned_scripts_between(before: SenderSession, after: SenderSession) -> list[ComparedScript]:
    """The scripts that one sender turned after another."""
    shown, now = (_shown_scripts_from_results(it.workspace) for it in (before, after))
    queries = after.features.queries
    return find_turned_scripts(
        EarlierBuild(before.sender.program_paths), after.sender.program_paths, shown, now, queries.stop, queries.note
    )


def _shown_scripts_from_results(workspace: Workspace) -> ShownScripts:
    results = workspace.results
    wanted = {path: WantedScript(it.outcome.settings, it.text) for path, it in results.items() if it.text is not None}
    return ShownScripts({path: it.outcome for path, it in results.items()}, wanted)


def code_lenses(uri: str, result: Result | None, mark: str) -> list[Json]:
    """The lenses above a script: its result, with the sender's mark if there is one, and the command that draws."""
    start = {"line": 0, "character": 0}
    place = {"start": start, "end": start}
    titles = [] if result is None else [(_lens_title(result, mark), "")]
    return [
        {"range": place, "command": {"title": title, "command": command, "arguments": [uri]}}
        for title, command in [*titles, ("draw", DRAW)]
    ]


def _lens_title(result: Result, mark: str) -> str:
    """The row, at once whose it is, since a narrow window has no room for more, and how much ran for it."""
    row = result.outcome.row
    words = row.whole_text_without_name
    if row.verdict is Verdict.PASS:
        words = ", but ".join([f"pass: {_count_with_noun(row.number, 'event')}", *result.outcome.warnings])
    if result.steps is None:
        return f"{words}{mark}"
    return f"{words}{mark}; the last change ran {_count_with_noun(result.steps, 'step')}"


def _count_with_noun(number: int, noun: str) -> str:
    return f"{number:,} {noun}" if number == 1 else f"{number:,} {noun}s"


def _passed_event_count(layout: Layout, row: Row, cause: Cause | None) -> int:
    """How many events passed, as far as the row says."""
    return len(layout.packets_and_calls) if row.verdict is Verdict.PASS else count_passed_events(layout, row, cause)


def _recordable_texts_longest_first(layout: Layout, result: Result) -> Iterator[str]:
    """The texts that may be recorded, the longest first: all, or what comes up to the event that ended the run."""
    row = result.outcome.row
    event = find_failing_event_of_row(row, result.cause, layout)
    if row.verdict is Verdict.SYNTAX:
        yield layout.text[: layout.items[-1].item.end] if layout.items else ""
        return
    if row.verdict in (Verdict.PASS, Verdict.FAIL) and row.word != "backwards":
        yield layout.text
        if event is not None:
            yield layout.text[: event.item.end]
    if event is not None:
        yield layout.text[: event.item.start]


def _touches_failing_lines(failing: FailingScript, places: Extent) -> bool:
    """Whether a part of a text has something of the lines of the failing event, or of the line marked for it."""
    lines, event = failing.lines, failing.event
    line = (failing.row.line or 1) - 1
    last = line if event is None else lines.line_of(event.item.end)
    marked = failing.cause.get("text_line")
    first = min(line, marked - 1) if isinstance(marked, int) else line
    return places.start <= lines.line_end(last) and lines.line_start(first) <= places.end
