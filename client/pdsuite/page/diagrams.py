"""A script's diagram for its page, or the words why there is none; and its files, where these are requested."""

from collections.abc import Iterator
from dataclasses import dataclass
from pathlib import Path

from pdsuite.diagram.failing_line import FailingLine, failing_line_of
from pdsuite.diagram.timeline import timeline_if_any_packet
from pdsuite.diagram.timeline_parts import Timeline
from pdsuite.files import write_file_atomically
from pdsuite.output.octets import printable_path
from pdsuite.packages import message_if_module_missing
from pdsuite.page.diagram_choice import Plot
from pdsuite.page.links import PLOTS, plot_file_names
from pdsuite.programs.protocol import Cause
from pdsuite.programs.recorder import Recorder
from pdsuite.programs.trace import traced_events_in
from pdsuite.programs.verdict import Row, Verdict
from pdsuite.run.outcomes import ScriptOutcome
from pdsuite.scripts.text import ScriptText


@dataclass(frozen=True, slots=True)
class Diagram:
    """A picture as SVG, and words below it; without a picture the words say why there is none."""

    svg: str
    words: tuple[str, ...]
    files: tuple[str, ...] = ()


_UNDRAWN = {
    Verdict.PASS: "It isn't drawn, since it passes: --plot PATTERN draws the scripts whose path or name fits.",
    Verdict.FAIL: "It isn't drawn, since others fail before it: --plots N draws the first N scripts that fail, and "
    "--plot PATTERN those whose path or name fits.",
}
_NO_RECORDING = {
    Verdict.SYNTAX: "There is no recording: the text is no script.",
    Verdict.UNSUPPORTED: "There is no recording: the sender doesn't run the script.",
    Verdict.LIMIT: "There is no recording: the script is over a limit.",
    Verdict.ERROR: "There is no recording: the script wasn't run.",
    Verdict.NOT_RUN: "There is no recording: the script wasn't run.",
}
_RECORDED = "What the sender does with the inputs of the script, as pdrecord records it."


def undrawn_diagram_with_reason(row: Row) -> Diagram:
    """The words of a script that isn't drawn."""
    return Diagram("", (_NO_RECORDING.get(row.verdict) or _UNDRAWN[row.verdict],))


def make_script_diagram_and_files(
    outcome: ScriptOutcome, text: ScriptText | None, plot: Plot, cause: Cause | None, recorder: Recorder, folder: Path
) -> Diagram:
    """The diagram of a script, where one is to be drawn; its files are written into the folder of the page."""
    row = outcome.row
    if plot is Plot.NONE or text is None or row.verdict in _NO_RECORDING:
        return undrawn_diagram_with_reason(row)
    if reason := message_if_module_missing("matplotlib"):
        return Diagram("", (f"It isn't drawn: {reason}",))
    recording = recorder.record_script_or_return_and_note_reason(outcome.path, text.octets, outcome.settings)
    if not recording.text:
        return Diagram("", (f"There is no recording: {recording.fault or 'pdrecord writes nothing'}",))
    timeline = timeline_if_any_packet(traced_events_in(recording.text), _failing_line_if_failed(text, row, cause))
    if timeline is None:
        return Diagram("", ("There is nothing to draw: no packet comes or leaves.",))
    # Only who draws pays for what draws.
    from pdsuite.diagram.pictures import wide_and_narrow_svgs_for_page

    files = _write_svg_and_png_files(folder, outcome.path, timeline) if plot is Plot.FILES else ()
    return Diagram(wide_and_narrow_svgs_for_page(timeline), tuple(_diagram_caption_lines(timeline)), files)


def _failing_line_if_failed(text: ScriptText, row: Row, cause: Cause | None) -> FailingLine | None:
    if row.verdict is not Verdict.FAIL or row.line is None:
        return None
    return failing_line_of(text.octets.decode("utf-8", "surrogateescape"), row.line, cause or {})


def _diagram_caption_lines(timeline: Timeline) -> Iterator[str]:
    yield _RECORDED
    failure = timeline.failure
    if failure is None:
        return
    if failure.expected is not None and failure.actual is not None:
        yield f"Line {failure.line} expects the packet that is outlined; the filled one was sent."
    elif failure.expected is not None:
        yield f"Line {failure.line} expects the packet that is outlined; none was sent in time."
    if timeline.has_later_events:
        yield f"Pale is what comes after line {failure.line}: what the sender would do next."


def _write_svg_and_png_files(folder: Path, path: str, timeline: Timeline) -> tuple[str, ...]:
    """Writes the picture as files, and answers their names."""
    from pdsuite.diagram.pictures import png_octets, standalone_svg_octets

    names = plot_file_names(path)
    title = printable_path(path)
    for name, octets in zip(names, (standalone_svg_octets(timeline, title), png_octets(timeline, title))):
        (folder / PLOTS).mkdir(exist_ok=True)
        write_file_atomically(folder / PLOTS / name, octets)
    return names
