"""The report of a search: its find, and what its inputs reached."""

from collections.abc import Iterator, Mapping, Sequence
from itertools import zip_longest

from pdsuite.compare.divergence import PlayedEvent, parse_played_events
from pdsuite.output.octets import printable_text
from pdsuite.output.styled_text import StyledText
from pdsuite.programs.verdict import Row
from pdsuite.run.outcomes import UNPROVED
from pdsuite.scripts.settings import Settings, settings_as_toml
from pdsuite.search.coverage import SHARES, Coverage
from pdsuite.search.find import Find
from pdsuite.search.search import SearchResult

_ENDS = "nothing more"
_SETTINGS = "settings"


def render_find_with_recordings_and_failure(
    find: Find, what: str, settings: Sequence[Settings], other: str | None, row: Row | None, explanation: Sequence[str]
) -> StyledText:
    """A find: its recording beside the other sender's, if there is one, each with its settings, and why it fails.

    The row is that of its script as it is saved.
    """
    text = StyledText().append(f"{what}\n", "bold red")
    text.append("".join(f"  {line}\n" for line in _settings_lines_by_side_if_different(settings)))
    pairs = (
        _event_and_state_lines_of_recording(find.recording)
        if other is None
        else _recording_lines_merged_where_equal(find.recording, other)
    )
    text.append("".join(f"  {printable_text(line)}\n" for line in pairs))
    if row is not None:
        line = "" if row.line is None else f"line {row.line}: "
        meaning, *below = explanation or [str(row)]
        text.append(f"  after: {line}{meaning}\n", "bold")
        text.append("".join(f"    {it}\n" for it in below))
    return text


def render_offer_as_suite_script(offer: Sequence[str]) -> StyledText:
    """The name and the first lines with which a script may come into the suite, if there are any."""
    text = StyledText()
    if offer:
        name, *lines = offer
        text.append(f"for examples/suite: as {printable_text(name)}, below lines that say what it tests:\n")
        text.append("".join(f"  {printable_text(line)}\n" for line in lines))
    return text


def _settings_lines_by_side_if_different(settings: Sequence[Settings]) -> Iterator[str]:
    """The settings, or where they aren't the same on both sides those of each."""
    texts = [settings_as_toml(it).splitlines() or ["no settings"] for it in settings]
    if all(it == texts[0] for it in texts):
        yield from texts[0]
    else:
        for side, lines in zip(("before: ", "after:  "), texts):
            yield f"{side}{', '.join(lines)}"


def _event_and_state_lines_of_recording(recording: str) -> Iterator[str]:
    for it in parse_played_events(recording):
        yield str(it)
        yield f"    {it.state}"


def _recording_lines_merged_where_equal(before: str, after: str) -> Iterator[str]:
    """Both recordings event by event: one line where they agree, else one for each."""
    for one, other in zip_longest(parse_played_events(before), parse_played_events(after)):
        if one is not None and other is not None and str(one) == str(other):
            yield str(one)
            yield f"    {one.state}"
            if one.state != other.state:
                yield f"    after: {other.state}"
        else:
            yield from _event_and_state_lines_or_end("before: ", one)
            yield from _event_and_state_lines_or_end("after:  ", other)


def _event_and_state_lines_or_end(name: str, it: PlayedEvent | None) -> Iterator[str]:
    yield f"{name}{_ENDS if it is None else it}"
    if it is not None:
        yield f"    {it.state}"


def render_coverage_and_search_totals(searched: SearchResult, seed: int, is_unproved: bool) -> StyledText:
    """The last lines: how many of the inputs met what, and how many there were."""
    reached = searched.coverage
    text = StyledText()
    for name, counts in _named_state_option_setting_counts(reached):
        if searched.find is None or name == _SETTINGS:
            text.append(f"{name}: {' '.join(f'{it} {count}' for it, count in sorted(counts.items())) or 'none'}\n")
    shares = ", ".join(f"{name} {reached.counts[name]}" for name in SHARES)
    mark = f" {UNPROVED}" if is_unproved else ""
    text.append(f"reached: {shares}\n")
    tried = f"{reached.inputs} inputs in {searched.seconds:.2f} s"
    cut = "" if searched.find is None and searched.unshown is None else f", cut down in {searched.shrinking:.2f} s"
    return text.append(f"{'total' if searched.find is None else 'found after'} {tried}{cut}, seed {seed}{mark}\n")


def _named_state_option_setting_counts(reached: Coverage) -> Iterator[tuple[str, Mapping[str, int]]]:
    yield "states", reached.states
    yield "options", reached.options
    yield _SETTINGS, reached.settings
