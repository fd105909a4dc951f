"""The script of a find as it is saved: it ends with the line that fails, and waits for no more than it expects."""

from collections.abc import Callable, Iterator, Sequence
from dataclasses import dataclass, replace

from pdsuite.compare.divergence import PlayedEvent, parse_played_events
from pdsuite.packetdrill.items import Time
from pdsuite.programs.verdict import Row, Verdict
from pdsuite.search.find import Find, configured_script_of_find
from pdsuite.search.inputs import EXACT
from pdsuite.search.oracle import ConfiguredScript, SenderOracle
from pdsuite.search.simulate import TICK
from pdsuite.search.states import parse_moment


@dataclass(frozen=True)
class FinishedScript:
    """The script of a find, and its row under the sender after, if it fails there."""

    script: ConfiguredScript
    row: Row | None

    @property
    def line_count(self) -> int:
        """How many lines it has."""
        return self.script.octets.count(b"\n")


def least_script_of_find(find: Find, before: SenderOracle, after: SenderOracle) -> FinishedScript:
    """The least script that shows a find: of what was tried, what passes before and fails after."""
    best = FinishedScript(configured_script_of_find(find), find.row)
    if find.row is None or find.row.line is None:
        return best
    played = list(parse_played_events(find.recording))[: find.row.line - find.inputs.header_line_count]
    for kept in (_without_waits(played), played):
        smaller = _scripts_passing_before_failing_after([_script_of_events(find, kept)], before, after)
        if smaller:
            best = smaller[0]
            break
    while found := _scripts_passing_before_failing_after(
        list(_scripts_with_a_wait_joined_to_next_line(best)), before, after
    ):
        best = found[0]
    return best


def prepend_comment_stating_row_of_rerun(
    it: FinishedScript, head: Callable[[Row | None], Sequence[str]], after: SenderOracle
) -> FinishedScript:
    """The script below lines of comment, which name its row as it is when it is run with them."""
    row = it.row
    for _ in range(2):
        script = replace(it.script, octets=prepend_comment_lines(head(row), it.script.octets))
        (ran,) = after.run_scripts_for_rows([script])
        row = None if ran.verdict is Verdict.PASS else ran
    return FinishedScript(script, row)


def prepend_comment_lines(head: Sequence[str], octets: bytes) -> bytes:
    """A script below lines of comment."""
    return "".join(f"// {line}\n" for line in head).encode("utf-8", "surrogateescape") + octets


def _scripts_passing_before_failing_after(
    scripts: Sequence[ConfiguredScript], before: SenderOracle, after: SenderOracle
) -> list[FinishedScript]:
    """Those scripts that pass before and fail after."""
    rows = zip(scripts, before.run_scripts_for_rows(scripts), after.run_scripts_for_rows(scripts))
    return [
        FinishedScript(it, new)
        for it, old, new in rows
        if old.verdict is Verdict.PASS and new.verdict is not Verdict.PASS
    ]


def _is_fcntl_call_that_only_waits(it: PlayedEvent) -> bool:
    return f" {TICK.name}({', '.join(TICK.arguments)}) " in it.line


def _without_waits(played: Sequence[PlayedEvent]) -> list[PlayedEvent]:
    return [it for it in played if not _is_fcntl_call_that_only_waits(it)]


def _script_of_events(find: Find, played: Sequence[PlayedEvent]) -> ConfiguredScript:
    header = [EXACT] if find.inputs.is_exact else []
    lines = [*header, *_relative_time_lines(played)]
    return ConfiguredScript(find.inputs.settings, "".join(f"{it}\n" for it in lines).encode("utf-8", "surrogateescape"))


def _relative_time_lines(played: Sequence[PlayedEvent]) -> Iterator[str]:
    """The lines of events, each after a time that counts from the one before."""
    before = 0
    for it in played:
        at = parse_moment(it.moment) or 0
        yield f"{Time(at - before)} {it.line.removeprefix(EXACT).lstrip().partition(' ')[2]}"
        before = at


def _scripts_with_a_wait_joined_to_next_line(best: FinishedScript) -> Iterator[ConfiguredScript]:
    """The script without one line that waits, whose time goes to the next."""
    lines = best.script.octets.decode("utf-8", "surrogateescape").splitlines()
    for place, line in enumerate(lines[:-1]):
        time, _, rest = line.partition(" ")
        then, _, next_rest = lines[place + 1].partition(" ")
        if rest.startswith(f"{TICK.name}(") and time.startswith("+") and then.startswith("+"):
            at = (parse_moment(_strip_plus_and_ensure_decimal_point(time)) or 0) + (
                parse_moment(_strip_plus_and_ensure_decimal_point(then)) or 0
            )
            kept = [*lines[:place], f"{Time(at)} {next_rest}", *lines[place + 2 :]]
            yield replace(best.script, octets="".join(f"{it}\n" for it in kept).encode("utf-8", "surrogateescape"))


def _strip_plus_and_ensure_decimal_point(time: str) -> str:
    """A time with decimals."""
    text = time.removeprefix("+")
    return text if "." in text else f"{text}.0"
