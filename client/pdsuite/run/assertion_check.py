"""Which assertions of imported scripts hold, as a recording shows it. No verdict depends on it."""

from collections import Counter
from collections.abc import Callable, Iterator
from typing import TYPE_CHECKING

from pdsuite.output.octets import printable_path
from pdsuite.programs.recorder import Recorder
from pdsuite.run.outcomes import ScriptOutcome
from pdsuite.run.run_batches import SettledPiece
from pdsuite.scripts.defaults import DEFAULTS
from pdsuite.scripts.text import ScriptText
from pdsuite.signals import Stop

if TYPE_CHECKING:
    from pdsuite.imports.assertion_checks import CheckedAssertion

_MARK = b"// asserts "


class AssertionCheck:
    """The scripts of a run that have assertions; `note` gets a line for one that can't be recorded."""

    def __init__(self, stop: Stop, note: Callable[[str], None]) -> None:
        self._recorder = Recorder(stop, note)
        self._asserting: dict[int, tuple[ScriptOutcome, ScriptText]] = {}

    def store_scripts_with_assertions(self, step: SettledPiece) -> None:
        """Keeps the scripts of a piece that have assertions."""
        texts = {index: it for index, it in step.texts.items() if it.octets.find(_MARK) >= 0}
        if texts:
            asserting = [it for it in step.outcomes if it[0].index in texts]
            self._asserting.update((script.index, (outcome, texts[script.index])) for script, outcome in asserting)

    def failed_assertion_lines_and_counts(self) -> Iterator[str]:
        """A line for each assertion that doesn't hold, in the order of paths, and their count."""
        counts: Counter[bool | None] = Counter()
        for _, (outcome, text) in sorted(self._asserting.items()):
            compared = self._checked_assertions_after_recording(outcome, text)
            counts.update(it.holds for it in compared)
            yield from (f"{printable_path(outcome.path)}: {it}" for it in compared if it.holds is False)
        if counts:
            yield (
                f"assertions {counts.total()} hold {counts[True]} don't hold {counts[False]}"
                f" not compared {counts[None]}"
            )

    def _checked_assertions_after_recording(self, outcome: ScriptOutcome, text: ScriptText) -> list["CheckedAssertion"]:
        # Only who has assertions pays for what reads scripts.
        from pdsuite.imports.assertion_checks import check_assertions

        script = text.octets.decode("utf-8", "surrogateescape")
        recording = self._recorder.record_script_or_return_and_note_reason(
            outcome.path, text.octets, outcome.settings
        ).text
        mss = {**DEFAULTS, **dict(outcome.settings)}["mss"]
        return check_assertions(script, recording, outcome.row.line, mss if isinstance(mss, int) else 0)
