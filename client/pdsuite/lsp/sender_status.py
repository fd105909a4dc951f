"""Shows a client how the sender stands: that it changed, what is built or refused, and which scripts it turned."""

from collections.abc import Callable, Sequence
from pathlib import PurePath

from pdsuite.compare.comparison import ComparedScript
from pdsuite.lsp.json_values import Json
from pdsuite.lsp.source_diagnostics import SourceDiagnostics
from pdsuite.output.octets import printable_path
from pdsuite.reports.comparison import compared_script_lines
from pdsuite.run.outcomes import UNPROVED
from pdsuite.watch.change_report import BEFORE
from pdsuite.watch.sender import SenderFollower

Notify = Callable[[str, object], None]

_WARNING, _INFO = 2, 3
_TOKEN = "pdsuite-build"
_PROGRESS = "$/progress"
# With what an editor puts before and after them they fit into a line of 80 columns.
_FIRST = "unproved: the sender is being built"
_LEFT = "the sender has changed: rows are old"
_MOST = 3
# Of a refusal so many lines are shown: what is refused, and the first place.
_FIRST_LINES = 2


class SenderStatus:
    """The status that was shown last. `notify` sends the client a notification, and `request` a request."""

    def __init__(self, notify: Notify, request: Notify) -> None:
        self.takes_progress = False
        self._notify = notify
        self._request = request
        self._mark = ""
        self._is_anew = False
        self._phase = ""
        self._refusals: tuple[tuple[str, ...], ...] = ()
        self._faults = SourceDiagnostics(notify)
        self._was_first_shown = False

    @property
    def unproved_or_stale_sender_mark(self) -> str:
        """The mark beside every result, where its sender isn't proved, or doesn't stand any more."""
        return self._mark

    @property
    def are_all_results_of_former_sender(self) -> bool:
        """Whether all results are of a sender that doesn't stand any more."""
        return self._mark == BEFORE

    def take_resend_flag(self) -> bool:
        """Whether all has to be sent again, since something else is shown beside it; true at one call alone."""
        was, self._is_anew = self._is_anew, False
        return was

    def show_changed_sender_status(self, follower: SenderFollower, proof: Sequence[str], is_running: bool) -> None:
        """Shows what is other than it was shown last; `proof` has the lines of a refused proof."""
        mark = ""
        if follower.sender is not None:
            mark = BEFORE if follower.reason else "" if follower.sender.is_proved else f" {UNPROVED}"
        if mark != self._mark:
            self._mark, self._is_anew = mark, True
            if mark == BEFORE and is_running:
                self._show_message(_WARNING, _LEFT)
        if follower.build_phase and not self._was_first_shown and not is_running:
            self._was_first_shown = True
            self._show_message(_INFO, _FIRST)
        self._show_build_progress(follower.build_phase)
        self._show_build_and_proof_refusals((follower.failure, tuple(proof)))

    def show_turned_scripts(self, scripts: Sequence[ComparedScript]) -> None:
        """Shows which scripts another sender turned: their names at once, and in the log all of it."""
        if not scripts:
            return
        names = ", ".join(printable_path(PurePath(it.path).name) for it in scripts[:_MOST])
        more = f" and {len(scripts) - _MOST} more" if len(scripts) > _MOST else ""
        self._show_message(_INFO, f"the sender turned {names}{more}")
        for it in scripts:
            words = "\n".join(
                [f"{printable_path(it.path)}: {it.kind}", *(f"  {line}" for line in compared_script_lines(it))]
            )
            self._notify("window/logMessage", {"type": _INFO, "message": words})

    def _show_build_progress(self, phase: str) -> None:
        """Shows what is built as work that goes on, where the client does."""
        if phase == self._phase:
            return
        before, self._phase = self._phase, phase
        if not self.takes_progress:
            return
        if not before:
            self._request("window/workDoneProgress/create", {"token": _TOKEN})
        kind = "end" if not phase else "report" if before else "begin"
        value: Json = {"kind": kind}
        if kind == "begin":
            value |= {"title": "pdsuite", "cancellable": False}
        if phase:
            value |= {"message": phase}
        self._notify(_PROGRESS, {"token": _TOKEN, "value": value})

    def _show_build_and_proof_refusals(self, refusals: tuple[tuple[str, ...], ...]) -> None:
        """Shows why the sender isn't built or proved, as messages and at the places named; or takes that back."""
        if refusals == self._refusals:
            return
        before, self._refusals = self._refusals, refusals
        self._faults.publish_changed_source_diagnostics([line for each in refusals for line in each])
        for it in refusals:
            if it and it not in before:
                self._show_message(_WARNING, "\n".join(it[:_FIRST_LINES]))
                self._notify("window/logMessage", {"type": _WARNING, "message": "\n".join(it)})

    def _show_message(self, kind: int, words: str) -> None:
        self._notify("window/showMessage", {"type": kind, "message": f"pdsuite: {words}"})
