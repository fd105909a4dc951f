"""`pdsuite watch`: keeps runs of the program up, and shows what each change of the files does."""

import shlex
from collections.abc import Sequence
from contextlib import AbstractContextManager, ExitStack, nullcontext
from dataclasses import dataclass
from pathlib import Path
from tempfile import TemporaryDirectory
from typing import TYPE_CHECKING

from pdsuite.commands.options import thread_count_or_one_per_processor
from pdsuite.compare.senders import sender_of_folder_or_checked_out_commit
from pdsuite.faults import Fault
from pdsuite.output.octets import printable_text
from pdsuite.output.screen import Screen, print_line_on_stderr
from pdsuite.page.diagram_choice import diagram_choice_with_defaults
from pdsuite.programs.build import build_if_needed_and_get_folder, find_kept_build
from pdsuite.programs.locate import RECORD, REGRESS
from pdsuite.programs.lookup import find_client_or_launcher_tree_if_buildable, client_programs_lookup
from pdsuite.programs.unproved_programs import build_progress_printer, unproved_notice
from pdsuite.run.collect import INPUT
from pdsuite.scripts.config import layer_of_option
from pdsuite.signals import Stop, StoppedError
from pdsuite.watch.change_report import ChangeReport
from pdsuite.watch.folders import WatchChoice
from pdsuite.watch.sender import WAY, SenderFollower
from pdsuite.watch.session import Session, SessionSettingsError, WatchedSuite
from pdsuite.watch.turned_scripts import BaseSender
from pdsuite.watch.view import View

if TYPE_CHECKING:
    from pdsuite.page.page_updates import PageUpdates

_WIDTH = 80


@dataclass(frozen=True)
class WatchOptions:
    """The options of a call: which scripts, how they are run and shown, and against which sender."""

    paths: Sequence[Path]
    only: Sequence[str]
    settings: str
    strict: bool
    workers: int | None
    html: Path | None
    plot: str | None
    plots: int | None
    verbose: bool
    base: str | None


def watch_scripts(options: WatchOptions, screen: Screen) -> int:
    """Watches until a signal comes, and answers the exit status of the last report."""
    if INPUT in options.paths:
        raise Fault(f"{INPUT}: standard input is read once, and nothing of it is watched")
    option = layer_of_option(options.settings)
    choice = WatchChoice(options.paths, options.only, options.strict)
    with Stop() as stop, ExitStack() as held:
        view = View(
            screen, None, options.verbose, _terminal_or_plain_change_report(options, screen), options.html is not None
        )
        try:
            tree = find_client_or_launcher_tree_if_buildable()
            follower = held.enter_context(SenderFollower(client_programs_lookup(REGRESS, RECORD), (REGRESS,), tree))
            follower.update_returning_if_sender_or_reason_changed(0.0)
            if follower.sender is None:
                _require_tree_and_print_unproved_notice(follower, tree, screen)
            page = held.enter_context(_page_updates_or_null_context(options, screen))
            base = _build_base_sender_if_requested(
                options, Path(held.enter_context(TemporaryDirectory(prefix="pdsuite-"))), screen, stop
            )
            watched = WatchedSuite(choice, option, base)
            Session(watched, view, screen, follower, page, stop, held).follow_changes()
        except SessionSettingsError as refused:
            lines = refused.lines
        except StoppedError as stopped:
            return (
                stopped.status
                if view.last_exit_status_with_outdated_as_fault is None
                else view.last_exit_status_with_outdated_as_fault
            )
    for line in lines:
        print_line_on_stderr(line)
    return 2


def _require_tree_and_print_unproved_notice(follower: SenderFollower, tree: Path | None, screen: Screen) -> None:
    """Says that the sender isn't proved; a fault where none can be built."""
    if tree is None:
        raise Fault(follower.reason)
    screen.print_note_on_stderr(f"pdsuite: {unproved_notice(find_kept_build(tree, WAY) is not None)}")


def _build_base_sender_if_requested(options: WatchOptions, room: Path, screen: Screen, stop: Stop) -> BaseSender | None:
    """The sender against which turned scripts are compared, built now where that has to be."""
    if options.base is None:
        return None
    sender = sender_of_folder_or_checked_out_commit(options.base, "--base", room / "base")
    if sender.programs is None:
        folder = find_kept_build(sender.asserted_tree_to_build, WAY) or build_if_needed_and_get_folder(
            sender.asserted_tree_to_build, WAY, stop, build_progress_printer(screen, f" {sender.name}")
        )
        programs = (folder / REGRESS, folder / RECORD)
        return BaseSender(
            programs, thread_count_or_one_per_processor(options.workers), stop, screen.print_note_on_stderr
        )
    return BaseSender(
        (sender.programs[REGRESS], sender.programs.get(RECORD)),
        thread_count_or_one_per_processor(options.workers),
        stop,
        screen.print_note_on_stderr,
    )


def _terminal_or_plain_change_report(options: WatchOptions, screen: Screen) -> ChangeReport:
    """How changes are reported: on a terminal a few of them."""
    if screen.terminal_columns_if_any is None:
        return ChangeReport()
    # Only who watches on a terminal pays for what breaks lines.
    from pdsuite.watch.terminal_report import TerminalReport

    words = ["pdsuite", "run", *(["--strict"] if options.strict else [])]
    words += [word for it in options.only for word in ("--only", it)]
    words += ["--settings", options.settings] if options.settings else []
    paths = list(map(str, options.paths))
    end = ["--"] if any(it.startswith("-") for it in paths) else []
    return TerminalReport(
        lambda: screen.terminal_columns_if_any or _WIDTH, printable_text(shlex.join([*words, *end, *paths]))
    )


def _page_updates_or_null_context(
    options: WatchOptions, screen: Screen
) -> "AbstractContextManager[PageUpdates | None]":
    """The page, if one is requested."""
    if options.html is None:
        return nullcontext()
    from pdsuite.page.page_updates import PageUpdates

    return PageUpdates(
        options.html, diagram_choice_with_defaults(options.plot, options.plots), screen.print_note_on_stderr
    )
