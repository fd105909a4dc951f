"""Serves a client on standard input and output: waits for messages, for saves and for the ends of programs."""

import gc
import os
import select
import sys
import time
from collections.abc import Iterator
from contextlib import ExitStack, contextmanager
from math import inf
from typing import BinaryIO

from pdsuite.faults import Fault
from pdsuite.lsp.features import LanguageFeatures, SenderSession
from pdsuite.lsp.open_settings import OpenSettings
from pdsuite.lsp.queries import ProgramQueries
from pdsuite.lsp.server import FAILED, Server, first_root_or_working_folder
from pdsuite.lsp.transport import Transport
from pdsuite.lsp.workspace import Workspace
from pdsuite.programs.locate import RECORD, REGRESS
from pdsuite.programs.lookup import (
    SenderChangedError,
    find_client_or_launcher_tree_if_buildable,
    client_programs_lookup,
)
from pdsuite.scripts.config import every_claim_of_layers, layer_of_option
from pdsuite.signals import Stop, StoppedError
from pdsuite.watch.folders import Folders, WatchChoice
from pdsuite.watch.live_pool import LivePool
from pdsuite.watch.refused_proof import RefusedProof
from pdsuite.watch.sender import SenderFollower
from pdsuite.watch.watcher import Watcher

# After so many seconds without a message, the loop does what can wait.
_QUIET = 0.5
# A look at folders or programs that is due waits no longer than this for a pause.
_PATIENCE = 2.0
# So often the loop looks for programs that aren't there.
_AGAIN = 10.0
# So often it is looked at whether another sender stands, whatever is reported: that takes longer than an answer may.
_LOOK = 1.0
# Why nothing was run, where a sender can be built.
_NOT_BUILT, _BUILT_NOW = "the sender isn't built", "the sender is being built"
# Garbage is looked for at rest, where so many objects came since, as a look takes longer than an answer may.
_MANY = 10_000


class EventLoop:
    """A server with what it holds open, until the client ends it."""

    def __init__(self, settings: str, stop: Stop) -> None:
        self._settings = settings
        self._stop = stop
        self._held = ExitStack()
        self._watcher: Watcher | None = None
        self._server = Server(self._start_session_in_place_of_former)
        self._follower = SenderFollower(
            client_programs_lookup(REGRESS, RECORD), (REGRESS, RECORD), find_client_or_launcher_tree_if_buildable()
        )
        self._sources = Watcher()
        self._proof = RefusedProof(self._follower.tree)
        self._looked_at = -inf

    def serve(self, source: BinaryIO, target: BinaryIO) -> int:
        """Serves until the client says `exit` or goes away; the exit status."""
        transport = Transport(source, target, self._server.message_handlers())
        self._server.attach_transport(transport)
        try:
            while True:
                transport.dispatch_messages_noting_end()
                if self._server.status is not None:
                    return self._server.status
                if transport.is_at_end:
                    return FAILED
                try:
                    self._rerun_publish_and_answer_due()
                except SenderChangedError:
                    self._looked_at = -inf
                    continue  # the next look says what stands
                self._wait_for_work_tidying_at_rest(transport)
                self._stop.raise_if_stopped()
        finally:
            for drawn in self._server.pages.values():
                drawn.close()
            self._held.close()
            self._follower.close()

    def _look_at_sender_and_switch_session_if_due(self) -> None:
        """Looks at which sender stands, where a file of it may have changed: as reported, and from time to time."""
        events, now = self._sources.read_events(), time.monotonic()
        server, follower = self._server, self._follower
        is_due = now >= self._next_sender_look_moment(now) or self._has_build_output()
        if not server.is_ready or not (events or is_due):
            return
        self._looked_at = now
        has_changed = follower.update_returning_if_sender_or_reason_changed(now)
        self._sources.watch_folders_or_return_limit(follower.folders_to_watch())
        if server.session is None or has_changed and follower.sender != server.session.sender:
            self._begin_session_or_await_build()
        self._proof.reread_lines_returning_whether_changed()
        server.sender_status.show_changed_sender_status(follower, self._proof.lines, server.session is not None)

    def _begin_session_or_await_build(self) -> None:
        """Begins with the sender that answers now; where none does and one can be built, waits for that."""
        if self._follower.sender is None and self._follower.tree is not None:
            self._server.drop_session_until_sender_is_built(self._reason_without_sender())
        else:
            self._server.begin_session_or_show_fault_once()

    def _reason_without_sender(self) -> str:
        """Why no sender answers."""
        if self._follower.tree is None:
            return self._follower.reason
        return _NOT_BUILT if self._follower.failure else _BUILT_NOW

    def _next_sender_look_moment(self, now: float) -> float:
        """The moment of the next look, whatever is reported."""
        period = _AGAIN if self._server.session is None else _LOOK
        return min(self._looked_at + period, max(self._follower.next_look_moment(self._looked_at), self._looked_at))

    def _has_build_output(self) -> bool:
        """Whether a build has something to say."""
        poll = select.poll()
        for file in self._follower.build_output_filenos():
            poll.register(file, select.POLLIN)
        return bool(poll.poll(0))

    def _rerun_publish_and_answer_due(self) -> None:
        """Does what is due: runs, answers and pages."""
        server = self._server
        self._look_at_sender_and_switch_session_if_due()
        now = time.monotonic()
        server.rerun_and_publish(
            [] if self._watcher is None else self._watcher.read_events(), now, now >= self._next_folder_look_moment()
        )
        server.open_drawn_pages()
        while not (server.transport.has_messages or server.are_results_behind_texts) and server.answer_next_request():
            pass

    def _wait_for_work_tidying_at_rest(self, transport: Transport) -> None:
        """Waits until there is something to do; at rest, does what can wait."""
        session = self._server.session
        if (
            self._poll_until_moment_and_has_work(
                transport, min(self._next_folder_look_moment(), time.monotonic() + _QUIET)
            )
            or session is None
        ):
            return
        session.workspace.restart_runs_with_long_histories()
        if gc.get_count()[0] > _MANY:
            gc.collect()
        self._poll_until_moment_and_has_work(transport, session.workspace.next_look_moment())

    def _next_folder_look_moment(self) -> float:
        """When folders are looked at, or programs: a look takes longer than an answer may, so it waits for a pause."""
        session = self._server.session
        if session is None:
            return self._next_sender_look_moment(time.monotonic())
        due = session.workspace.next_look_moment()
        return max(due, min(self._server.transport.received_at + _QUIET, due + _PATIENCE))

    def _poll_until_moment_and_has_work(self, transport: Transport, until: float) -> bool:
        poll = select.poll()
        watcher = None if self._watcher is None else self._watcher.fileno()
        program_files = (
            [] if self._server.session is None else self._server.session.workspace.filenos_of_running_programs()
        )
        drawn = [it.fileno() for it in self._server.pages.values()]
        ours = (self._stop.fileno(), self._sources.fileno(), *self._follower.build_output_filenos())
        for file in (transport.fileno(), watcher, *ours, *program_files, *drawn):
            if file is not None:
                poll.register(file, select.POLLIN)
        if transport.has_messages or self._server.are_results_behind_texts:
            return True
        return bool(poll.poll(max(0.0, until - time.monotonic()) * 1_000))

    def _start_session_in_place_of_former(self, server: Server) -> SenderSession:
        """Starts what serves by the sender in place of what did; a fault where none is there."""
        self._held.close()
        self._follower.update_returning_if_sender_or_reason_changed(time.monotonic())
        if (sender := self._follower.sender) is None:
            raise Fault(self._reason_without_sender())
        queries = ProgramQueries(sender, self._stop, server.log_line)
        option = layer_of_option(self._settings)
        if lines := queries.refusal_lines_of_settings_claims(list(every_claim_of_layers([option]))):
            raise Fault("; ".join(lines))
        self._watcher = self._held.enter_context(_Unwatched() if server.client.watches else Watcher())
        settings = OpenSettings(option, lambda claims: queries.refusal_lines_of_settings_claims(list(claims)))
        pool = self._held.enter_context(
            LivePool(queries.start_explaining_run_that_stays_up, server.log_line, lambda doing: None)
        )
        folders = Folders(WatchChoice(server.client.roots, ()), settings, self._watcher, self._stop, server.log_line)
        home = first_root_or_working_folder(server.client)
        return SenderSession(
            Workspace(folders, settings, pool, home, sender.require_unchanged), LanguageFeatures(queries), sender
        )


class _Unwatched(Watcher):
    """Watches nothing, where the client says what changes; what it doesn't say is found by looking."""

    def watch_folders_or_return_limit(self, folders: object) -> None:
        """Nothing."""


def serve(settings: str) -> int:
    """Serves a client, and answers the exit status."""
    gc.disable()
    with Stop() as stop, _protocol_streams_with_stdout_to_stderr() as (source, target):
        try:
            return EventLoop(settings, stop).serve(source, target)
        except StoppedError as stopped:
            return stopped.status


@contextmanager
def _protocol_streams_with_stdout_to_stderr() -> Iterator[tuple[BinaryIO, BinaryIO]]:
    """Standard input and output; whatever else is printed goes to standard error."""
    sys.stdout.flush()
    target = os.fdopen(os.dup(1), "wb")
    os.dup2(2, 1)
    # Not closed at the end, since a thread may be reading.
    yield os.fdopen(os.dup(0), "rb"), target
