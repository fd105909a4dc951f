"""Walks a page: runs the commands that it shows, one after another, in a tree."""

import time
from collections.abc import Iterator
from contextlib import ExitStack
from dataclasses import dataclass
from pathlib import Path

from documents.shell import MINUTE, Shell, WatchCommand
from documents.shown import UNHURRIED, WATCH, WATCHED, Shown, is_printed_as_shown, pattern_of_output


@dataclass(frozen=True)
class Step:
    """A command of a page, whether it printed what is shown or else what it printed, and how long it took."""

    shown: Shown
    printed_instead: str | None
    seconds: float


def run_shown_commands_and_yield_each_step(
    steps: list[Shown], tree: Path, seconds: float, is_proved: bool
) -> Iterator[Step]:
    """Runs the commands in order. Where all is proved, those that take the prover are left to who walks without."""
    shell = Shell(tree)
    with ExitStack() as stack:
        watching: WatchCommand | None = None
        for shown in steps:
            if shown.kind in UNHURRIED and is_proved:
                continue
            begin = time.monotonic()
            if shown.kind in WATCHED:
                if shown.command:
                    watching = WatchCommand(shown.command, shell.folder)
                    stack.callback(watching.interrupt)
                patience = MINUTE if shown.kind == WATCH else seconds
                printed_instead = (
                    watching.await_output_or_return_what_came(pattern_of_output(shown.wanted), patience)
                    if watching
                    else "nothing is watched"
                )
            else:
                printed = shell.run(shown.command, seconds)
                printed_instead = None if is_printed_as_shown(shown, printed, is_proved) else printed
            yield Step(shown, printed_instead, time.monotonic() - begin)
