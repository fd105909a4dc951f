"""The programs of a command where none are proved: a build of the tree as it stands, made now if none is kept."""

import shlex
from collections.abc import Callable
from contextlib import suppress
from pathlib import Path

from pdsuite.output.octets import printable_path
from pdsuite.output.screen import Screen
from pdsuite.programs.build import BuildMode, NoKeptBuildError, build_if_needed_and_get_folder, find_kept_build
from pdsuite.programs.locate import BATCH_TOOL, TOP, UnprovedError, locate_given_or_proved_program, use_programs_folder
from pdsuite.signals import Stop

_PHASES = {
    "waiting": "another call builds them",
    "reading": "reading the sources",
    "compiling": "compiling",
    "linking": "linking",
}


def proved_or_built_program(name: str, stop: Stop, screen: Screen) -> Path:
    """The program of this name: the proved one, or that of a build, which is reported first.

    Raises UnprovedError where there is neither.
    """
    try:
        return locate_given_or_proved_program(name)
    except UnprovedError:
        if not (BATCH_TOOL.is_file() and use_kept_or_new_build_if_possible("plain", stop, screen)):
            raise
    return locate_given_or_proved_program(name)


def use_kept_or_new_build_if_possible(way: BuildMode, stop: Stop, screen: Screen) -> bool:
    """Has the programs of this call be a build of the tree as it stands; whether there can be one.

    A line says first that they aren't proved, and on a terminal another one how far the build is.
    """
    folder = find_kept_build(TOP, way)
    screen.print_note_on_stderr(f"pdsuite: {unproved_notice(folder is not None)}")
    try:
        use_programs_folder(folder or build_if_needed_and_get_folder(TOP, way, stop, build_progress_printer(screen)))
    except NoKeptBuildError:
        return False
    finally:
        screen.clear_live_lines()
    return True


def build_progress_printer(screen: Screen, of: str = "") -> Callable[[str, float], None]:
    """Makes the note that keeps a line at the bottom of a terminal: the phase of a build, and its seconds so far."""
    return lambda phase, seconds: screen.keep_bottom_line(
        f"building{of}: {_PHASES.get(phase, phase)}, {int(seconds)} s"
    )


def unproved_notice(is_kept: bool) -> str:
    """The notice before a sender is run that isn't proved, and of which a build is kept or not."""
    doing = "running without proofs" if is_kept else "building first, then running without proofs"
    return f"unproved: {doing}; {_prove_command()} proves the programs"


def _prove_command() -> str:
    """The command that proves the programs of this tree, as it is written from here, for a shell."""
    with suppress(OSError):
        if Path.cwd() == TOP:
            return "./prove"
    return shlex.quote(printable_path(TOP / "prove"))
