"""Runs a program of this tree once without proofs, as its launcher calls it: run_unproved.py PROGRAM [ARGUMENT..]

A line on standard error says so first. The program is built, if it isn't kept from before, and takes the place of this
process.

Where none can be built and kept, `rt try` runs it: the program's input is read whole before anything is built, then its
two outputs and its status are handed through. Where there are none, a line says why, with what `rt try` printed, and
the status is 2.
"""
from __future__ import annotations

import contextlib
import os
import shlex
import signal
import sys
import tempfile
import time
from pathlib import Path
from typing import NoReturn

import building
import rt_try
import signals
from build_cache import OPTIMISED, PLAIN, find_cached_program_folder_of_first_way

FAULT = 2
BLOCK = 1 << 20
# With one of these a program answers before it reads anything.
HELP = ("--help", "-h")
# The sequence by which a terminal clears a line from the cursor on, and the words shown for each phase of a build.
CLEAR = "\x1b[K"
PHASES = {
    building.WAITING: "another call builds it",
    building.READING: "reading the sources",
    building.COMPILING: "compiling",
    building.LINKING: "linking",
}


class StreamFault(Exception):
    """A fault of the streams, as the program names it."""


def print_message(program: str, text: str) -> None:
    write_all_octets_or_false(2, f"{program}: {text}\n".encode(errors="replace"))


def write_all_octets_or_false(descriptor: int, octets: bytes) -> bool:
    """Writes to a descriptor; whether all was taken."""
    try:
        while octets:
            octets = octets[os.write(descriptor, octets) :]
    except OSError:
        return False
    return True


def prove_command(program: str) -> str:
    """The command that proves a program, as a shell takes it from here."""
    command = shlex.quote(str(rt_try.TOP / "prove"))
    with contextlib.suppress(OSError):
        if rt_try.TOP == Path.cwd():
            command = "./prove"
    return f"{command} {program}"


def check_arguments_are_text(arguments: list[str]) -> None:
    """Checks that the arguments are text: `rt try` takes no others, and no program does."""
    try:
        "".join(arguments).encode()
    except UnicodeEncodeError:
        raise rt_try.NotRunError(rt_try.NoAnswer("NotText", "an argument isn't UTF-8")) from None


def copy_standard_input_cutting_at_limit(file: Path) -> None:
    """Reads standard input into a file, up to more than `rt try` takes."""
    left = rt_try.MOST_INPUT
    with file.open("wb") as kept:
        while left > 0:
            try:
                octets = os.read(0, min(BLOCK, left))
            except OSError:
                raise StreamFault("17 Read") from None
            if not octets:
                return
            kept.write(octets)
            left -= len(octets)


class BuildProgress:
    """Shows on a terminal which phase of a build goes on, and for how long, and clears the line at the end."""

    def __init__(self, program: str) -> None:
        self._program = program
        self._is_shown = False
        self._phase, self._begin = "", 0.0

    def show_phase(self, phase: str) -> None:
        """Shows a phase."""
        if phase != self._phase:
            self._phase, self._begin = phase, time.monotonic()
        if os.isatty(2):
            self._is_shown = True
            seconds = int(time.monotonic() - self._begin)
            write_all_octets_or_false(2, f"\r{CLEAR}{self._program}: unproved: {PHASES[phase]}, {seconds} s".encode())

    def clear_line(self) -> None:
        if self._is_shown:
            write_all_octets_or_false(2, f"\r{CLEAR}".encode())


def announce_and_find_or_build_program_folder(program: str) -> Path:
    """The folder of the programs, which are built if none are kept; a line says first that the program isn't proved."""
    # If both ways are kept, the plain one explains a fault better.
    folder = find_cached_program_folder_of_first_way(rt_try.TOP, (PLAIN, OPTIMISED))
    first = "running without proofs" if folder else "building first, then running without proofs"
    print_message(program, f"unproved: {first}; {prove_command(program)} proves it")
    if folder is not None:
        return folder
    progress = BuildProgress(program)
    try:
        return building.find_or_build(rt_try.TOP, PLAIN, progress.show_phase)
    finally:
        progress.clear_line()


def exec_program_or_raise(program: Path, arguments: list[str]) -> NoReturn:
    """Puts a program in the place of this process, with its streams, and the signals as a shell hands them on."""
    for number in (signal.SIGPIPE, signal.SIGXFSZ):
        signal.signal(number, signal.SIG_DFL)
    for descriptor in range(3):
        os.set_inheritable(descriptor, True)
    os.execv(program, [str(program), *arguments])


def run_by_rt_try(program: str, arguments: list[str]) -> int:
    """Runs the program by `rt try`, and gives the status."""
    with tempfile.TemporaryDirectory(prefix=f"{program}-") as name:
        folder = Path(name)
        given = folder / "input"
        if any(it in HELP for it in arguments):
            given.touch()
        else:
            if os.isatty(0):
                print_message(program, "unproved: reading the input first, up to its end (Ctrl-D)")
            copy_standard_input_cutting_at_limit(given)
        answer = rt_try.run_once(program, [os.fsencode(it) for it in arguments], given, folder)
    if isinstance(answer, rt_try.NoAnswer):
        raise rt_try.NotRunError(answer)
    write_all_octets_or_false(2, answer.errors)
    if not write_all_octets_or_false(1, answer.output):
        raise StreamFault("18 Write")
    return answer.status


def open_closed_streams() -> None:
    """Lets no file that is opened take the place of a standard stream that is closed."""
    for descriptor, flags in ((0, os.O_WRONLY), (1, os.O_RDONLY), (2, os.O_RDONLY)):
        try:
            os.fstat(descriptor)
        except OSError:
            # The wrong way round, so that nothing can be read or written there.
            os.open(os.devnull, flags)


def main() -> int:
    open_closed_streams()
    program, *arguments = sys.argv[1:]
    signals.install_handlers_raising_at_first_signal()
    try:
        rt_try.check_kit_on_path()
        check_arguments_are_text(arguments)
        with contextlib.suppress(building.NoBuild, FileNotFoundError):
            exec_program_or_raise(announce_and_find_or_build_program_folder(program) / program, arguments)
        return run_by_rt_try(program, arguments)
    except building.NotCompiled as refused:
        print_message(program, f"unproved: NotCompiled: {refused}")
        write_all_octets_or_false(2, refused.printed)
    except StreamFault as fault:
        print_message(program, str(fault))
    except rt_try.NotRunError as error:
        print_message(program, f"unproved: {error}")
        write_all_octets_or_false(2, rt_try.printed_lines_with_whole_paths(program, error.reason.printed))
    except OSError as error:
        print_message(program, f"unproved: NoRoom: {error}")
    except signals.StoppedBySignal as signal:
        signals.end_process_by(signal.number)
    return FAULT


if __name__ == "__main__":
    sys.exit(main())
