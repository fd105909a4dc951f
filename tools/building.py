"""Builds the programs of a tree without a proof, and keeps what is built: one build serves both programs.

The kit's reader of sources is called as `rt try` calls it, with a toolchain whose compiler keeps the module that it is
handed. Of that module the kit's own compiler and linker make the program, in one of two ways: plain, which is ready
first and reports where it stops, or optimised. No step runs anything of what is built.
"""
from __future__ import annotations

import contextlib
import json
import os
import shutil
import signal
import subprocess
import sys
from pathlib import Path
from typing import Callable

import source_sums
from fault_places import read_modules_by_rattle_path
from build_cache import (
    PLAIN,
    PROGRAMS,
    SUM,
    TOOLS,
    CachedBuild,
    CacheError,
    is_own_folder_closed_to_others,
    cached_build_of_tree_and_kit,
    combined_main_file_path_or_default,
    prune_if_too_large_sparing_recent_and_own,
    sha256_of_program,
)
from kit_tools import NATIVE, BuildKit, UnknownKitError, kit_or_raise_unknown_kit_error, linker_command, reader_command
from kit_tools import optimised_compiler_command, plain_compiler_command

# The program whose main file takes the place of both, and the mark for the modules of its crate.
PROGRAM = "pdrecord"
MODULE = "mod program;"
# The reader's status for sources that don't compile.
REFUSED = 1
GRACE = 10.0
# How often the current phase is noted, in seconds.
TURN = 1.0
READING, COMPILING, LINKING, WAITING = "reading", "compiling", "linking", "waiting"
# A fake of the kit's compiler: keeps the module of the program and the arguments for it, and ends the reader.
COMPILER = """#!/bin/sh
for word; do
    if [ "$word" = -fsanitize=address ]; then
        printf '%s\\n' "$@" >"{folder}/arguments" && ln module.bc "{folder}/module.bc"
        exit 1
    fi
done
exec "{compiler}" "$@"
"""
# Called for each phase as it begins, and then about each second.
Note = Callable[[str], None]


class NotCompiled(Exception):
    """That the sources don't compile, with the compiler's messages, in octets."""

    def __init__(self, printed: bytes) -> None:
        super().__init__("the program doesn't compile")
        self.printed = printed


class NoBuild(Exception):
    """That nothing can be built or kept here, and why; `rt try` may run the program still."""


def find_or_build(top: Path, way: str, note: Note) -> Path:
    """The folder of both programs of a tree, built in this way, if need be now; a note comes with each phase."""
    try:
        kit = kit_or_raise_unknown_kit_error()
        kept = cached_build_of_tree_and_kit(top, kit)
        if (found := kept.find_intact_program_folder_and_mark_used(way)) is not None:
            return found
        with kept.lock_for_building(lambda: note(WAITING)):
            found = kept.find_intact_program_folder_and_mark_used(way) or build_beside_and_move_into_cache(
                kept, kit, top, way, note
            )
        prune_if_too_large_sparing_recent_and_own(kept.folder.parent, kept.folder)
        return found
    except (UnknownKitError, CacheError, source_sums.Unreadable, OSError) as error:
        raise NoBuild(str(error)) from error


def build_beside_and_move_into_cache(kept: CachedBuild, kit: BuildKit, top: Path, way: str, note: Note) -> Path:
    """Builds in a folder beside, and puts what is whole in its place."""
    for left in kept.folder.parent.glob(f"{kept.folder.name}.*.part"):
        shutil.rmtree(left, ignore_errors=True)
    folder = kept.folder.with_name(f"{kept.folder.name}.{os.getpid()}.part")
    folder.mkdir(mode=0o700)
    try:
        if not has_module_matching_its_checksum(kept.folder):
            read_sources_by_kit_into_cache_entry_folder(kit, top, folder, note)
            shutil.rmtree(kept.folder, ignore_errors=True)
            (folder / "entry").rename(kept.folder)
        compile_and_link(kit, kept.folder, folder, way, note)
        shutil.rmtree(kept.folder / way, ignore_errors=True)
        (folder / way).rename(kept.folder / way)
    finally:
        shutil.rmtree(folder, ignore_errors=True)
    found = kept.find_intact_program_folder_and_mark_used(way)
    if found is None:
        raise NoBuild("what was built isn't there")
    return found


def has_module_matching_its_checksum(entry: Path) -> bool:
    """Whether the module of a build is there as it was put there."""
    try:
        return (
            is_own_folder_closed_to_others(entry)
            and sha256_of_program(entry / "module.bc") == (entry / SUM).read_text()
        )
    except OSError:
        return False


def read_sources_by_kit_into_cache_entry_folder(kit: BuildKit, top: Path, folder: Path, note: Note) -> None:
    """Reads the sources of a tree, and leaves in the folder `entry` all that programs are made of later."""
    tree, toolchain, entry = folder / "tree", folder / "toolchain", folder / "entry"
    make_combined_tree(top, tree)
    make_toolchain_whose_compiler_keeps_module(kit, toolchain, folder)
    (folder / "temporary").mkdir()
    command = reader_command(kit, tree, PROGRAM, toolchain)
    status, printed = run_with_callback_each_second_giving_stderr(
        command, tree / "crates" / PROGRAM, folder / "temporary", lambda: note(READING)
    )
    if not (folder / "module.bc").exists():
        refused = rewrite_message_paths_to_built_tree(printed, tree, top)
        # This tree's main file may not fit the crates of another one, an older one, say.
        if status == REFUSED and not (
            lacks_own_combined_main_file(top) and os.fsencode(combined_main_file_path_or_default(top)) in refused
        ):
            raise NotCompiled(refused)
        raise NoBuild(f"the kit's reader ended with status {status}")
    entry.mkdir(mode=0o700)
    (folder / "module.bc").rename(entry / "module.bc")
    (folder / "arguments").rename(entry / "arguments")
    (entry / "places.json").write_text(json.dumps(read_modules_by_rattle_path(tree)))
    shutil.copy(TOOLS / "report_fault.py", entry)
    (entry / SUM).write_text(sha256_of_program(entry / "module.bc"))


def lacks_own_combined_main_file(top: Path) -> bool:
    """Whether a tree has no main file for both programs, and so takes this tree's."""
    return combined_main_file_path_or_default(top) != top / "tools" / "combined.rattle"


def make_combined_tree(top: Path, tree: Path) -> None:
    """Puts into a folder what is read of a tree, with the main file of both programs."""
    for crate in (it for name in PROGRAMS for it in source_sums.crate_and_libraries(str(top), name)):
        shutil.copytree(top / "crates" / crate / "src", tree / "crates" / crate / "src", dirs_exist_ok=True)
    sources = tree / "crates" / PROGRAM / "src"
    modules = sorted(it.stem for it in sources.glob("*.rt") if it.stem != "main")
    # On one line, so that each line keeps its number.
    declared = " ".join(f"mod {it};" for it in modules)
    (sources / "main.rt").write_text(combined_main_file_path_or_default(top).read_text().replace(MODULE, declared))
    (tree / source_sums.TABLE).write_text(
        crates_txt_with_libraries_of_both_programs((top / source_sums.TABLE).read_text())
    )


def crates_txt_with_libraries_of_both_programs(table: str) -> str:
    """A crates.txt in which the one program stands on what the other one does, too.

    >>> crates_txt_with_libraries_of_both_programs("low:\\npdregress may_wait=1: low a # so\\npdrecord: low b\\n")
    'low:\\npdregress may_wait=1: low a # so\\npdrecord: low b low a'
    """
    lines = table.splitlines()
    heads = {it.partition(":")[0].split()[0]: it for it in lines if it.partition("#")[0].partition(":")[0].split()}
    other = heads.get(PROGRAMS[0], "").partition("#")[0].partition(":")[2].strip()
    own = heads.get(PROGRAM, "")
    return "\n".join(f"{it.partition('#')[0].rstrip()} {other}" if it == own else it for it in lines)


def make_toolchain_whose_compiler_keeps_module(kit: BuildKit, toolchain: Path, folder: Path) -> None:
    """Puts into a folder the toolchain that the reader is given."""
    (toolchain / "bin").mkdir(parents=True)
    (toolchain / "lib").symlink_to(kit.compiler.parents[1] / "lib")
    for name in ("ld.lld", "llvm-ar"):
        (toolchain / "bin" / name).symlink_to(kit.compiler.with_name(name))
    compiler = toolchain / "bin" / "clang"
    compiler.write_text(COMPILER.format(folder=folder, compiler=kit.compiler))
    compiler.chmod(0o700)


def rewrite_message_paths_to_built_tree(printed: bytes, tree: Path, top: Path) -> bytes:
    """The compiler's messages, with the places in the tree that is built."""
    own = os.fsencode(top / "crates" / PROGRAM)
    lines = (own + b"/" + it if it.startswith((b"src/", b"specs/")) else it for it in printed.split(b"\n"))
    printed = b"\n".join(lines).replace(os.fsencode(tree), os.fsencode(top))
    return printed.replace(own + b"/src/main.rt", os.fsencode(combined_main_file_path_or_default(top)))


def compile_and_link(kit: BuildKit, entry: Path, folder: Path, way: str, note: Note) -> None:
    """Makes the program of a module in one way, by its two names and with its checksum."""
    made_folder, module, handler = folder / way, folder / "module.o", folder / "handler.o"
    made_folder.mkdir(mode=0o700)
    given = (entry / "arguments").read_text().splitlines()
    (folder / "module.bc").unlink(missing_ok=True)
    (folder / "module.bc").symlink_to(entry / "module.bc")
    command = plain_compiler_command(kit, given) if way == PLAIN else optimised_compiler_command(kit, given)
    run_kit_tool_or_raise_no_build(command, folder, lambda: note(COMPILING))
    run_kit_tool_or_raise_no_build(fault_handler_compile_command(kit, handler), folder, lambda: note(COMPILING))
    first, *others = (made_folder / it for it in PROGRAMS)
    run_kit_tool_or_raise_no_build(linker_command(kit, (module, handler), first), folder, lambda: note(LINKING))
    for other in others:
        os.link(first, other)
    (made_folder / SUM).write_text(sha256_of_program(first))


def fault_handler_compile_command(kit: BuildKit, made_file: Path) -> list[str]:
    """The command that compiles the handler of faults."""
    python = f'-DPYTHON="{sys.executable}"'
    options = [*NATIVE, "-O1", "-fPIE", "-ffreestanding", "-fno-omit-frame-pointer", python]
    return [str(kit.compiler), *options, "-c", "-x", "c", str(TOOLS / "fault_handler.c"), "-o", str(made_file)]


def run_kit_tool_or_raise_no_build(command: list[str], folder: Path, turn: Callable[[], None]) -> None:
    """Runs a tool of the kit that has to do its work."""
    status, printed = run_with_callback_each_second_giving_stderr(command, folder, folder, turn)
    if status:
        lines = printed.decode(errors="replace").split("\n")
        raise NoBuild(f"{Path(command[0]).name} ended with status {status}: {lines[0]}")


def run_with_callback_each_second_giving_stderr(
    command: list[str], folder: Path, temporary: Path, turn: Callable[[], None]
) -> tuple[int, bytes]:
    """Runs a command in a session of its own, with a turn at first and after each second; its status and error text.

    Whatever ends this, ends all of it.
    """
    process = subprocess.Popen(
        command,
        cwd=folder,
        stdin=subprocess.DEVNULL,
        stdout=subprocess.DEVNULL,
        stderr=subprocess.PIPE,
        env={**os.environ, "TMPDIR": str(temporary)},
        start_new_session=True,
    )
    try:
        while True:
            turn()
            with contextlib.suppress(subprocess.TimeoutExpired):
                _, printed = process.communicate(timeout=TURN)
                return process.returncode, printed
    finally:
        terminate_then_kill_process_session(process)


def terminate_then_kill_process_session(process: subprocess.Popen[bytes]) -> None:
    """Ends a session, if it hasn't ended."""
    for number in (signal.SIGTERM, signal.SIGKILL):
        if process.poll() is None:
            with contextlib.suppress(ProcessLookupError):
                os.killpg(process.pid, number)
            with contextlib.suppress(subprocess.TimeoutExpired):
                process.wait(GRACE)
