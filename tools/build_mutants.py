#!/usr/bin/env -S python3 -B
"""Builds the sender of a tree with all of its mutants, without proofs, or finds what was built before and is kept:

build_mutants.py [--tree FOLDER]

Standard output has a line for each phase as it begins, as build_unproved.py has it, and last `built FOLDER`. There lie
the programs, in which a number chooses a mutant, or with 0 none, and `mutants.json`: each mutant with its number, the
rules that it breaks, and what is wrong; those that can't be built, and why; and the place of the number in a program,
of 4 octets, the least first. Mutants that break no rule of the sender are left out.

Where the sender itself doesn't compile, standard error has a line `unproved: NotCompiled: ..` and below it what the
compiler says, and the status is 2. It is 2, too, with a line `unproved: BadMutant: ..` where a mutant can't be read, or
names no rule or an unknown one. Where nothing can be built or kept so, the line is `unproved: NoBuild: ..` and the
status is 3.
"""
from __future__ import annotations

import argparse
import json
import os
import re
import shutil
import sys
from collections.abc import Mapping
from hashlib import sha256
from pathlib import Path
from typing import NoReturn

import building
import signals
import source_sums
from build_cache import (
    PLAIN,
    PROGRAMS,
    SUM,
    TOOLS,
    CachedBuild,
    CacheError,
    build_key_of_tree_and_kit,
    make_user_or_tree_folder_of_builds,
    prune_if_too_large_sparing_recent_and_own,
    sha256_of_program,
)
from build_unproved import FAULT, NO_BUILD, TOP, Phases
from kit_tools import (
    BuildKit,
    UnknownKitError,
    kit_or_raise_unknown_kit_error,
    linker_command,
    optimised_compiler_command,
    plain_compiler_command,
)
from mutant_bodies import CHOOSER, apply_all_mutants
from mutant_files import MutantError
from mutant_rules import SenderMutant, read_sender_mutants

WAY = "mutants"
LIST = "mutants.json"
MADE_BY = ("build_mutants.py", "mutant_bodies.py", "mutant_rules.py", "mutant_files.py")
# Where the number stands in the program: after these three.
_MARK = (0x7069F1A7, 0x5EED0B06, 0x1DE7EC7A)
_GLOBAL = f"@{CHOOSER} = global [4 x i32] [{', '.join(f'i32 {it}' for it in _MARK)}, i32 0]\n"
_LOADS = (
    f"  %at = getelementptr [4 x i32], ptr @{CHOOSER}, i64 0, i64 3\n"
    "  %number = load volatile i32, ptr %at\n"
    "  ret i32 %number\n"
)
_DEFINED = re.compile(rf'^(define [^\n]*@"[^"\n]*::{CHOOSER}"[^\n]*{{\n)(?:[^\n]*\n)*?(}}\n)', re.MULTILINE)


def find_or_build(top: Path, note: building.Note) -> Path:
    """The folder of the programs with all mutants of a tree's sender, built now if need be."""
    try:
        mutants = dict(enumerate((it for it in read_sender_mutants(top) if it.rules), 1))
        kit = kit_or_raise_unknown_kit_error()
        kept = CachedBuild(make_user_or_tree_folder_of_builds(top) / _build_key(top, kit, mutants))
        with kept.lock_for_building(lambda: note(building.WAITING)):
            found = kept.find_intact_program_folder_and_mark_used(WAY)
            if found is None:
                found = _build_beside_and_move_into_cache(kept, kit, top, mutants, note)
        prune_if_too_large_sparing_recent_and_own(kept.folder.parent, kept.folder)
        return found
    except (UnknownKitError, CacheError, source_sums.Unreadable, OSError) as error:
        raise building.NoBuild(str(error)) from error


def _build_key(top: Path, kit: BuildKit, mutants: Mapping[int, SenderMutant]) -> str:
    """The checksum of what a build is made of: what a build of the sender is made of, the mutants, and this tool."""
    parts = [build_key_of_tree_and_kit(top, kit), *(f"{it}" for it in mutants.items())]
    own = source_sums.checksum_lines_in_given_order(source_sums.sums_of_files(str(TOOLS), MADE_BY))
    return sha256(b"\0".join([*map(str.encode, parts), own])).hexdigest()


def _build_beside_and_move_into_cache(
    kept: CachedBuild, kit: BuildKit, top: Path, mutants: Mapping[int, SenderMutant], note: building.Note
) -> Path:
    for left in kept.folder.parent.glob(f"{kept.folder.name}.*.part"):
        shutil.rmtree(left, ignore_errors=True)
    beside = kept.folder.with_name(f"{kept.folder.name}.{os.getpid()}.part")
    (beside / "kept" / WAY).mkdir(mode=0o700, parents=True)
    try:
        _build_all_that_compile(kit, top, mutants, beside, note)
        for folder in (beside, beside / "kept", beside / "kept" / WAY):
            folder.chmod(0o700)
        shutil.rmtree(kept.folder, ignore_errors=True)
        (beside / "kept").rename(kept.folder)
    finally:
        shutil.rmtree(beside, ignore_errors=True)
    found = kept.find_intact_program_folder_and_mark_used(WAY)
    if found is None:
        raise building.NoBuild("what was built isn't there")
    return found


def _build_all_that_compile(
    kit: BuildKit, top: Path, mutants: Mapping[int, SenderMutant], folder: Path, note: building.Note
) -> None:
    """Builds the mutants that compile; each round leaves those out in which the compiler finds an error."""
    left_out: dict[int, str] = {}
    for count in range(len(mutants) + 1):
        tree, work = folder / f"tree-{count}", folder / f"build-{count}"
        copy_sources(top, tree)
        work.mkdir()
        applied = apply_all_mutants({n: it.mutant for n, it in mutants.items() if n not in left_out}, tree)
        left_out |= applied.left_out
        try:
            program = build_with_all_mutants(kit, tree, work, PLAIN, note)
            break
        except building.NotCompiled as refused:
            wrong = applied.errors_by_number_of_mutant(refused.printed, tree)
            if not wrong:
                _raise_that_sender_does_not_compile(kit, top, folder, note)
            left_out |= wrong
    _put_programs_and_list(program, mutants, left_out, folder / "kept" / WAY)


def _raise_that_sender_does_not_compile(kit: BuildKit, top: Path, folder: Path, note: building.Note) -> NoReturn:
    """Has the compiler say where the sources are wrong, by the lines that they have without mutants."""
    work = folder / "unchanged"
    work.mkdir()
    building.read_sources_by_kit_into_cache_entry_folder(kit, top, work, note)
    raise building.NoBuild("the mutants don't compile together, though the sender does")


def _put_programs_and_list(
    program: Path, mutants: Mapping[int, SenderMutant], left_out: Mapping[int, str], folder: Path
) -> None:
    first, *others = (folder / it for it in PROGRAMS)
    program.rename(first)
    for other in others:
        os.link(first, other)
    (folder / SUM).write_text(sha256_of_program(first))
    built = [
        {"number": number, "name": it.name, "rules": list(it.rules), "words": it.words}
        for number, it in mutants.items()
        if number not in left_out
    ]
    lost = [{"name": mutants[it].name, "why": why} for it, why in sorted(left_out.items())]
    listed = {"place": place_of_number(first.read_bytes()), "mutants": built, "left out": lost}
    (folder / LIST).write_text(json.dumps(listed))


def copy_sources(top: Path, tree: Path) -> None:
    """Copies what a build reads of a tree."""
    for source in sorted((top / "crates").glob("*/src")):
        shutil.copytree(source, tree / source.relative_to(top))
    for name in (source_sums.TABLE, source_sums.HANDLES, "tools/combined.rattle"):
        if (top / name).is_file():
            (tree / name).parent.mkdir(exist_ok=True)
            shutil.copy(top / name, tree / name)


def build_with_all_mutants(kit: BuildKit, tree: Path, folder: Path, way: str, note: building.Note) -> Path:
    """Builds a tree with mutants in a folder, in one way; the program serves as both."""
    building.read_sources_by_kit_into_cache_entry_folder(kit, tree, folder, note)
    given = (folder / "entry/arguments").read_text().splitlines()
    words = [str(kit.compiler), "-x", "ir", "-emit-llvm", "-O0"]

    def run_compiler(command: list[str]) -> None:
        building.run_kit_tool_or_raise_no_build(command, folder, lambda: note(building.COMPILING))

    run_compiler([*words, "-S", str(folder / "entry/module.bc"), "-o", "module.ll"])
    _have_number_read_where_it_is_written(folder / "module.ll")
    if way == PLAIN:
        run_compiler([*words, "-c", "module.ll", "-o", "module.bc"])
        run_compiler(plain_compiler_command(kit, given))
    else:
        run_compiler([it.replace("module.bc", "module.ll") for it in optimised_compiler_command(kit, given)])
    handler, program = folder / "handler.o", folder / "program"
    run_compiler(building.fault_handler_compile_command(kit, handler))
    building.run_kit_tool_or_raise_no_build(
        linker_command(kit, (folder / "module.o", handler), program), folder, lambda: note(building.LINKING)
    )
    return program


def _have_number_read_where_it_is_written(module: Path) -> None:
    text, count = _DEFINED.subn(lambda it: f"{it[1]}{_LOADS}{it[2]}", module.read_text())
    if not count:
        raise building.NoBuild("the module doesn't have the function that gives the number")
    module.write_text(f"{text}\n{_GLOBAL}")


def place_of_number(program: bytes) -> int:
    """Where the number stands in a program."""
    mark = b"".join(it.to_bytes(4, "little") for it in _MARK)
    place = program.find(mark)
    if place < 0 or program.find(mark, place + 1) >= 0:
        raise building.NoBuild("the program doesn't have just one place for the number")
    return place + len(mark)


def programs_with_mutant(program: Path, number: int, folder: Path) -> dict[str, Path]:
    """Both programs in a new folder, with the mutant of a number."""
    octets = program.read_bytes()
    place = place_of_number(octets)
    folder.mkdir()
    for name in PROGRAMS:
        (folder / name).write_bytes(octets[:place] + number.to_bytes(4, "little") + octets[place + 4 :])
        (folder / name).chmod(0o755)
    return {name: folder / name for name in PROGRAMS}


def find_or_build_and_print_returning_status(tree: Path) -> int:
    """Finds what is kept, or builds it; the status."""
    try:
        print(f"built {find_or_build(tree, Phases().print_phase_to_stdout_if_new)}", flush=True)
    except MutantError as why:
        print(f"unproved: BadMutant: {why}", file=sys.stderr, flush=True)
        return FAULT
    except building.NotCompiled as refused:
        print(f"unproved: NotCompiled: {refused}", file=sys.stderr, flush=True)
        sys.stderr.buffer.write(refused.printed)
        return FAULT
    except building.NoBuild as reason:
        print(f"unproved: NoBuild: {reason}", file=sys.stderr)
        return NO_BUILD
    return 0


def main() -> int:
    parser = argparse.ArgumentParser(allow_abbrev=False, description=(__doc__ or "").partition(":\n")[0])
    parser.add_argument("--tree", metavar="FOLDER", type=Path, default=TOP, help="the tree of the sender")
    options = parser.parse_args()
    signals.install_handlers_raising_at_first_signal()
    try:
        return find_or_build_and_print_returning_status(options.tree.absolute())
    except signals.StoppedBySignal as signal:
        signals.end_process_by(signal.number)


if __name__ == "__main__":
    sys.exit(main())
