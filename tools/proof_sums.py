"""The checksums that ./prove keeps beside a proved program, and whether what is there now still has them.

In out/NAME.sums are those of the program and of all that its proof read, and in the last line the kit by which it was
proved. A program is proved while each of them is as it was; where no `rt` is on the PATH, the kept kit counts.
"""
from __future__ import annotations

import contextlib
import os
import sys
from collections.abc import Iterator

import stamps
from kit import find_kit_command_on_path, kit_id_path_beside_folder_of_command, kit_id_on_path_or_none_without_rt
from source_sums import (
    HANDLES,
    TABLE,
    NoFile,
    Unreadable,
    checksum_lines_in_given_order,
    paths_and_kinds_read_by_proof,
    sorted_files_among_places_or_refuse,
    proof_source_sums_by_path,
    sums_of_files,
)

KIT = b"kit: "
# The files that decide. Where one is changed, what it found before doesn't count.
MADE_BY = [f"tools/{it}.py" for it in ("proved_program", "crate_graph", "proof_sums", "kit", "source_sums", "stamps")]
FAULT = 2


def program_path(program: str) -> str:
    """Where a program is, from the top of the tree."""
    return f"crates/{program}/out/{program}"


def sums_file_text(program: dict[str, str], read: dict[str, str], name: str) -> bytes:
    """The text that is kept: the checksum of a program, those of what its proof read, and the name of the kit."""
    return checksum_lines_in_given_order({**program, **read}) + kit_line(name)


def kit_line(name: str) -> bytes:
    return KIT + os.fsencode(name) + b"\n" if name else b""


def kit_in_sums_or_empty(kept: bytes) -> str:
    """The name of the kit in the text that is kept, or an empty name."""
    last = kept[kept[:-1].rfind(b"\n") + 1 : -1]
    return os.fsdecode(last[len(KIT) :]) if last.startswith(KIT) else ""


def is_proved_keeping_stamps(top: str, program: str) -> bool:
    """Whether a program is proved, and all is as its proof read it. If so, the stamps of all are kept, if that can be.

    Raises Unreadable where no proof could read it now.
    """
    path = program_path(program)
    kept = read_or_empty(f"{top}/{path}.sums")
    here = kit_id_on_path_or_none_without_rt()
    name = kit_in_sums_or_empty(kept) if here is None else here
    if not name or not os.access(f"{top}/{path}", os.X_OK):
        return False
    places = list(paths_and_kinds_read_by_proof(top, program))
    looked_at = list(dict.fromkeys([*MADE_BY, path, f"{path}.sums", TABLE, HANDLES, *(it for it, _ in places)]))
    before = stamps.stamps_of(top, looked_at)
    probe = stamps.probe_file_system_clock_by_new_file(os.path.dirname(f"{top}/{path}"))
    if (
        sums_file_text(
            sums_of_files(top, [path]), sums_of_files(top, sorted_files_among_places_or_refuse(places)), name
        )
        != kept
    ):
        return False
    if (
        probe
        and stamps.would_later_changes_alter_each_stamp(before, probe)
        and places == list(paths_and_kinds_read_by_proof(top, program))
    ):
        # The files had these stamps when they were read only if all still have them.
        if before == stamps.stamps_of(top, looked_at):
            replace_file_if_possible(
                f"{top}/{path}.stamps", stamps.nul_separated_stamps_file_octets(program, name, before)
            )
    return True


def read_or_empty(path: str) -> bytes:
    """The octets of a file; none where it can't be read."""
    with contextlib.suppress(OSError), open(path, "rb") as file:
        return file.read()
    return b""


def replace_file_if_possible(path: str, octets: bytes) -> None:
    """Puts a file in the place of what is there, if that can be."""
    fresh = f"{path}.{os.getpid()}"
    with contextlib.suppress(OSError):
        with open(fresh, "wb") as file:
            file.write(octets)
        os.replace(fresh, path)


def paths_deciding_proof(top: str, program: str) -> Iterator[str]:
    """The whole paths of all on which it depends whether a program is proved, also of what isn't there."""
    path = program_path(program)
    yield from (f"{top}/{it}" for it in (TABLE, HANDLES, path, f"{path}.sums"))
    command = find_kit_command_on_path()
    if command is not None:
        yield from (os.path.abspath(command), kit_id_path_beside_folder_of_command(command))
    with contextlib.suppress(Unreadable):
        yield from (
            f"{top}/{it}" for it, _ in paths_and_kinds_read_by_proof(top, program) if it not in (TABLE, HANDLES)
        )


def print_program_path_sums_or_files(top: str, arguments: list[str]) -> int:
    """Prints the answer of tools/proved_program.sh to [--sums | --files] NAME, and gives the status."""
    *options, program = arguments
    message = f"{program} isn't proved and built, or has changed since: run ./prove {program}"
    try:
        octets = octets_to_print_of_path_sums_or_files(options, top, program)
    except NoFile as why:
        octets, message = b"", f"{program} isn't proved: {why}"
    except Unreadable as why:
        octets, message = b"", str(why) if options else message
    if not octets:
        print(message, file=sys.stderr)
        return FAULT
    sys.stdout.buffer.write(octets)
    return 0


def octets_to_print_of_path_sums_or_files(options: list[str], top: str, program: str) -> bytes:
    """The octets to print with these options; without options there are none where the program isn't proved."""
    if options == ["--files"]:
        return b"".join(os.fsencode(it) + b"\0" for it in paths_deciding_proof(top, program))
    if options == ["--sums"]:
        return checksum_lines_in_given_order(proof_source_sums_by_path(top, program)) + kit_line(
            kit_id_on_path_or_none_without_rt() or ""
        )
    return os.fsencode(f"{top}/{program_path(program)}\n") if is_proved_keeping_stamps(top, program) else b""
