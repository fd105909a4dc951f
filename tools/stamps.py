"""Stamps of files: data of the file system, by which a file is known to be as it was without being read.

A stamp has the moment of the last change by the file system's clock, which no program can set, and the number of the
file, its size, and more. Stamps are compared for equality alone, so a clock that was set back lets no change pass. But
the clock stands still for some milliseconds at a time: a file that changes twice in one tick may have one stamp before
and after. So a stamp is kept only once the clock has moved on since. Where a program writes through a mapping that it
shares with a file, a write just after another one gives the file no other stamp; no editor and no git writes so.
"""
from __future__ import annotations

import os

ABSENT = "-"
# The end of kept stamps, so that none are taken for whole that were cut short.
END = "end"


def stamp_of_link_target_or_absent(path: str) -> str:
    """The stamp of a file or a folder, where its links lead, or that there is none."""
    try:
        it = os.stat(path)
    except OSError:
        return ABSENT
    return f"{device_and_change_time_text(it)}:{it.st_ino}:{it.st_size}:{it.st_mtime_ns}:{it.st_mode}"


def device_and_change_time_text(it: os.stat_result) -> str:
    """When a file changed last, by which clock."""
    return f"{it.st_dev}:{it.st_ctime_ns}"


def stamps_of(top: str, paths: list[str]) -> dict[str, str]:
    """The stamp of each of these paths below a folder."""
    return {it: stamp_of_link_target_or_absent(f"{top}/{it}") for it in paths}


def probe_file_system_clock_by_new_file(folder: str) -> os.stat_result | None:
    """The data of a file that is made now in a folder, and removed again, if one can be made there.

    It is None, too, where the file system has no clock of its own, but gives what a program set as the moment of a
    change.
    """
    place = f"{folder}/probe.{os.getpid()}"
    try:
        descriptor = os.open(place, os.O_WRONLY | os.O_CREAT | os.O_EXCL)
    except OSError:
        return None
    try:
        os.unlink(place)
        os.utime(descriptor, ns=(0, 0))
        probe = os.fstat(descriptor)
    except OSError:
        return None
    finally:
        os.close(descriptor)
    return None if probe.st_ctime_ns == probe.st_mtime_ns else probe


def would_later_changes_alter_each_stamp(stamps: dict[str, str], probe: os.stat_result) -> bool:
    """Whether a change from now on gives each of these paths another stamp.

    It does where the file that the probe is of was made in another tick of the same clock, after the stamps were taken.
    """
    moments = {tuple(it.split(":", 2)[:2]) for it in stamps.values() if it != ABSENT}
    return all(it[0] == str(probe.st_dev) and ":".join(it) != device_and_change_time_text(probe) for it in moments)


def nul_separated_stamps_file_octets(program: str, kit: str, found: dict[str, str]) -> bytes:
    """The stamps of all on which it depends that a program is proved, as octets that can be kept.

    They are parts of which each ends with a NUL, since no path has one: the program, what names its kit, the stamps.
    """
    return os.fsencode("\0".join([program, kit, *(f"{it} {path}" for path, it in found.items()), END]))


def are_stamps_unchanged(top: str, program: str, kit: str | None, text: bytes) -> bool:
    """Whether all stamps below a folder are those that were kept for a program, and so is the kit, if there is one."""
    parts = os.fsdecode(text).split("\0")
    if len(parts) < 4 or parts[0] != program or kit not in (None, parts[1]) or parts[-1] != END:
        return False
    stamps = (it.partition(" ") for it in parts[2:-1])
    return all(stamp_of_link_target_or_absent(f"{top}/{path}") == stamp for stamp, _, path in stamps)
