"""Where programs are kept that are built without a proof: by what they are made of, in a folder of the user's own.

A build has a folder named by its key, which is the checksum of all that it is made of. In it each way of building has a
folder of its own, with the program by its two names and the program's checksum. Each folder is put there whole.
The folder of all builds is `pdregress/builds` below ~/.cache or XDG_CACHE_HOME, or the tree's out/ where that one isn't
the user's own.
"""
from __future__ import annotations

import contextlib
import fcntl
import hashlib
import os
import shutil
import stat
import time
from collections.abc import Callable, Iterator
from dataclasses import dataclass
from pathlib import Path

import source_sums
from kit_tools import BuildKit, UnknownKitError, kit_or_raise_unknown_kit_error

TOOLS = Path(__file__).resolve().parent
PROGRAMS = ("pdregress", "pdrecord")
# The files that make builds and run them: a change of one changes all keys, so no build from before is found.
MADE_BY = (
    *("build_cache.py", "kit_tools.py", "building.py", "combined.rattle", "fault_handler.c"),
    *("fault_places.py", "report_fault.py", "run_unproved.py", "../pdregress", "../pdrecord"),
)
SUM = "sum"
# The ways to build.
PLAIN, OPTIMISED = "plain", "optimised"
# All builds together may have so many octets; a build that was used at most so many seconds ago stays in any case.
MOST = 1 << 30
RECENT = 3_600.0
# How long is waited between two looks at a lock, in seconds.
BETWEEN = 0.2


class CacheError(Exception):
    """That nothing can be kept, and why."""


@dataclass(frozen=True)
class CachedBuild:
    """The place of a build: its folder, whether or not it is there yet."""

    folder: Path

    def find_intact_program_folder_and_mark_used(self, way: str) -> Path | None:
        """The folder of the two programs that were built so, if they are there as they were put there."""
        folder = self.folder / way
        try:
            if any(not is_own_folder_closed_to_others(it) for it in (self.folder.parent, self.folder, folder)):
                return None
            written = (folder / SUM).read_text()
            if distinct_program_sums_in_folder(folder) != {written}:
                return None
            os.utime(self.folder)
        except OSError:
            return None
        return folder

    @contextlib.contextmanager
    def lock_for_building(self, turn: Callable[[], None]) -> Iterator[None]:
        """Lets one call at a time build it; the others wait until that one ends, each with a turn now and then."""
        file = self.folder.with_name(f"{self.folder.name}.lock")
        descriptor = os.open(file, os.O_RDWR | os.O_CREAT | os.O_NOFOLLOW | os.O_CLOEXEC, 0o600)
        try:
            while not has_locked_without_waiting(descriptor):
                turn()
                time.sleep(BETWEEN)
            yield
        finally:
            os.close(descriptor)


def find_cached_program_folder_of_first_way(top: Path, ways: tuple[str, ...]) -> Path | None:
    """The folder of both programs of a tree, in the first of these ways in which they are kept, if they are."""
    try:
        kept = cached_build_of_tree_and_kit(top, kit_or_raise_unknown_kit_error())
    except (UnknownKitError, CacheError, source_sums.Unreadable, OSError):
        return None
    return next((it for it in map(kept.find_intact_program_folder_and_mark_used, ways) if it is not None), None)


def cached_build_of_tree_and_kit(top: Path, kit: BuildKit) -> CachedBuild:
    """Where the build of a tree by this kit is kept."""
    return CachedBuild(make_user_or_tree_folder_of_builds(top) / build_key_of_tree_and_kit(top, kit))


def build_key_of_tree_and_kit(top: Path, kit: BuildKit) -> str:
    """The checksum of what a build is made of: the sources that are read, what builds them, and the kit."""
    paths = sorted(
        {it for name in PROGRAMS for it in source_sums.sources_of_proof(str(top), name) if is_read_by_build(it)}
    )
    sources = source_sums.checksum_lines_in_given_order(source_sums.sums_of_files(str(top), paths))
    own = source_sums.checksum_lines_in_given_order(source_sums.sums_of_files(str(TOOLS), MADE_BY))
    main = hashlib.sha256(combined_main_file_path_or_default(top).read_bytes()).hexdigest()
    return hashlib.sha256(
        b"\0".join([sources, own, main.encode(), kit.tools_identity_by_size_and_time().encode()])
    ).hexdigest()


def is_read_by_build(path: str) -> bool:
    """Whether a build reads this file of a tree: a definition or a proof it doesn't.

    >>> [is_read_by_build(it) for it in ("crates.txt", "crates/low/src/lib.rt", "crates/low/specs/Low.antt")]
    [True, True, False]
    """
    parts = path.split("/")
    return parts[0] != "crates" or (parts[2] == "src" and path.endswith(".rt"))


def combined_main_file_path_or_default(top: Path) -> Path:
    """The main file that makes one program of both: the tree's own, or where it has none this tree's."""
    own = top / "tools" / "combined.rattle"
    return own if own.is_file() else TOOLS / "combined.rattle"


def make_user_or_tree_folder_of_builds(top: Path) -> Path:
    """The folder of all builds: the user's own, or else the tree's."""
    for folder in (*none_or_one_path_for_user_builds(), top / "crates" / PROGRAMS[0] / "out" / "builds"):
        with contextlib.suppress(OSError):
            folder.mkdir(mode=0o700, parents=True, exist_ok=True)
            if is_own_folder_closed_to_others(folder) and os.access(folder, os.W_OK | os.X_OK):
                return folder
    raise CacheError("no folder of this user's own can be written")


def none_or_one_path_for_user_builds() -> Iterator[Path]:
    """The folder below that which users have for what can be made again."""
    above = os.environ.get("XDG_CACHE_HOME", "")
    with contextlib.suppress(RuntimeError):
        yield (Path(above) if os.path.isabs(above) else Path.home() / ".cache") / "pdregress" / "builds"


def is_own_folder_closed_to_others(folder: Path) -> bool:
    """Whether a folder is one, no link, is this user's, and nobody else may look into it or change it."""
    found = folder.lstat()
    return stat.S_ISDIR(found.st_mode) and found.st_uid == os.geteuid() and not found.st_mode & 0o077


def distinct_program_sums_in_folder(folder: Path) -> set[str]:
    """The checksums of the programs in a folder. A file with several names is read once."""
    found = {name: (folder / name).lstat() for name in PROGRAMS}
    files = {(it.st_dev, it.st_ino): name for name, it in found.items()}
    return {sha256_of_program(folder / name) for name in files.values()}


def sha256_of_program(file: Path) -> str:
    """The SHA-256 of a program that is a file by itself."""
    with open(os.open(file, os.O_RDONLY | os.O_NOFOLLOW | os.O_CLOEXEC), "rb") as opened:
        return hashlib.sha256(opened.read()).hexdigest()


def has_locked_without_waiting(descriptor: int) -> bool:
    """Whether this file is locked now for whoever asks."""
    try:
        fcntl.flock(descriptor, fcntl.LOCK_EX | fcntl.LOCK_NB)
    except BlockingIOError:
        return False
    return True


def prune_if_too_large_sparing_recent_and_own(all_builds: Path, own: Path) -> None:
    """Removes builds that weren't used for the longest time, where all of them are too large; never the own one."""
    with contextlib.suppress(OSError):
        found = sorted((it.stat().st_mtime, it) for it in all_builds.iterdir() if it.is_dir() and it != own)
        left = sum(build_size(it) for _, it in found) + build_size(own)
        for used, folder in found:
            if left > MOST and time.time() - used > RECENT:
                left -= build_size(folder)
                shutil.rmtree(folder, ignore_errors=True)
                folder.with_name(f"{folder.name}.lock").unlink(missing_ok=True)


def build_size(folder: Path) -> int:
    """How many octets a build has; a program is counted once."""
    files = {(it.stat().st_ino, it.stat().st_size) for it in folder.rglob("*") if it.is_file()}
    return sum(size for _, size in files)
