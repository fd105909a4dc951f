"""Copies of what proofs read, made in one go, so that no edit of the tree meanwhile is part of what is proved."""
from __future__ import annotations

import time
from dataclasses import dataclass
from hashlib import sha256
from pathlib import Path

import stamps
from source_sums import TABLE, Unreadable, paths_and_kinds_read_in_crates, sorted_files_among_places_or_refuse

# How long a file system's clock may stand still, and how often it is looked at, in seconds.
STILL = 4.0
OFTEN = 0.002


@dataclass(frozen=True)
class Copy:
    """A tree of some crates alone, without what is kept of them, and the stamps of all that is in it."""

    tree: Path
    crates: tuple[str, ...]
    stamps: dict[str, str]

    def find_first_path_changed_since_copied(self) -> str | None:
        """The first path that isn't as it was copied, if there is one."""
        differing = self.stamps.items() ^ stamps_of_what_proofs_read(self.tree, self.crates).items()
        return min((path for path, _ in differing), default=None)


def copy_to_trees_returning_checksums(
    top: Path, crates: tuple[str, ...], trees: list[Path]
) -> tuple[dict[str, str], list[Copy]]:
    """Copies what the proofs of crates read into trees, and gives the checksums of what was read for that, too.

    The crates.txt of a copy has the lines of these crates alone. Raises Unreadable where a proof can't read a crate.
    """
    read = {
        it: (top / it).read_bytes()
        for it in sorted_files_among_places_or_refuse(paths_and_kinds_read_in_crates(str(top), crates))
    }
    if TABLE not in read:
        raise Unreadable(f"there is no {TABLE}")
    written = {**read, TABLE: crates_txt_lines_of_crates(crates, read[TABLE])}
    for path, octets in written.items():
        for tree in trees:
            (tree / path).parent.mkdir(parents=True, exist_ok=True)
            (tree / path).write_bytes(octets)
    copies = [record_stamps_once_later_changes_show(tree, crates) for tree in trees]
    # From here on a change of a copy shows by its stamps, so what is in it now is what is proved.
    for tree in trees:
        if {
            it: (tree / it).read_bytes()
            for it in sorted_files_among_places_or_refuse(paths_and_kinds_read_in_crates(str(tree), crates))
        } != written:
            raise Unreadable(f"{tree} has changed while it was made")
    return {path: sha256(octets).hexdigest() for path, octets in read.items()}, copies


def crates_txt_lines_of_crates(crates: tuple[str, ...], table: bytes) -> bytes:
    """The lines of a crates.txt that name these crates.

    >>> crates_txt_lines_of_crates(("a", "c"), b"# a:\\na may_wait=1: b\\nb:\\n\\nc: a # last\\n")
    b'a may_wait=1: b\\nc: a # last\\n'
    """
    names = {it.encode() for it in crates}
    lines = table.splitlines(keepends=True)
    return b"".join(it for it in lines if names.intersection(it.partition(b":")[0].split()[:1]))


def record_stamps_once_later_changes_show(tree: Path, crates: tuple[str, ...]) -> Copy:
    """A copy that was made, once each change of it from then on shows."""
    until = time.monotonic() + STILL
    while time.monotonic() < until:
        found = stamps_of_what_proofs_read(tree, crates)
        probe = stamps.probe_file_system_clock_by_new_file(str(tree))
        if probe and stamps.would_later_changes_alter_each_stamp(found, probe):
            return Copy(tree, crates, found)
        time.sleep(OFTEN)
    raise Unreadable(f"{tree}: the file system has no clock of its own that moves on")


def stamps_of_what_proofs_read(tree: Path, crates: tuple[str, ...]) -> dict[str, str]:
    """The stamps of what the proofs of crates read in a copy, but for the folders of crates, where proofs write."""
    own = {f"crates/{it}" for it in crates}
    return stamps.stamps_of(
        str(tree), [it for it, _ in paths_and_kinds_read_in_crates(str(tree), crates) if it not in own]
    )
