"""The files in a tree that the proof of a crate reads, with their checksums.

A proof reads crates.txt, HANDLES, and of the crate and each one below it the files `.rt` and `.antt` of src/, specs/
and proofs/. Files are named by paths below the top of the tree, such as `crates/low/src/lib.rt`, and a tree by its top.
"""
from __future__ import annotations

import os
from collections.abc import Iterable, Iterator
from hashlib import sha256

from crate_graph import parse_dependencies_between_crates, crates_below_one_in_build_order

TABLE = "crates.txt"
HANDLES = "HANDLES"
PARTS = ("src", "specs", "proofs")
KINDS = (".rt", ".antt")
ESCAPES = {ord("\n"): "\\n", ord("\\"): "\\\\"}
# The kinds of places: a file that is read, a folder, or else the reason why no proof reads the crate.
FILE = "file"
FOLDER = "folder"
LINK = "is a link: put the file or folder itself there"


class Unreadable(Exception):
    """Why no proof reads a crate of a tree: no line of crates.txt names it, or a file can't be read."""


class NoFile(Unreadable):
    """That a proof would read a link or a pipe, which the kit refuses."""


def crate_and_libraries(top: str, crate: str) -> list[str]:
    """The crates that one stands on and it itself, lowest first, by the crates.txt of a tree."""
    try:
        with open(f"{top}/{TABLE}", encoding="utf-8", errors="replace") as table:
            uses = parse_dependencies_between_crates(table.read())
    except OSError as error:
        raise Unreadable(f"{TABLE}: {error.strerror}") from None
    if crate not in uses:
        raise Unreadable(f"{TABLE} names no crate {crate}")
    return [*crates_below_one_in_build_order(crate, uses), crate]


def sources_of_proof(top: str, crate: str) -> list[str]:
    """The files that the proof of a crate reads, in the order of their paths. Links are refused, as by the kit."""
    return sorted_files_among_places_or_refuse(paths_and_kinds_read_by_proof(top, crate))


def sorted_files_among_places_or_refuse(places: Iterable[tuple[str, str]]) -> list[str]:
    """The files that are read of some places, if no place forbids it, in the order of their paths."""
    found = []
    for path, kind in places:
        if kind == FILE:
            found.append(path)
        elif kind != FOLDER:
            raise NoFile(f"{path} {kind}")
    return sorted(found, key=os.fsencode)


def paths_and_kinds_read_by_proof(top: str, crate: str) -> Iterator[tuple[str, str]]:
    """All that the proof of a crate reads, the folders of that, and what forbids it: each with what it is."""
    return paths_and_kinds_read_in_crates(top, crate_and_libraries(top, crate))


def paths_and_kinds_read_in_crates(top: str, crates: Iterable[str]) -> Iterator[tuple[str, str]]:
    """The same of these crates alone."""
    yield from ((it, FILE) for it in (TABLE, HANDLES) if os.path.lexists(f"{top}/{it}"))
    for folder in (f"crates/{it}" for it in crates):
        if os.path.islink(f"{top}/{folder}"):
            yield folder, LINK
        elif not os.path.isdir(f"{top}/{folder}"):
            raise Unreadable(f"{folder} is no folder")
        else:
            yield folder, FOLDER
            for part in PARTS:
                yield from source_paths_and_kinds_under_path(f"{folder}/{part}", f"{top}/{folder}/{part}")


def source_paths_and_kinds_under_path(path: str, place: str) -> Iterator[tuple[str, str]]:
    """The paths that are read from `path` down, each with its kind; `place` is where `path` lies."""
    if os.path.islink(place):
        # A link of an editor, which leads to nothing, isn't read.
        if os.path.exists(place):
            yield path, LINK
    elif os.path.isdir(place):
        yield path, FOLDER
        try:
            names = sorted(os.listdir(place))
        except OSError as error:
            raise Unreadable(f"{path}: {error.strerror}") from None
        for name in names:
            yield from source_paths_and_kinds_under_path(f"{path}/{name}", f"{place}/{name}")
    elif path.endswith(KINDS) and os.path.exists(place):
        yield path, FILE if os.path.isfile(place) else "is no plain file"


def proof_source_sums_by_path(top: str, crate: str) -> dict[str, str]:
    """The SHA-256 of each file that the proof of a crate reads, in hexadecimal digits, by its path."""
    return sums_of_files(top, sources_of_proof(top, crate))


def sums_of_files(top: str, paths: Iterable[str]) -> dict[str, str]:
    """The SHA-256 of each of these files of a tree, by its path."""
    found = {}
    for path in paths:
        try:
            with open(f"{top}/{path}", "rb", buffering=0) as file:
                found[path] = sha256(file.read()).hexdigest()
        except OSError as error:
            raise Unreadable(f"{path}: {error.strerror}") from None
    return found


def checksum_lines_in_given_order(found: dict[str, str]) -> bytes:
    """Checksums as octets: a line `SUM  PATH` for each, where a newline of a path is two octets, and a backslash too.

    >>> checksum_lines_in_given_order({"a": "12", "b\\nc": "34"})
    b'12  a\\n34  b\\\\nc\\n'
    """
    return os.fsencode("".join(f"{it}  {path.translate(ESCAPES)}\n" for path, it in found.items()))
