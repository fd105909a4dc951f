"""Which programs stand: the tree's tools say so once, and stamps of all that they looked at say whether it is so still.

Stamps are compared by equality alone, and no process is started where nothing changed.
"""

import subprocess
import time
from collections.abc import Callable, Mapping, Sequence
from dataclasses import dataclass
from functools import partial
from os import environ, fsdecode
from os.path import isdir
from pathlib import Path
from typing import TypeVar

from pdsuite.faults import Fault, error_reason
from pdsuite.file_stamps import Stamp, are_stamps_current, shows_any_later_write, stamp_or_errno_of_file
from pdsuite.output.octets import printable_path
from pdsuite.programs.locate import BUILD_TOOL, PACKAGE_VERSION, PROGRAMS_VARIABLE, PROVED_TOOL, TOP
from pdsuite.programs.locate import (
    UnprovedError,
    require_proved_program,
    locate_given_or_proved_program,
    sha256_of,
    find_tree_if_launcher_folder,
)

# While files change all the time, the tools are queried so often.
_TRIES = 5
# Part of the paths of a program and of all that is made beside it.
_MADE = "/out/"

# The words for a sender that isn't the one that it was at the beginning.
CHANGED = "the sender has changed meanwhile"

T = TypeVar("T")
U = TypeVar("U")
FindProgram = Callable[[str], Path]
ListFiles = Callable[[str], Sequence[str]]


class SenderChangedError(Exception):
    """That another file lies where a program lay when it was found, so that what it answers counts no more."""


@dataclass(frozen=True, slots=True)
class StampedProgram:
    """A program as it stands: its path, the stamp of its file, and its SHA-256."""

    path: Path
    stamp: Stamp
    digest: str

    @property
    def is_file_unchanged(self) -> bool:
        """Whether the file is the one that was found."""
        return stamp_or_errno_of_file(self.path) == self.stamp

    def raise_if_changed(self) -> None:
        """Raises SenderChangedError where the file isn't the one that was found."""
        if not self.is_file_unchanged:
            raise SenderChangedError(f"{printable_path(self.path)} is another file")


def stamped_program(path: Path) -> StampedProgram:
    """A program as it stands at a path; a fault where it can't be read."""
    try:
        return StampedProgram(path, stamp_or_errno_of_file(path), sha256_of(path))
    except OSError as error:
        raise Fault(f"{printable_path(path)}: {error_reason(error)}") from error


# A program, or why there is none.
FoundProgram = StampedProgram | Fault


@dataclass(frozen=True)
class _LookupState:
    """The programs found when all files had these stamps, and whether each later writing changes one of the stamps."""

    found: Mapping[str, FoundProgram]
    stamps: Mapping[str, Stamp]
    folders: frozenset[str]
    is_sure: bool

    def is_surely_current(self) -> bool:
        """Whether it is surely so still."""
        return self.is_sure and are_stamps_current(self.stamps)


class ProgramLookup:
    """Looks at programs by their names: `find` says which one stands, `files` on which files that depends."""

    def __init__(self, names: Sequence[str], find: FindProgram, files: ListFiles) -> None:
        self._names = names
        self._find = find
        self._files = files
        self._seen: _LookupState | None = None

    def current_programs_or_faults(self) -> Mapping[str, FoundProgram]:
        """The programs that stand now, by their names; a fault in place of each that doesn't."""
        return self._cached_or_requeried_state().found

    def require_program(self, name: str) -> StampedProgram:
        """The program of this name that stands now; a fault where none does."""
        found = self.current_programs_or_faults()[name]
        if isinstance(found, Fault):
            raise found
        return found

    def source_stamps(self) -> Mapping[str, Stamp]:
        """The stamps of all files that aren't made beside a program. A folder is what lies in it."""
        seen = self._cached_or_requeried_state()
        return {path: it for path, it in seen.stamps.items() if path not in seen.folders and _MADE not in path}

    def folders_to_watch(self) -> set[str]:
        """The folders in which something that counts may change."""
        seen = self._cached_or_requeried_state()
        return {*seen.folders, *(str(Path(it).parent) for it in seen.stamps)}

    def _cached_or_requeried_state(self) -> _LookupState:
        if self._seen is None or not self._seen.is_surely_current():
            self._seen = self._query_until_stable()
        return self._seen

    def _query_until_stable(self) -> _LookupState:
        """Queries what stands, until no file changes meanwhile."""
        for _ in range(_TRIES):
            moment = time.time_ns()
            paths = [path for name in self._names for path in self._files(name)]
            stamps = {path: stamp_or_errno_of_file(path) for path in paths}
            found = {name: self._program_or_fault(name) for name in self._names}
            if stamps == {path: stamp_or_errno_of_file(path) for path in paths}:
                folders = frozenset(filter(isdir, stamps))
                return _LookupState(
                    found,
                    stamps,
                    folders,
                    bool(paths) and all(shows_any_later_write(it, moment) for it in stamps.values()),
                )
        changing = UnprovedError(f"{', '.join(self._names)}: files change all the time")
        return _LookupState(dict.fromkeys(self._names, changing), {}, frozenset(), False)

    def _program_or_fault(self, name: str) -> FoundProgram:
        try:
            return stamped_program(self._find(name))
        except Fault as fault:
            return fault
        except OSError as error:
            return Fault(f"{name}: {error_reason(error)}")


class SenderGuard:
    """Sees whether senders stay as they were when this was made: proved programs, or else the sources of a tree."""

    def __init__(self, *looks: ProgramLookup) -> None:
        self._looks = _map_in_threads(lambda it: (it, it.current_programs_or_faults(), it.source_stamps()), looks)

    def require_unchanged(self, consequence: str) -> None:
        """A fault where one isn't as it was; it names the consequence."""
        if self.has_changed():
            raise Fault(f"{CHANGED}: {consequence}")

    def has_changed(self) -> bool:
        """Whether one isn't as it was."""
        return any(_map_in_threads(lambda it: _have_proved_programs_or_sources_changed(*it), self._looks))


def _map_in_threads(work: Callable[[T], U], each: Sequence[T]) -> list[U]:
    """The results of a function for each item, in threads, since looks wait for the tools of their trees."""
    if len(each) < 2:
        return [work(it) for it in each]
    # Only who looks at several senders pays for what makes threads.
    from concurrent.futures import ThreadPoolExecutor

    with ThreadPoolExecutor(len(each)) as pool:
        return list(pool.map(work, each))


def _have_proved_programs_or_sources_changed(
    lookup: ProgramLookup, found: Mapping[str, FoundProgram], sources: Mapping[str, Stamp]
) -> bool:
    now = lookup.current_programs_or_faults()
    proved = [name for name, it in found.items() if isinstance(it, StampedProgram)]
    return any(now[name] != found[name] for name in proved) if proved else lookup.source_stamps() != sources


def client_programs_lookup(*names: str) -> ProgramLookup:
    """A look at the programs of this client: those of a folder that is named, of its package, or of its tree."""
    if word := environ.get(PROGRAMS_VARIABLE):
        folder = Path(word)
        if tree := find_tree_if_launcher_folder(folder):
            return proved_programs_lookup(tree, *names)
        return ProgramLookup(names, locate_given_or_proved_program, lambda name: [str((folder / name).absolute())])
    if PACKAGE_VERSION.exists():
        return ProgramLookup(
            names, locate_given_or_proved_program, lambda name: [str(locate_given_or_proved_program(name))]
        )
    return proved_programs_lookup(TOP, *names)


def find_client_or_launcher_tree_if_buildable() -> Path | None:
    """The tree whose sender is built without proofs where it isn't proved: that of this client, or of its launchers."""
    if word := environ.get(PROGRAMS_VARIABLE):
        tree = find_tree_if_launcher_folder(Path(word))
    else:
        tree = None if PACKAGE_VERSION.exists() else TOP
    return tree if BUILD_TOOL.is_file() else None


def proved_programs_lookup(top: Path, *names: str) -> ProgramLookup:
    """A look at the proved programs of a tree."""
    return ProgramLookup(names, lambda name: require_proved_program(name, top), partial(_files_deciding_proof, top))


def lookup_by_paths(programs: Mapping[str, Path]) -> ProgramLookup:
    """A look at programs by their paths."""
    return ProgramLookup(list(programs), programs.__getitem__, lambda name: [str(programs[name])])


def _files_deciding_proof(top: Path, name: str) -> list[str]:
    """All files and folders on which it depends whether a tree's program is proved; none where nobody says."""
    try:
        done = subprocess.run(
            [top / PROVED_TOOL, "--files", name],
            stdin=subprocess.DEVNULL,
            capture_output=True,
            process_group=0,  # a key of the terminal ends the client alone
        )
    except OSError:
        return []
    if done.returncode:
        return []
    return [str(top / fsdecode(it)) for it in done.stdout.split(b"\0") if it]
