"""The senders that are compared: which one a word means, and where it is: proved programs, or a tree to be built."""

import os
import subprocess
import sys
import tarfile
from contextlib import suppress
from dataclasses import dataclass
from pathlib import Path

from pdsuite.faults import Fault, error_reason
from pdsuite.output.octets import printable_octets, printable_path, printable_text
from pdsuite.programs.locate import BATCH_TOOL, PACKAGE_VERSION, PROGRAMS_VARIABLE, RECORD, REGRESS, TOP
from pdsuite.programs.locate import (
    UnprovedError,
    client_version_or_commit,
    require_proved_program,
    locate_given_or_proved_program,
    find_tree_if_launcher_folder,
)
from pdsuite.programs.lookup import ProgramLookup, lookup_by_paths, proved_programs_lookup

_KEPT = TOP / "tools/last_proved.py"
_COMMIT = "commit"
# The parts of a commit from which programs are built, and by which its rows are run.
_PARTS = ("crates", "crates.txt", "HANDLES", "docs", "examples", "tests", "tools")
_DIRTY = "-dirty"


@dataclass(frozen=True)
class Sender:
    """A sender, as people call it: its programs by their names, or else the tree that it is built from.

    The tree is that of programs, too, where it is known; of those that ./prove has kept there is a commit instead.
    Programs that were built without proofs say so.
    """

    name: str
    programs: dict[str, Path] | None
    tree: Path | None = TOP
    commit: str = ""
    is_build: bool = False

    @property
    def is_proved(self) -> bool:
        """Whether its programs are there and proved. A folder of programs that a call names counts as proved."""
        return self.has_programs and not self.is_build

    @property
    def has_programs(self) -> bool:
        """Whether its programs are there."""
        return self.programs is not None

    @property
    def has_recorder_or_is_unbuilt(self) -> bool:
        """Whether it can record."""
        return self.programs is None or RECORD in self.programs

    @property
    def lookup_of_programs_or_of_unbuilt_tree(self) -> ProgramLookup:
        """A look at its programs, or at the tree that it is built from."""
        if self.programs is not None:
            return (
                lookup_by_paths(self.programs)
                if self.tree is None
                else proved_programs_lookup(self.tree, *self.programs)
            )
        return proved_programs_lookup(self.asserted_tree_to_build, REGRESS)

    def find_or_check_out_sources(self, place: Path) -> Path | None:
        """The tree of its sources, if it is known; that of a commit is put into a new folder."""
        if self.tree is None and self.commit:
            with suppress(Fault):
                place.mkdir()
                _check_out_commit_returning_name(self.commit, _COMMIT, place)
                return place
        return self.tree

    @property
    def asserted_tree_to_build(self) -> Path:
        """The tree that it is built from."""
        assert self.tree is not None
        return self.tree

    def __str__(self) -> str:
        return self.name if self.is_proved else f"{self.name}, unproved"


def sender_of_folder_or_checked_out_commit(word: str, option: str, place: Path) -> Sender:
    """The sender that a word names: a folder of programs, a tree, or a commit, whose tree is put into a new folder."""
    folder = Path(word)
    if tree := find_tree_if_launcher_folder(folder):
        return _sender_of_tree_with_programs_if_proved(tree, printable_path(folder))
    if (folder / REGRESS).is_file():
        return Sender(printable_path(folder), _programs_in_folder_requiring_pdregress(folder, option), None)
    if folder.is_dir():
        raise Fault(f"{option}: {printable_path(folder)}: no folder of programs: it has no {REGRESS}")
    if not BATCH_TOOL.is_file():
        raise Fault(f"{option}: {printable_text(word)}: no folder, and here is no tree with commits")
    place.mkdir()
    return Sender(_check_out_commit_returning_name(word, option, place), None, place)


def current_sender() -> Sender:
    """The tree as it stands, or the programs of a package or of PDSUITE_PROGRAMS."""
    if (folder := os.environ.get(PROGRAMS_VARIABLE)) and (tree := find_tree_if_launcher_folder(Path(folder))):
        return _sender_of_tree_with_programs_if_proved(tree, printable_path(Path(folder)))
    try:
        programs = {name: locate_given_or_proved_program(name) for name in (REGRESS, RECORD)}
    except UnprovedError:
        if not BATCH_TOOL.is_file():
            raise
        return Sender(f"the tree as it stands, {client_version_or_commit()}", None)
    is_elsewhere = PACKAGE_VERSION.exists() or os.environ.get(PROGRAMS_VARIABLE)
    return Sender(f"the proved programs, {client_version_or_commit()}", programs, None if is_elsewhere else TOP)


def _sender_of_tree_with_programs_if_proved(tree: Path, name: str) -> Sender:
    """A tree's sender: its programs if both are proved."""
    try:
        return Sender(name, {it: require_proved_program(it, tree) for it in (REGRESS, RECORD)}, tree)
    except UnprovedError:
        return Sender(name, None, tree)


def last_proved_sender() -> Sender:
    """The sender that was last proved in this tree, whose programs ./prove has kept."""
    if PACKAGE_VERSION.exists() or not _KEPT.is_file():
        raise Fault("here nothing is proved: name another sender by --base")
    done = subprocess.run([sys.executable, "-B", _KEPT], stdin=subprocess.DEVNULL, capture_output=True)
    if done.returncode:
        raise Fault(f"{printable_octets(done.stderr.strip())}: name a sender by --base, or run ./prove")
    folder = Path(os.fsdecode(done.stdout.removesuffix(b"\n")))
    try:
        name = printable_octets((folder / _COMMIT).read_bytes().strip())
    except OSError as error:
        raise Fault(f"{printable_path(folder / _COMMIT)}: {error_reason(error)}") from error
    return Sender(
        f"the last proved programs, {name}",
        _programs_in_folder_requiring_pdregress(folder, "./prove"),
        None,
        name.removesuffix(_DIRTY),
    )


def _programs_in_folder_requiring_pdregress(folder: Path, option: str) -> dict[str, Path]:
    """The programs of a folder; pdrecord may be missing."""
    programs = {name: (folder / name).absolute() for name in (REGRESS, RECORD)}
    there = {name: it for name, it in programs.items() if it.is_file() and os.access(it, os.X_OK)}
    if REGRESS not in there:
        raise Fault(f"{option}: {printable_path(folder)} has no program {REGRESS}")
    return there


def _check_out_commit_returning_name(word: str, option: str, place: Path) -> str:
    """The name of a commit, whose crates are put into a folder."""
    commit = _git_output_or_none_on_failure(
        "rev-parse", "--verify", "--quiet", "--end-of-options", f"{word}^{{commit}}"
    )
    if commit is None:
        raise Fault(f"{option}: {printable_text(word)}: neither a folder of programs nor a commit")
    number = commit.strip().decode()
    there = _git_output_or_none_on_failure("ls-tree", "--name-only", number) or b""
    parts = [it for it in _PARTS if it.encode() in there.split(b"\n")]
    archive = place / "archive.tar"
    if _git_output_or_none_on_failure("archive", "--format=tar", f"--output={archive}", number, "--", *parts) is None:
        raise Fault(f"{option}: {printable_text(word)}: git can't archive this commit")
    _unpack_archive(archive, place)
    archive.unlink()
    return f"commit {number[:12]}"


def _unpack_archive(archive: Path, place: Path) -> None:
    """Puts the files of an archive into a folder."""
    # This program takes a fifth of the time of Python's module, which serves where it isn't there.
    try:
        done = subprocess.run(["tar", "-x", "-C", place, "-f", archive], stdin=subprocess.DEVNULL, capture_output=True)
        status = done.returncode
    except OSError:
        status = 1
    if status:
        with tarfile.open(archive) as file:
            file.extractall(place)


def _git_output_or_none_on_failure(*words: str) -> bytes | None:
    """The output of git in this tree, if it succeeds."""
    try:
        done = subprocess.run(["git", "-C", TOP, *words], stdin=subprocess.DEVNULL, capture_output=True)
    except OSError as error:
        raise Fault(f"git: {error_reason(error)}") from error
    return done.stdout if done.returncode == 0 else None
