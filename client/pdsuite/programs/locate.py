"""The built programs and the tree's tools: where they are, and what they are of."""

import os
import subprocess
from pathlib import Path

from pdsuite.faults import Fault
from pdsuite.output.octets import printable_octets, printable_path

TOP = Path(__file__).resolve().parents[3]
PROGRAMS_VARIABLE = "PDSUITE_PROGRAMS"
# In a package: its version, and the commit that it was made of. The programs are then installed, too.
PACKAGE_VERSION = TOP / "version"
# In a tree: what runs its programs as they stand, without proofs.
BATCH_TOOL = TOP / "tools/run_batch.py"
# The tool that builds them so and keeps them, for any tree.
BUILD_TOOL = TOP / "tools/build_unproved.py"
# The tool that builds a tree's sender with all of its mutants.
MUTANTS_TOOL = TOP / "tools/build_mutants.py"
# The tool that says where a tree's program is, if it is proved.
PROVED_TOOL = "tools/proved_program.sh"
REGRESS = "pdregress"
RECORD = "pdrecord"


class UnprovedError(Fault):
    """That a program isn't proved and built, or has changed since."""


def locate_given_or_proved_program(name: str) -> Path:
    """The built program of this name."""
    if folder := os.environ.get(PROGRAMS_VARIABLE):
        path = Path(folder, name).absolute()
        if not path.is_file() or not os.access(path, os.X_OK):
            raise Fault(f"{printable_path(path)}: no program ({PROGRAMS_VARIABLE} names the folder)")
        return path
    if PACKAGE_VERSION.exists():
        return TOP.parents[1] / "bin" / name
    return require_proved_program(name, TOP)


def use_programs_folder(folder: Path) -> None:
    """Has the programs of a folder be those of this call from now on, also in processes that it starts."""
    os.environ[PROGRAMS_VARIABLE] = str(folder)


def is_programs_folder_set() -> bool:
    """Whether the programs of this call are those of a folder."""
    return bool(os.environ.get(PROGRAMS_VARIABLE))


def require_proved_program(name: str, top: Path) -> Path:
    """The proved program of this name in a tree."""
    done = subprocess.run(
        [top / PROVED_TOOL, name],
        stdin=subprocess.DEVNULL,
        capture_output=True,
        process_group=0,  # a key of the terminal ends the client alone
    )
    if done.returncode:
        raise UnprovedError(printable_octets(done.stderr.strip()))
    return Path(os.fsdecode(done.stdout.removesuffix(b"\n")))


def find_tree_if_launcher_folder(folder: Path) -> Path | None:
    """The tree whose launchers a folder has, or links to them. A launcher also runs what isn't proved."""
    top = (folder / REGRESS).resolve().parent
    return top if (top / PROVED_TOOL).is_file() and (top / "crates.txt").is_file() else None


def client_version_or_commit() -> str:
    """The commit that this client is of, with `-dirty` where files differ from it; before it the package's version."""
    if PACKAGE_VERSION.exists():
        return printable_octets(PACKAGE_VERSION.read_bytes().strip())
    words = ["describe", "--always", "--dirty", "--abbrev=40", "--exclude=*"]
    try:
        done = subprocess.run(["git", "-C", TOP, *words], stdin=subprocess.DEVNULL, capture_output=True)
    except OSError:
        return "unknown"
    return printable_octets(done.stdout.strip()) if done.returncode == 0 else "unknown"


def sha256_of(path: Path) -> str:
    """The SHA-256 of a program."""
    import hashlib  # only who requests it pays for what makes it

    with path.open("rb") as file:
        return hashlib.file_digest(file, "sha256").hexdigest()
