"""Files and folders that are written whole or not at all."""

import errno
import os
import shutil
import stat
from collections.abc import Iterable
from pathlib import Path

from pdsuite.faults import Fault, error_reason
from pdsuite.output.octets import printable_path


def write_file_atomically(path: Path, octets: bytes, keeps_rights: bool = False) -> None:
    """Writes a file beside its place and renames it; a device or a pipe is written itself.

    It has the rights that the mask leaves, or those of the file in whose place it comes.
    """
    try:
        target = Path(os.path.realpath(path))
        if is_special_file(path):
            path.write_bytes(octets)
        else:
            _write_and_rename(target, octets, target.stat().st_mode if keeps_rights and target.exists() else None)
    except OSError as error:
        raise Fault(f"{printable_path(path)}: {error_reason(error)}") from error


def is_special_file(path: Path) -> bool:
    """Whether a device or a pipe is there, or anything else that isn't put in another one's place."""
    return path.exists() and not path.is_file()


def require_writable_file_place(path: Path) -> None:
    """Raises a fault where it is plain that no file can be written: at a folder, or in one that isn't there or shut."""
    try:
        above = Path(os.path.realpath(path)).parent
        if path.is_dir():
            raise Fault(f"{printable_path(path)}: is a folder")
        if not is_special_file(path) and not above.is_dir():
            raise Fault(f"{printable_path(path)}: the folder above it isn't there")
        if not (os.access(path, os.W_OK) if is_special_file(path) else os.access(above, os.W_OK | os.X_OK)):
            raise Fault(f"{printable_path(path)}: {os.strerror(errno.EACCES)}")
    except (OSError, ValueError) as error:
        raise Fault(f"{printable_path(path)}: {error_reason(error)}") from error


def append_to_file(path: Path, octets: bytes) -> None:
    """Writes at the end of a file, whatever others have written there."""
    try:
        with path.open("ab") as file:
            file.write(octets)
    except OSError as error:
        raise Fault(f"{printable_path(path)}: {error_reason(error)}") from error


def _write_and_rename(target: Path, octets: bytes, mode: int | None) -> None:
    beside = target.with_name(f".{target.name[:200]}.{os.getpid()}")
    descriptor = os.open(beside, os.O_WRONLY | os.O_CREAT | os.O_EXCL, 0o666)
    try:
        with open(descriptor, "wb") as file:
            file.write(octets)
            if mode is not None:
                os.fchmod(descriptor, stat.S_IMODE(mode))
        beside.replace(target)
    except BaseException:
        beside.unlink(missing_ok=True)
        raise


def real_path_requiring_new_or_empty_folder(path: Path) -> Path:
    """Where a folder is to be written that is new or empty, and not the one that this process is in."""
    target = Path(os.path.realpath(path))
    try:
        if os.path.lexists(target):
            if not target.is_dir():
                raise Fault(f"{printable_path(path)}: isn't a folder")
            if any(target.iterdir()):
                raise Fault(f"{printable_path(path)}: isn't empty")
            if target.samefile(os.curdir):
                raise Fault(f"{printable_path(path)}: is the folder that you are in")
        elif not target.parent.is_dir():
            raise Fault(f"{printable_path(path)}: the folder above it isn't there")
    except OSError as error:
        raise Fault(f"{printable_path(path)}: {error_reason(error)}") from error
    return target


def write_folder_atomically(target: Path, files: Iterable[tuple[str, bytes]]) -> None:
    """Writes files, by their paths from the folder, into one beside its place, and renames that."""
    beside = target.with_name(f".{target.name[:200]}.{os.getpid()}")
    try:
        beside.mkdir()
        try:
            for name, octets in files:
                file = beside / name
                file.parent.mkdir(parents=True, exist_ok=True)
                file.write_bytes(octets)
            beside.replace(target)
        except BaseException:
            shutil.rmtree(beside, ignore_errors=True)
            raise
    except OSError as error:
        raise Fault(f"{printable_path(target)}: {error_reason(error)}") from error
