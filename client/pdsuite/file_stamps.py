"""How a file is distinguished from what it was: by its inode, size and times."""

import os
import time
from collections.abc import Callable, Mapping
from dataclasses import dataclass
from pathlib import Path
from typing import Generic, TypeVar

# Of what was written so many nanoseconds before it was read, a second writing may have left the same times.
_YOUNG = 20_000_000
# The same where a file system keeps times in whole seconds.
_COARSE = 2_000_000_000
_SECOND = 1_000_000_000
# A file that was written less than so many nanoseconds ago may still be written to.
_FRESH = 500_000_000

Stamp = tuple[int, ...]
T = TypeVar("T")


@dataclass(frozen=True, slots=True)
class StampedValue(Generic[T]):
    """A value that was read from a file, and the file's stamp then."""

    value: T
    stamp: Stamp
    is_torn: bool  # the file changed while it was read
    is_young: bool  # the file may have changed since, and have the same stamp
    is_fresh: bool = False  # whoever wrote the file may go on


def stamp_or_errno_of_file(path: str | Path) -> Stamp:
    """Inode, size and times of a file, or why it has none."""
    try:
        it = os.stat(path)
    except OSError as error:
        return (error.errno or 0,)
    except ValueError:
        return ()
    return (it.st_dev, it.st_ino, it.st_size, it.st_mtime_ns, it.st_ctime_ns)


def read_value_and_file_stamp(path: str | Path, read: Callable[[], T]) -> StampedValue[T]:
    """Reads a value from a file, and answers it with the file's stamp."""
    begin = time.time_ns()
    stamp = stamp_or_errno_of_file(path)
    age = time.time_ns() - stamp[-2] if len(stamp) > 1 else _FRESH
    value = read()
    is_young = len(stamp) > 1 and max(stamp[-2:]) > begin - _YOUNG
    return StampedValue(value, stamp, stamp != stamp_or_errno_of_file(path), is_young, 0 <= age < _FRESH)


def is_unchanged_since_read(it: StampedValue[T], path: str | Path) -> bool:
    """Whether the file is surely as it was when it was read."""
    return not it.is_torn and not it.is_young and it.stamp == stamp_or_errno_of_file(path)


def shows_any_later_write(stamp: Stamp, moment: int) -> bool:
    """Whether a file that had this stamp at a moment, in nanoseconds, has another one after each later writing.

    A writing within the same tick of the clock may leave all times as they were.
    """
    if len(stamp) < 2:
        return True
    changed = stamp[-1]
    return changed < moment - (_COARSE if changed % _SECOND == 0 else _YOUNG)


def are_stamps_current(stamps: Mapping[str, Stamp]) -> bool:
    """Whether all files have these stamps, by their paths."""
    return all(stamp_or_errno_of_file(path) == stamp for path, stamp in stamps.items())
