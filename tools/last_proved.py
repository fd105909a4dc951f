#!/usr/bin/env python3
"""The programs of this tree that were proved last, of which ./prove keeps copies: last_proved.py

Prints the folder that has them, or says with status 2 that there is none. It is below ~/.cache/pdregress, or below
XDG_CACHE_HOME: one folder for each tree, of a few megabytes, with the programs and a file `commit`.
"""
from __future__ import annotations

import contextlib
import hashlib
import os
import shutil
import subprocess
import sys
from collections.abc import Iterable
from pathlib import Path

TOP = Path(__file__).resolve().parents[1]
COMMIT = "commit"


def user_cache_folder_of_proved_programs() -> Path:
    """The folder of this tree."""
    cache = os.environ.get("XDG_CACHE_HOME", "")
    above = Path(cache) if os.path.isabs(cache) else Path.home() / ".cache"
    digest = hashlib.sha256(os.fsencode(TOP)).hexdigest()[:16]
    return above / "pdregress" / "proved" / digest


def keep_programs(programs: Iterable[str]) -> None:
    """Keeps copies of these programs in place of those that are kept, if that can be; no proof depends on it."""
    kept = user_cache_folder_of_proved_programs()
    beside = kept.with_name(f"{kept.name}.{os.getpid()}")
    with contextlib.suppress(OSError, RuntimeError):
        beside.mkdir(parents=True)
        try:
            for program in programs:
                shutil.copy2(TOP / "crates" / program / "out" / program, beside)
            (beside / COMMIT).write_text(f"{commit_hash_marked_if_dirty()}\n")
            shutil.rmtree(kept, ignore_errors=True)
            beside.replace(kept)
        finally:
            shutil.rmtree(beside, ignore_errors=True)


def commit_hash_marked_if_dirty() -> str:
    """The commit of this tree, with `-dirty` where files differ from it."""
    words = ["describe", "--always", "--dirty", "--abbrev=40", "--exclude=*"]
    said = subprocess.run(["git", "-C", TOP, *words], stdin=subprocess.DEVNULL, capture_output=True, text=True)
    return said.stdout.strip() or "unknown"


def main() -> int:
    try:
        kept = user_cache_folder_of_proved_programs()
    except RuntimeError as error:
        print(f"last_proved: {error}", file=sys.stderr)
        return 2
    if not (kept / COMMIT).is_file():
        print("./prove has kept no programs of this tree", file=sys.stderr)
        return 2
    print(kept)
    return 0


if __name__ == "__main__":
    sys.exit(main())
