#!/usr/bin/env -S python3 -B
"""Builds pdregress and pdrecord of a tree without proofs, or finds what was built before and is kept:

build_unproved.py [--tree FOLDER] [--kept] [--way plain|optimised|any]

Standard output has a line for each phase as it begins, `waiting` (for a build of the same sources that another call
makes), `reading`, `compiling` and `linking`, and last `built FOLDER`: both programs lie in that folder, and run by
themselves. The way `any` takes an optimised build where one is kept, and makes a plain one where nothing is. With
--kept nothing is built.

Where the sources don't compile, standard error has the line `unproved: NotCompiled: ..` and below it what the compiler
says, and the status is 2. Where nothing can be built or kept so, its line is `unproved: NoBuild: ..` and the status is
3; `rt try` may run the programs still. With --kept the status is 3 where none is kept.
"""
from __future__ import annotations

import argparse
import sys
from pathlib import Path

import signals
from build_cache import OPTIMISED, PLAIN, find_cached_program_folder_of_first_way

FAULT = 2
NO_BUILD = 3
TOP = Path(__file__).resolve().parents[1]
ANY = "any"
# In which ways a build that is kept serves.
SERVES = {ANY: (OPTIMISED, PLAIN), PLAIN: (PLAIN,), OPTIMISED: (OPTIMISED,)}


class Phases:
    """Writes a line for each phase as it begins."""

    def __init__(self) -> None:
        self._last = ""

    def print_phase_to_stdout_if_new(self, phase: str) -> None:
        if phase != self._last:
            self._last = phase
            print(phase, flush=True)


def find_or_build_and_print_returning_status(tree: Path, way: str, is_kept: bool) -> int:
    """Finds what is kept, or builds it; the status."""
    folder = find_cached_program_folder_of_first_way(tree, SERVES[way])
    if folder is not None:
        print(f"built {folder}", flush=True)
        return 0
    if is_kept:
        print("unproved: NoBuild: none is kept", file=sys.stderr)
        return NO_BUILD
    return build_in_cache_returning_status(tree, PLAIN if way == ANY else way)


def build_in_cache_returning_status(tree: Path, way: str) -> int:
    """Builds in this way; the status."""
    import building  # Imported late, since it takes time.

    try:
        print(f"built {building.find_or_build(tree, way, Phases().print_phase_to_stdout_if_new)}", flush=True)
    except building.NotCompiled as refused:
        print(f"unproved: NotCompiled: {refused}", file=sys.stderr, flush=True)
        sys.stderr.buffer.write(refused.printed)
        return FAULT
    except building.NoBuild as reason:
        print(f"unproved: NoBuild: {reason}", file=sys.stderr)
        return NO_BUILD
    return 0


def main() -> int:
    parser = argparse.ArgumentParser(allow_abbrev=False, description=(__doc__ or "").partition(":\n")[0])
    parser.add_argument("--tree", metavar="FOLDER", type=Path, default=TOP, help="the tree of the programs")
    parser.add_argument("--kept", action="store_true", help="builds nothing")
    parser.add_argument("--way", choices=list(SERVES), default=ANY, help="how they are built")
    options = parser.parse_args()
    signals.install_handlers_raising_at_first_signal()
    try:
        return find_or_build_and_print_returning_status(options.tree.absolute(), options.way, options.kept)
    except signals.StoppedBySignal as signal:
        signals.end_process_by(signal.number)


if __name__ == "__main__":
    sys.exit(main())
