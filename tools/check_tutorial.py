#!/usr/bin/env -S python3 -B
"""Walks docs/TUTORIAL.md on a clean clone of this commit, as a newcomer does: what proves and what runs unproved too.

Runs each command that the tutorial shows, one after another, and compares what it prints. Prints a line for each with
the seconds that it took, and `N passed, M failed` last. The clone is made in FOLDER, which isn't there yet, and stays.
The gate runs the other commands, with the built programs; see tests/documents.py.
"""

import argparse
import os
import subprocess
import sys
import time
from pathlib import Path

TOP = Path(__file__).resolve().parents[1]
sys.path.insert(0, str(TOP / "tests"))

from documents.shown import commands_shown_in  # noqa: E402
from documents.walking import run_shown_commands_and_yield_each_step  # noqa: E402

SECONDS = 4 * 3_600.0


def main(arguments: list[str]) -> int:
    """Clones, walks, and prints whether all was printed as it is shown."""
    parser = argparse.ArgumentParser(description=__doc__, formatter_class=argparse.RawDescriptionHelpFormatter)
    parser.add_argument("folder", type=Path, metavar="FOLDER", help="the folder for the clones: not there yet")
    folder = parser.parse_args(arguments).folder.absolute()
    folder.mkdir(parents=True)
    tree = folder / "pdregress"
    # Use no build that was kept before: a newcomer has none.
    os.environ["XDG_CACHE_HOME"] = str(folder / "cache")
    subprocess.run(["git", "clone", "-q", TOP, tree], check=True)
    begin = time.monotonic()
    passed = failed = 0
    text = (tree / "docs/TUTORIAL.md").read_text(encoding="utf-8")
    for step in run_shown_commands_and_yield_each_step(list(commands_shown_in(text)), tree, SECONDS, is_proved=False):
        name = step.shown.command.partition("\n")[0] or "what watch prints"
        state = "ok" if step.printed_instead is None else "FAILED"
        print(f"{state} {step.shown.line}: {name} ({step.seconds:.1f} s)", flush=True)
        if step.printed_instead is not None:
            print(step.printed_instead, flush=True)
        passed, failed = passed + (step.printed_instead is None), failed + (step.printed_instead is not None)
    print(f"{(time.monotonic() - begin) / 60:.0f} minutes")
    print(f"{passed} passed, {failed} failed")
    return 1 if failed else 0


if __name__ == "__main__":
    sys.exit(main(sys.argv[1:]))
