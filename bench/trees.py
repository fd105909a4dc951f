"""Copies of this tree, each with a mutant of the sender."""

import shutil
import sys
from pathlib import Path

TOP = Path(__file__).resolve().parents[1]
sys.path.insert(0, str(TOP / "tools"))

from mutant_files import Mutant, MutantError, apply_mutant, parse_mutants_of_text  # noqa: E402

__all__ = ["TOP", "Mutant", "copy_tree_with_mutant", "parse_mutants_of_text"]

# The parts of this tree that a copy has.
FOLDERS = ("client/pdsuite", "crates", "tools")
FILES = ("client/packages.txt", "crates.txt", "HANDLES", "pdrecord", "pdregress", "pdsuite")


def copy_tree_with_mutant(place: Path, mutant: "Mutant | None" = None) -> Path:
    """A copy of this tree in a place, with the mutant, if one is given."""
    for folder in FOLDERS:
        shutil.copytree(TOP / folder, place / folder, ignore=shutil.ignore_patterns("out", "__pycache__"))
    for file in FILES:
        shutil.copy(TOP / file, place / file, follow_symlinks=False)
    try:
        if mutant is not None:
            apply_mutant(mutant, place)
    except MutantError as why:
        raise SystemExit(f"{mutant.name if mutant else place}: {why}") from None
    return place
