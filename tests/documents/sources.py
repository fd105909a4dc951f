"""The first line of each source, which says what the file is for: pages leave that to the sources."""

from collections.abc import Iterator
from pathlib import Path

HEADS = {".rt": "//! ", ".antt": "-- "}
FOLDERS = frozenset({"src", "specs"})


def files_without_head(top: Path, files: list[Path]) -> Iterator[str]:
    """A line for each file of src/ and specs/ whose first line isn't a comment."""
    for path in files:
        if path.suffix not in HEADS or not FOLDERS & set(path.parts):
            continue
        with open(top / path, encoding="utf-8") as lines:
            if not lines.readline().startswith(HEADS[path.suffix]):
                yield f"{path}: its first line doesn't say what it is for"
