#!/usr/bin/env -S python3 -B
"""Draws the random rows anew that are stored beside test_sender and test_book, for `rt ci`, and their outputs.

    tests/store_rows.py

They are the first of those that tests/run draws. Run it after a change of the models in tests/model.
"""

import sys
from collections.abc import Iterator
from dataclasses import dataclass
from pathlib import Path

sys.path.insert(0, str(Path(__file__).resolve().parent))

from drawn.drawing import Amount  # noqa: E402
from harness.random_rows import PROGRAMS, RowLists, encode_lines, stdout_for_drawn_in_place_of_stored_rows  # noqa: E402
from harness.tables import TOP  # noqa: E402


@dataclass(frozen=True)
class StoredRows:
    """So many lists of a kind that are stored beside a program, from a seed."""

    program: str
    kind: str
    count: int
    seed: int

    @property
    def row_lists_of_program_and_kind(self) -> RowLists:
        return PROGRAMS[self.program][self.kind]

    @property
    def rows_file(self) -> Path:
        return TOP / "crates" / self.program / "data" / self.row_lists_of_program_and_kind.file

    @property
    def output_file(self) -> Path:
        """The file that has the whole wanted output of the program."""
        return TOP / "crates" / self.program / "stdout"

    def rows_drawn_from_seed(self) -> Iterator[str]:
        return self.row_lists_of_program_and_kind.drawn(self.seed, Amount(self.count))


STORED = (
    StoredRows("test_sender", "packets", 200, 20_261_124),
    StoredRows("test_sender", "short boards", 12, 20_261_122),
    StoredRows("test_book", "books", 17, 20_261_122),
)


def store_rows(it: StoredRows) -> None:
    """Writes the rows, and their output in place of that of the rows before."""
    before, after = it.rows_file.read_text().splitlines(), list(it.rows_drawn_from_seed())
    output = stdout_for_drawn_in_place_of_stored_rows(
        it.output_file.read_bytes(),
        encode_lines(it.row_lists_of_program_and_kind.output(before)),
        encode_lines(it.row_lists_of_program_and_kind.output(after)),
    )
    it.rows_file.write_bytes(encode_lines(after))
    it.output_file.write_bytes(output)


if __name__ == "__main__":
    for each in STORED:
        store_rows(each)
