"""A proof that is refused: `./prove` leaves what it says of that, which holds until a file that it names changes."""

import re
from collections.abc import Iterator, Mapping, Sequence
from pathlib import Path

from pdsuite.faults import Fault
from pdsuite.file_stamps import Stamp, are_stamps_current, stamp_or_errno_of_file
from pdsuite.output.octets import printable_octets
from pdsuite.scripts.text import UnfitTextError, read_regular_file_up_to_limit

# The file that ./prove leaves where a proof is refused, and takes away when it begins.
_FILE = "crates/pdregress/out/refused"
_LONGEST = 1 << 16
_NONE = 1  # a stamp of a file that isn't there has one number
# A place of the sources, wherever it stands in a line.
_PLACE = re.compile(r"(?<!\S)\(?(/[^:()]+\.(?:rt|antt)):\d")


class RefusedProof:
    """The proof that was refused last in a tree. A file that is there at the beginning is older, and isn't read."""

    def __init__(self, tree: Path | None) -> None:
        self._file = None if tree is None else tree / _FILE
        self._stamp = self._file_stamp()
        self._named: Mapping[str, Stamp] = {}
        self.lines: Sequence[str] = ()  # its lines

    def reread_lines_returning_whether_changed(self) -> bool:
        """Whether its lines are others than at the last look."""
        before, stamp = self.lines, self._file_stamp()
        if stamp != self._stamp:
            self._stamp = stamp
            self.lines = tuple(self._lines_of_file_if_there_and_readable())
            self._named = {path: stamp_or_errno_of_file(path) for line in self.lines for path in _PLACE.findall(line)}
        elif not are_stamps_current(self._named):
            self.lines, self._named = (), {}
        return self.lines != before

    def _file_stamp(self) -> Stamp:
        return (_NONE,) if self._file is None else stamp_or_errno_of_file(self._file)

    def _lines_of_file_if_there_and_readable(self) -> Iterator[str]:
        if self._file is None or len(self._stamp) == _NONE:
            return
        try:
            yield from (
                printable_octets(line) for line in read_regular_file_up_to_limit(self._file, _LONGEST).splitlines()
            )
        except (Fault, UnfitTextError):
            return
