"""The text that a script's file would hold in place of its own, and what that changes, line by line."""

from collections.abc import Iterator
from dataclasses import dataclass
from difflib import SequenceMatcher

# So many lines around a change are shown.
_AROUND = 3
_NO_NEWLINE = "\\ No newline at end of file"


@dataclass(frozen=True, slots=True)
class FileDiff:
    """A script's path, as people see it, with what its file holds, and what it would hold."""

    path: str
    old: bytes
    new: bytes

    @property
    def added_and_removed_counts(self) -> tuple[int, int]:
        """How many lines come, and how many go."""
        signs = [line[:1] for line in unified_hunks(self.old, self.new)]
        return signs.count("+"), signs.count("-")


def give_recording_line_ends_of_file(old: bytes, recording: bytes) -> bytes:
    """A recording with the ends of lines that a file has, and with no newline after the last line where it has none."""
    newlines = old.count(b"\n")
    if newlines and newlines == old.count(b"\r\n"):
        recording = recording.replace(b"\n", b"\r\n")
    if old[-1:] not in (b"", b"\n"):
        recording = recording.removesuffix(b"\n").removesuffix(b"\r")
    return recording


def unified_hunks(old: bytes, new: bytes) -> Iterator[str]:
    """The lines of a unified diff between two texts, after its head."""
    before, after = _split_lines(old), _split_lines(new)
    for group in SequenceMatcher(None, before, after, autojunk=False).get_grouped_opcodes(_AROUND):
        first, last = group[0], group[-1]
        yield f"@@ -{_unified_range(first[1], last[2])} +{_unified_range(first[3], last[4])} @@"
        for tag, begin, end, new_begin, new_end in group:
            if tag == "equal":
                yield from _prefix_lines(" ", before[begin:end])
                continue
            yield from _prefix_lines("-", before[begin:end])
            yield from _prefix_lines("+", after[new_begin:new_end])


def _split_lines(text: bytes) -> list[str]:
    """The lines, each with its newline."""
    lines = [f"{line}\n" for line in text.decode("utf-8", "backslashreplace").split("\n")]
    last = lines.pop().removesuffix("\n")
    return [*lines, last] if last else lines


def _prefix_lines(sign: str, lines: list[str]) -> Iterator[str]:
    for line in lines:
        yield sign + line.removesuffix("\n")
        if not line.endswith("\n"):
            yield _NO_NEWLINE


def _unified_range(begin: int, end: int) -> str:
    """Lines as a unified diff names them."""
    count = end - begin
    if count == 1:
        return str(begin + 1)
    return f"{begin + 1 if count else begin},{count}"
