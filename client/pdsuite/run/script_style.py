"""Packets that a script lacks in its own manner: one blank between fields, and no window where it writes none."""

import re

# Begins a line with a packet to be put into a script.
_MEND = "mend by inserting: "
_BLANKS = re.compile(" {2,}")
_WINDOW = re.compile(r" win \d+")
_COMMENT = re.compile(rb"//[^\n]*|/\*.*?\*/", re.DOTALL)
# A packet that leaves, as it is written with a window.
_WITH_WINDOW = re.compile(rb">\s*[A-Z.-]+\s*\d+:\d+\s*\(\s*\d+\s*\)\s*(?:ack\s*\d+\s*)?win\s*\d")


def restyle_suggested_insertions_like_script(lines: tuple[str, ...], text: bytes) -> tuple[str, ...]:
    """The lines about a script, with each packet to be put into it as the script writes those that leave."""
    if not any(it.startswith(_MEND) for it in lines):
        return lines
    has_windows = _WITH_WINDOW.search(_COMMENT.sub(b" ", text)) is not None
    return tuple(
        _collapse_blanks_and_maybe_drop_window(it, has_windows) if it.startswith(_MEND) else it for it in lines
    )


def _collapse_blanks_and_maybe_drop_window(line: str, has_windows: bool) -> str:
    line = _BLANKS.sub(" ", line)
    return line if has_windows else _WINDOW.sub("", line, 1)
