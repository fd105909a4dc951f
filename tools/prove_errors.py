"""The errors in what `rt` prints of a crate that isn't proved: each with its place, and without the advice between."""
from __future__ import annotations

import os
import re
from collections.abc import Callable, Iterator
from pathlib import Path

# A message about a place, as `src/lib.rt:5:1`. A note has the message that a goal is open.
PLACED = re.compile(r"(?:note: )?(?P<path>[^\s:]+\.(?:rt|antt)):(?P<place>\d+:\d+): (?P<message>error.*|it is not .*)")
# A message about no place. A function that calls one without a proof has none either, and is no error of its own.
PLAIN = re.compile(r"error\b|fn \S+: no proof: (?!it calls )")
DIFFERENCE = "differ "


def errors_in_log(log: str, folder: Path, shown: Callable[[str], str] = os.path.relpath) -> Iterator[str]:
    """The lines of the errors in a log, with those that go on below one. Paths are from here, or as they are shown.

    >>> log = "note: a\\n./src/a.rt:1:2: error: b\\n  the two first differ where c\\nnote: d\\n"
    >>> print(*errors_in_log(log, Path.cwd()), sep="\\n")
    src/a.rt:1:2: error: b
      the two first differ where c
    >>> list(errors_in_log("note: a\\n  the two first differ where b\\n", Path.cwd()))
    ['  the two first differ where b']
    """
    is_within = False
    for line in log.splitlines():
        placed = PLACED.match(line)
        if placed:
            path = os.path.normpath(folder / placed["path"])
            yield f"{shown(path)}:{placed['place']}: {placed['message']}"
        elif PLAIN.match(line) or is_within and line.startswith(" ") or DIFFERENCE in line:
            yield line
        else:
            is_within = False
            continue
        is_within = True
