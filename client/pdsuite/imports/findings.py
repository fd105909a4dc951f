"""The reasons why a script isn't imported, and the findings of one that is: what was dropped, changed or noted."""

from dataclasses import dataclass
from enum import Enum


@dataclass(frozen=True, slots=True)
class Reason:
    """Why a script isn't imported: at which line, in words that are counted, and by what there."""

    line: int
    words: str
    what: str = ""


class Heading(Enum):
    """Below which heading a finding is counted."""

    SETUP = "dropped from set-up"
    DROPPED = "dropped"
    CALLS = "calls changed to this profile"
    CHANGED = "changed to this profile"
    ASSERTED = "assertions for pdsuite run"
    NOT_COMPARED = "assertions not compared"


@dataclass(frozen=True, slots=True)
class Finding:
    """Something that was done to an imported script."""

    heading: Heading
    words: str
