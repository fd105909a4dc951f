"""The second reading in model/ plays the scripts of examples/suite, worked out by hand, as they are written."""

from collections.abc import Iterator
from pathlib import Path

from model.scripts import Unplayed, fault_of

SUITE = Path(__file__).resolve().parents[1] / "examples" / "suite"
# So many scripts are of a sender of data alone.
LEAST = 120


def faults_of_scripts() -> Iterator[str]:
    """The fault of each script that is played, empty where there is none."""
    for path in sorted(SUITE.rglob("*.pkt")):
        try:
            yield fault_of(path)
        except Unplayed:
            pass


def test_the_scripts_of_the_suite_are_met() -> None:
    found = list(faults_of_scripts())
    assert len(found) >= LEAST
    assert not any(found), "\n".join(it for it in found if it)
