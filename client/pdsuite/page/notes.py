"""The table's notes on the sender: why it isn't built or proved, and which scripts it turned."""

from collections.abc import Sequence
from dataclasses import dataclass

from pdsuite.compare.comparison import ComparedScript
from pdsuite.output.octets import printable_path
from pdsuite.page.links import page_file_name_of
from pdsuite.reports.comparison import compared_script_lines

# Of so many scripts the table shows how they turned; of all others that they did.
_MOST = 50


@dataclass(frozen=True, slots=True)
class TurnedScript:
    """A script that the sender turned: its path, its page, and the lines that show how."""

    path: str
    file: str
    lines: tuple[str, ...]


@dataclass(frozen=True, slots=True)
class SenderNotes:
    """The notes on the sender: the lines of each refusal, and the scripts that turned."""

    refusals: tuple[tuple[str, ...], ...] = ()
    turned: tuple[TurnedScript, ...] = ()


def turned_scripts_with_lines_of_first_ones(scripts: Sequence[ComparedScript]) -> tuple[TurnedScript, ...]:
    """The scripts that turned, as the table has them."""
    line_lists = [tuple(compared_script_lines(it)) for it in scripts[:_MOST]]
    line_lists += [()] * (len(scripts) - len(line_lists))
    return tuple(
        TurnedScript(printable_path(it.path), page_file_name_of(it.path), lines)
        for it, lines in zip(scripts, line_lists)
    )
