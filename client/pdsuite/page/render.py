"""Pages as octets: templates filled with values, in which all is escaped that isn't a template's own."""

from collections import Counter
from collections.abc import Sequence
from functools import cache
from pathlib import Path
from typing import TYPE_CHECKING

from jinja2 import Environment, FileSystemLoader, StrictUndefined

from pdsuite.compare.comparison import KindCounts
from pdsuite.diagram.palette import light_and_dark_css_variables
from pdsuite.page.links import FOLDER, PLOTS
from pdsuite.page.notes import SenderNotes
from pdsuite.page.view_model import ScriptView, TableRow
from pdsuite.programs.verdict import Verdict
from pdsuite.run.outcomes import CountedAs

if TYPE_CHECKING:
    from pdsuite.page.comparison import ComparedRules, ComparisonSection
    from pdsuite.page.measure_view import MeasureSection
    from pdsuite.page.rules import RuleGroup
    from pdsuite.rules.reached_rules import RuleRun

_HERE = Path(__file__).parent
# Stands in each page, and shows whose it is.
GENERATOR = "pdsuite"
# The style sheet of all pages, beside the table.
_STYLE = "page.css"
# Says of all pages that their sender doesn't stand any more, so that no page has to be written again for it.
SENDER = "sender.css"
STATIC = (_STYLE, "page.js", SENDER)
_RANKS: tuple[Verdict | CountedAs, ...] = (
    CountedAs.UNEXPECTED,
    Verdict.FAIL,
    Verdict.ERROR,
    Verdict.SYNTAX,
    Verdict.LIMIT,
    Verdict.UNSUPPORTED,
    Verdict.NOT_RUN,
    CountedAs.KNOWN,
    Verdict.PASS,
)


def static_file_octets(name: str) -> bytes:
    """A file that all pages use."""
    if name == SENDER:
        return css_marking_pages_of_sender_before("")
    octets = (_HERE / "static" / name).read_bytes()
    return (
        octets + f"\n/* The colours of diagrams. */\n{light_and_dark_css_variables(':root')}\n".encode()
        if name == _STYLE
        else octets
    )


def css_marking_pages_of_sender_before(words: str) -> bytes:
    """The CSS that marks all pages as those of the sender before, says why, and dims them; empty without words."""
    if not words:
        return b""
    shown = "".join(f"\\{ord(it):x} " if it in '"\\\n' else it for it in f"OF THE SENDER BEFORE: {words}")
    mark = "display: block; padding: 0.5em 1em; border: 2px solid; font-weight: bold"
    return f'body::before {{ content: "{shown}"; {mark} }}\nheader, main {{ opacity: 0.5 }}\n'.encode()


def render_table_page(rows: Sequence[TableRow], is_unproved: bool = False, notes: SenderNotes = SenderNotes()) -> bytes:
    """The page with the table: what fails stands first, and what is counted alike in the order of paths."""
    counts = Counter(it.counted_as for it in rows)
    tallies = [(it, counts[it]) for it in (*Verdict, *CountedAs) if counts[it]]
    ranked = sorted(rows, key=_verdict_and_warning_rank)
    values = {"rows": ranked, "tallies": tallies, "folder": FOLDER, "is_unproved": is_unproved}
    return _fill_template("table.html", notes=notes, **values)


def _verdict_and_warning_rank(row: TableRow) -> tuple[int, bool]:
    """Which verdicts come first; of those that pass the ones that are warned of."""
    return _RANKS.index(row.counted_as), row.counted_as is Verdict.PASS and not row.why


def render_script_page(sheet: ScriptView, is_unproved: bool = False) -> bytes:
    """The page of a script."""
    return _fill_template("script.html", sheet=sheet, row=sheet.row, plots=PLOTS, is_unproved=is_unproved)


def render_comparison_page(
    sections: "Sequence[ComparisonSection]",
    counts: Sequence[KindCounts],
    rules: "Sequence[ComparedRules]",
    names: tuple[str, str],
    is_unproved: bool,
) -> bytes:
    """The page of a comparison."""
    values = {"sections": sections, "counts": counts, "rules": rules, "names": names}
    return _fill_template("compare.html", is_unproved=is_unproved, **values)


def render_measure_page(
    sections: "Sequence[MeasureSection]", totals: Sequence[str], names: tuple[str, str], is_unproved: bool
) -> bytes:
    """The page of what was measured."""
    return _fill_template("measure.html", sections=sections, totals=totals, names=names, is_unproved=is_unproved)


def render_rules_page(groups: "Sequence[RuleGroup]", run: "RuleRun", is_unproved: bool) -> bytes:
    """The page of the rules that the scripts of a run come to."""
    reached = [bool(it.scripts) for group in groups for it in group.rules]
    counts = {"rule_count": len(reached), "unreached_count": reached.count(False)}
    return _fill_template("rules.html", groups=groups, run=run, is_unproved=is_unproved, **counts)


def _fill_template(name: str, **values: object) -> bytes:
    text = _template_environment().get_template(name).render(generator=GENERATOR, passes=Verdict.PASS, **values)
    return text.encode()


@cache
def _template_environment() -> Environment:
    return Environment(
        loader=FileSystemLoader(_HERE / "templates"),
        autoescape=True,
        undefined=StrictUndefined,
        trim_blocks=True,
        lstrip_blocks=True,
        keep_trailing_newline=True,
    )
