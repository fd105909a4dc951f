"""The listing of an import for people: a line or a block for each script, and then a list by kind and count."""

from collections import Counter
from collections.abc import Iterable, Iterator, Sequence
from dataclasses import dataclass

from pdsuite.imports.conversion import Imported, NotImported
from pdsuite.imports.findings import Finding, Heading, Reason
from pdsuite.output.octets import printable_path, printable_text
from pdsuite.scripts.settings import value_as_toml

_MOST = 120
_FLOOR = "  of a kernel, min_rto_us: RFC 6298 puts this floor under the whole RTO, Linux under 4 RTTVAR alone"


@dataclass(frozen=True)
class Listed:
    """A script with its result: it is imported, or left where it was, or it couldn't be read."""

    path: str
    came: Imported | NotImported | str


def import_result_lines_of_script(listed: Listed) -> Iterator[str]:
    """The line of a script, and what stands below it."""
    path = printable_path(listed.path)
    match listed.came:
        case str(reason):
            yield f"{path}: error: {reason}"
        case Imported(changed=0):
            yield f"{path}: imported, packets kept"
        case Imported(changed=changed):
            yield f"{path}: imported, changed to this profile: {_count_with_noun(changed, 'packet')}"
        case NotImported(reasons):
            yield f"{path}: not imported"
            yield from map(_reason_line_without_path, reasons)


def summary_lines(scripts: Sequence[Listed]) -> Iterator[str]:
    """The list by kind and count, and the totals."""
    imported = [it.came for it in scripts if isinstance(it.came, Imported)]
    left = [it.came for it in scripts if isinstance(it.came, NotImported)]
    findings = [finding for it in imported for finding in it.findings]
    yield from _count_table("not imported, scripts", (reason.words for it in left for reason in it.reasons))
    yield from _count_table("not imported for this alone, scripts", sole_reason_of_each_script(left))
    for heading in Heading:
        yield from _count_table(heading.value, _finding_words_of_heading(findings, heading))
    settings = (f"{key} = {value_as_toml(value)}" for script in imported for key, value in script.settings)
    yield from _count_table("settings, scripts", settings)
    if not all(it.is_own for it in imported):
        yield _FLOOR
    kept = sum(not it.changed for it in imported)
    errors = len(scripts) - len(imported) - len(left)
    yield (
        f"total {len(scripts)} imported {len(imported)} packets kept {kept} "
        f"changed to this profile {len(imported) - kept} not imported {len(left)} error {errors}"
    )


def sole_reason_of_each_script(left: Iterable[NotImported]) -> Iterator[str]:
    """The reason of each script that has no other."""
    return (it.reasons[0].words for it in left if len(it.reasons) == 1)


def exit_status_by_errors_and_not_imported(scripts: Sequence[Listed]) -> int:
    """The exit status: 0 where each script is imported, 2 where one couldn't be read, else 1."""
    if any(isinstance(it.came, str) for it in scripts):
        return 2
    return 0 if all(isinstance(it.came, Imported) for it in scripts) else 1


def _reason_line_without_path(reason: Reason) -> str:
    what = f": {_shorten_to_printable_text(reason.what)}" if reason.what else ""
    return f"  line {reason.line}: {_shorten_to_printable_text(reason.words)}{what}"


def _shorten_to_printable_text(text: str) -> str:
    return printable_text(text, _MOST)


def _count_table(heading: str, words: Iterable[str]) -> Iterator[str]:
    """The words below a heading, each with its count, the most frequent first."""
    counts = Counter(words)
    if counts:
        yield f"{heading}:"
        for word, count in sorted(counts.items(), key=lambda it: (-it[1], it[0])):
            yield f"  {count:5} {_shorten_to_printable_text(word)}"


def _finding_words_of_heading(findings: Iterable[Finding], heading: Heading) -> Iterator[str]:
    return (it.words for it in findings if it.heading is heading)


def _count_with_noun(count: int, noun: str) -> str:
    return f"{count} {noun}" if count == 1 else f"{count} {noun}s"
