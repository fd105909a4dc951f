"""The report as JUnit's XML, for build servers."""

import os
from collections.abc import Iterable, Mapping, Sequence
from dataclasses import dataclass
from datetime import UTC, datetime, timedelta

from pdsuite.output.octets import printable_path
from pdsuite.programs.verdict import Verdict
from pdsuite.reports.outcome_text import (
    explanation_or_line_below_row,
    one_line_summary,
    place_row_and_meaning_line,
    warning_lines_of,
)
from pdsuite.run.outcomes import UNPROVED, ScriptOutcome

# The line of a script that none is named of.
_FIRST = 1
_HEAD = "<?xml version='1.0' encoding='UTF-8'?>\n"
_FAILURE, _ERROR, _SKIPPED = "failure", "error", "skipped"
# Of an element, by their names.
Attributes = Mapping[str, str | int | float]


@dataclass(frozen=True, slots=True)
class _Result:
    """Why a case doesn't count as passed: its kind, a message, the type of that, and a text."""

    kind: str
    message: str
    type: str
    text: str = ""


@dataclass(frozen=True, slots=True)
class _Suite:
    """The scripts of a folder, each with its results."""

    folder: str
    cases: Sequence[tuple[ScriptOutcome, Sequence[_Result]]]

    def count_results_of_kind(self, kind: str) -> int:
        """How many results of a kind its cases have."""
        return sum(it.kind == kind for _, results in self.cases for it in results)


def junit_xml(outcomes: Sequence[ScriptOutcome], seconds: float, is_unproved: bool = False) -> bytes:
    """A suite for each folder, with a case for each script: a `fail` is a failure, all else that doesn't pass an error.

    One that is known not to pass is skipped, and one that passes though another row is expected is a failure.
    The suites share the seconds of the run, by the numbers of their scripts. Each says where the sender isn't proved.
    It is put together by hand, since a run that a signal ends has little time.
    """
    begin = (datetime.now(UTC) - timedelta(seconds=seconds)).strftime("%Y-%m-%dT%H:%M:%S")
    folders: dict[str, list[tuple[ScriptOutcome, Sequence[_Result]]]] = {}
    for outcome in outcomes:
        folders.setdefault(printable_path(os.path.dirname(outcome.path)), []).append(
            (outcome, _failures_errors_or_skips_of_case(outcome))
        )
    suites = [_Suite(*it) for it in folders.items()]
    body = "".join(_suite_element(it, begin, seconds * len(it.cases) / len(outcomes), is_unproved) for it in suites)
    counts = {f"{kind}s": sum(it.count_results_of_kind(kind) for it in suites) for kind in (_FAILURE, _ERROR)}
    skipped = sum(it.count_results_of_kind(_SKIPPED) for it in suites)
    whole: Attributes = {
        "name": "pdsuite",
        "tests": len(outcomes),
        **counts,
        "skipped": skipped,
        "time": _float_rounded_to_milliseconds(seconds),
    }
    return (_HEAD + _xml_element("testsuites", whole, body)).encode()


def _suite_element(suite: _Suite, begin: str, seconds: float, is_unproved: bool) -> str:
    counts = {f"{kind}s": suite.count_results_of_kind(kind) for kind in (_ERROR, _FAILURE)}
    named: Attributes = {"name": suite.folder or os.curdir, "timestamp": begin, "tests": len(suite.cases), **counts}
    folder = _escape_attribute(suite.folder)
    cases = "".join(_case_element(folder, *it) for it in suite.cases)
    mark = _xml_element("property", {"name": UNPROVED, "value": "true"})
    more = _xml_element("properties", {}, mark) if is_unproved else ""
    return _xml_element(
        "testsuite",
        {**named, "skipped": suite.count_results_of_kind(_SKIPPED), "time": _float_rounded_to_milliseconds(seconds)},
        cases + more,
    )


def _case_element(folder: str, outcome: ScriptOutcome, results: Iterable[_Result]) -> str:
    """The case of a script in a folder, whose name is quoted already."""
    path = _escape_attribute(printable_path(outcome.path))
    below = "".join(
        _xml_element(it.kind, {"message": it.message, "type": it.type}, _escape_markup_and_carriage_return(it.text))
        for it in results
    )
    if outcome.counted_as is Verdict.PASS and outcome.lets_run_pass and (lines := warning_lines_of(outcome)):
        below += _xml_element("system-err", {}, _escape_markup_and_carriage_return("\n".join(lines)))
    # Where a case's script is, as GitLab and CircleCI read it.
    place = f'file="{path}" line="{outcome.explained_or_row_line_number or _FIRST}"'
    begin = f'<testcase name="{path}" classname="{folder}" time="0.0" {place}'
    return f"{begin}>{below}</testcase>" if below else f"{begin}/>"


def _failures_errors_or_skips_of_case(outcome: ScriptOutcome) -> Sequence[_Result]:
    """Why a script's case doesn't count as passed, if it doesn't."""
    if outcome.counted_as is Verdict.PASS:
        return () if outcome.lets_run_pass else [_Result(_FAILURE, it, "warning") for it in warning_lines_of(outcome)]
    text_line = one_line_summary(outcome)
    # Of a script that wasn't run nothing more is reported.
    if outcome.row.verdict is Verdict.NOT_RUN:
        return (_Result(_ERROR, text_line, outcome.counted_as.value, text_line),)
    text = "\n".join(
        [
            place_row_and_meaning_line(outcome),
            *(f"  {it}" for it in explanation_or_line_below_row(outcome)),
            *warning_lines_of(outcome),
        ]
    )
    if outcome.is_known_failure and outcome.expected is not None:
        return (_Result(_SKIPPED, outcome.expected.reason, outcome.counted_as.value, text),)
    kind = _FAILURE if outcome.row.verdict in (Verdict.FAIL, Verdict.PASS) else _ERROR
    return (_Result(kind, text_line, outcome.counted_as.value, text),)


def _xml_element(tag: str, attributes: Attributes, inside: str = "") -> str:
    """An element with what stands inside it, which is XML already."""
    attribute_text = "".join(f' {name}="{_escape_attribute(str(value))}"' for name, value in attributes.items())
    return f"<{tag}{attribute_text}>{inside}</{tag}>" if inside else f"<{tag}{attribute_text}/>"


def _escape_markup_and_carriage_return(text: str) -> str:
    return text.replace("&", "&amp;").replace("<", "&lt;").replace(">", "&gt;").replace("\r", "&#13;")


def _escape_attribute(text: str) -> str:
    return _escape_markup_and_carriage_return(text).replace('"', "&quot;").replace("\t", "&#9;").replace("\n", "&#10;")


def _float_rounded_to_milliseconds(seconds: float) -> float:
    return round(seconds, 3)
