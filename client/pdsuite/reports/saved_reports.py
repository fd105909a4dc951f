"""Reports that were saved: the JSON of `pdsuite run`, read back, and that of several shards as one."""

import json
import re
from collections.abc import Iterable, Iterator, Mapping, Sequence
from dataclasses import dataclass
from pathlib import Path

from pdsuite.faults import Fault, error_reason
from pdsuite.output.octets import printable_path, printable_text
from pdsuite.programs.verdict import Row, Verdict
from pdsuite.scripts.shards import Shard, parse_shard_if_valid

_BLANKS = re.compile(r"[ \t\r\n]*")
_REPORTS = "*.json"


@dataclass(frozen=True, slots=True)
class SavedRow:
    """A script's entry in a report: its row, and what else decides whether it makes the run fail."""

    row: Row
    is_strict: bool = False  # a warning makes the script fail
    is_known: bool | None = None  # whether the row is the one that is expected, where one is

    @property
    def is_run_and_makes_run_fail(self) -> bool:
        """Whether the script was run and made the run fail."""
        if self.row.verdict is Verdict.NOT_RUN:
            return False
        if self.is_known is not None:
            return not self.is_known
        return self.row.verdict is not Verdict.PASS or self.is_strict

    @property
    def fails_by_strict_warning(self) -> bool:
        """Whether a warning alone makes the script fail. Where a row is expected, that decides, whatever is strict."""
        return self.row.verdict is Verdict.PASS and self.is_strict and self.is_known is None


# By their paths, as people see them.
SavedRows = Mapping[str, SavedRow]


@dataclass(frozen=True)
class SavedReport:
    """The rows of a report, and which shards these are, where they aren't all of a run."""

    place: str  # where it stands, as people see it
    rows: SavedRows
    shards: frozenset[Shard] = frozenset()

    def first_missing_shard(self) -> Shard | None:
        """The first of its shards that isn't there."""
        count = max((it.count for it in self.shards), default=0)
        each = (Shard(number, count) for number in range(1, count + 1))
        return next((it for it in each if it not in self.shards), None)


def read_reports_as_one(paths: Sequence[Path]) -> SavedReport:
    """The reports in files, and in all files `*.json` in folders, as one."""
    reports = [
        it
        for path in paths
        for file in _report_files(path)
        for it in parse_reports(printable_path(file), _read_report_file_or_fault(file))
    ]
    return join_reports(", ".join(map(printable_path, paths)), reports)


def join_reports(place: str, reports: Sequence[SavedReport]) -> SavedReport:
    """Reports as one: each script stands in one of them."""
    shards = _distinct_shards_of_one_run_or_fault(reports)
    rows: dict[str, SavedRow] = {}
    places: dict[str, str] = {}
    for report in reports:
        for path, it in report.rows.items():
            if path in rows:
                raise Fault(f"{path}: stands in {places[path]}, and again in {report.place}")
            rows[path], places[path] = it, report.place
    return SavedReport(place, rows, shards)


def _distinct_shards_of_one_run_or_fault(reports: Sequence[SavedReport]) -> frozenset[Shard]:
    known: dict[Shard, str] = {}
    for report in reports:
        if _shard_counts(report) != _shard_counts(reports[0]):
            first = reports[0]
            raise Fault(
                f"{first.place} is of {_shards_in_words(first)} and {report.place} of {_shards_in_words(report)}:"
                " they are no one run"
            )
        for shard in report.shards:
            if shard in known:
                raise Fault(f"{known[shard]} and {report.place} are both of shard {shard}")
            known[shard] = report.place
    return frozenset(known)


def _shard_counts(report: SavedReport) -> set[int]:
    return {it.count for it in report.shards}


def _shards_in_words(report: SavedReport) -> str:
    return ", ".join(f"shard {it}" for it in sorted(report.shards)) or "all scripts"


def _report_files(path: Path) -> list[Path]:
    """The file, or those in a folder and below it."""
    if not path.is_dir():
        return [path]
    if files := sorted(path.rglob(_REPORTS)):
        return files
    raise Fault(f"{printable_path(path)}: holds no file {_REPORTS}")


def _read_report_file_or_fault(path: Path) -> bytes:
    try:
        return path.read_bytes()
    except (OSError, ValueError) as error:
        raise Fault(f"{printable_path(path)}: {error_reason(error)}") from error


def parse_reports(place: str, octets: bytes) -> list[SavedReport]:
    """The reports in a file, one after another."""
    try:
        values = list(_json_values(octets.decode()))
    except (ValueError, RecursionError) as error:
        raise Fault(f"{place}: no JSON: {printable_text(str(error))}") from error
    if not values:
        raise Fault(f"{place}: no JSON: the file is empty")
    return [_report_from_value(place, it) for it in values]


def _json_values(text: str) -> Iterator[object]:
    """The JSON values that stand in a text, with blanks between them."""
    decoder = json.JSONDecoder()
    end = _end_of_blanks(text, 0)
    while end < len(text):
        value, end = decoder.raw_decode(text, end)
        yield value
        end = _end_of_blanks(text, end)


def _end_of_blanks(text: str, begin: int) -> int:
    found = _BLANKS.match(text, begin)
    return begin if found is None else found.end()


def _report_from_value(place: str, value: object) -> SavedReport:
    scripts = value.get("scripts") if isinstance(value, dict) else None
    if not isinstance(value, dict) or not isinstance(scripts, list):
        raise Fault(f"{place}: no report of pdsuite run --json: it has no list of scripts")
    return SavedReport(place, _parse_rows_by_unique_path(place, scripts), _parse_shard_field(place, value))


def _parse_shard_field(place: str, report: Mapping[str, object]) -> frozenset[Shard]:
    if "shard" not in report:
        return frozenset()
    shard = parse_shard_if_valid(str(report["shard"]))
    if shard is None:
        raise Fault(f"{place}: no report of pdsuite run --json: its shard is no K/N")
    return frozenset((shard,))


def _parse_rows_by_unique_path(place: str, scripts: Iterable[object]) -> dict[str, SavedRow]:
    rows: dict[str, SavedRow] = {}
    for number, script in enumerate(scripts, 1):
        path, row = _find_printable_path_field(script), _parse_verdict_row_if_well_formed(script)
        if path is None or row is None:
            raise Fault(
                f"{place}: no report of pdsuite run --json: script {number:,} has no path and row that it writes"
            )
        if path in rows:
            raise Fault(f"{path}: stands twice in {place}")
        rows[path] = SavedRow(row, _has_strict_warnings(script), _find_expected_known_flag(script))
    return rows


def _has_strict_warnings(script: object) -> bool:
    match script:
        case {"warnings": [_, *_], "strict": True}:
            return True
    return False


def _find_expected_known_flag(script: object) -> bool | None:
    match script:
        case {"expected": {"known": bool(is_known)}}:
            return is_known
    return None


def _find_printable_path_field(script: object) -> str | None:
    match script:
        case {"path": str(path)} if path and path.isprintable():
            return path
    return None


def _parse_verdict_row_if_well_formed(script: object) -> Row | None:
    match script:
        case {"verdict": Verdict.PASS.value, "events": int(number)} if number >= 0:
            return Row(Verdict.PASS, int(number))
        case {"verdict": Verdict.FAIL.value, "line": int(number), "kind": str(word)} if number > 0 and word.isalpha():
            return Row(Verdict.FAIL, int(number), word)
        case {"verdict": "syntax" | "unsupported" | "limit" as verdict, "line": int(number)} if number > 0:
            return Row(Verdict(verdict), int(number))
        case {"verdict": Verdict.ERROR.value, "reason": str(word)} if word.isprintable():
            return Row(Verdict.ERROR, word=word)
        case {"verdict": Verdict.NOT_RUN.value}:
            return Row(Verdict.NOT_RUN)
    return None
