"""The files of reports beside the one that is shown: which words name them (`-` is none), and where they may be."""

import os
import sys
from collections.abc import Collection, Iterable, Mapping, Sequence
from dataclasses import dataclass
from pathlib import Path

import click

from pdsuite.commands.options import PathParam
from pdsuite.faults import Fault
from pdsuite.files import require_writable_file_place, is_special_file, write_file_atomically
from pdsuite.output.octets import printable_path
from pdsuite.reports.as_json import JsonFormatter
from pdsuite.reports.formatter import Formatter, format_report
from pdsuite.reports.tap import TapFormatter
from pdsuite.run.outcomes import ScriptOutcome, OutcomeTotals
from pdsuite.scripts.config import CONFIG_FILE as SETTINGS
from pdsuite.scripts.discover import SUFFIX
from pdsuite.scripts.shards import Shard

# Flags that print a report, or write it where a file comes after `=`, or as the next word if that ends so.
_SUFFIXES = {"--json": ".json", "--tap": ".tap"}
_JUNIT, _JSON, _TAP = "--junit", "--json", "--tap"
_FORMS = (_JSON, _TAP, "--github")
# Names standard output, as without a file.
_OUTPUT = "-"
_END = "--"


class FileParam(PathParam):
    """The path of a file to write."""

    def convert(self, value: str | os.PathLike[str], param: click.Parameter | None, ctx: click.Context | None) -> Path:
        if os.fspath(value) == _OUTPUT:
            self.fail("- is no file, and standard output has the report.", param, ctx)
        return super().convert(value, param, ctx)


class FormatOption(click.Option):
    """A flag that may have a file."""

    def get_help_record(self, ctx: click.Context) -> tuple[str, str] | None:
        record = super().get_help_record(ctx)
        return None if record is None else (f"{record[0]}[=FILE]", record[1])


class ReportCommand(click.Command):
    """A command of which some flags may have a file."""

    def parse_args(self, ctx: click.Context, args: list[str]) -> list[str]:
        options = [it for it in self.params if isinstance(it, click.Option)]
        taking = {name for it in options if not it.is_flag for name in it.opts}
        words, files = split_off_report_files(args, taking)
        if len(printed := _printing_flags_among_words(words, taking)) > 1 and not ctx.resilient_parsing:
            raise click.UsageError(f"{' and '.join(printed)} print a report each: one alone, or --json=FILE", ctx)
        left = super().parse_args(ctx, words)
        for option in options:
            for name in _SUFFIXES.keys() & set(option.opts):
                ctx.params[name.lstrip("-")] = (
                    None if ctx.resilient_parsing else _file_of_flag_refusing_two(option, files[name], ctx)
                )
        return left


def _printing_flags_among_words(words: Sequence[str], taking: Collection[str]) -> list[str]:
    """The flags among words that say how the report is printed, each once; the word after an option is none."""
    before = words[: words.index(_END)] if _END in words else words
    flags = [it for it, last in zip(before, ("", *before)) if it in _FORMS and last not in taking]
    return list(dict.fromkeys(flags))


def _file_of_flag_refusing_two(option: click.Option, named: Sequence[str], ctx: click.Context) -> Path | None:
    """The file that a flag has, if it has one."""
    paths = list(dict.fromkeys(FileParam().convert(it, option, ctx) for it in named))
    if len(paths) > 1:
        first, second, *_ = map(printable_path, paths)
        raise click.UsageError(f"{option.opts[0]} names two files: {first} and {second}", ctx)
    return paths[0] if paths else None


def split_off_report_files(words: Sequence[str], taking: Collection[str]) -> tuple[list[str], Mapping[str, list[str]]]:
    """The words without those that name files of reports, and these by their flags.

    The word after an option that takes one is no flag.
    """
    rest: list[str] = []
    files: dict[str, list[str]] = {it: [] for it in _SUFFIXES}
    left = list(words)
    while left:
        word = left.pop(0)
        flag, equals, file = word.partition("=")
        if word == _END:
            return [*rest, word, *left], files
        if word in taking:
            rest += [word, *left[:1]]
            del left[:1]
        elif flag not in _SUFFIXES:
            rest.append(word)
        else:
            if not equals and left and _is_file_argument_after_flag(left[0], _SUFFIXES[flag]):
                equals, file = "=", left.pop(0)
            if equals and file != _OUTPUT:
                files[flag].append(file)
            else:
                rest.append(flag)
    return rest, files


def _is_file_argument_after_flag(word: str, suffix: str) -> bool:
    """Whether the word after a flag is its file."""
    return word == _OUTPUT or (word.endswith(suffix) and not word.startswith("-"))


@dataclass(frozen=True)
class ReportFiles:
    """The files of a run's reports, where they are requested."""

    junit: Path | None
    json: Path | None
    tap: Path | None

    @property
    def requested_files(self) -> list[tuple[str, Path]]:
        """The files, each after its word."""
        files = ((_JUNIT, self.junit), (_JSON, self.json), (_TAP, self.tap))
        return [(word, path) for word, path in files if path is not None]

    def refuse_unwritable_or_colliding_files(self, scripts: Iterable[str]) -> None:
        """Raises a fault where a report can't be written, or would take the place of another one or of a script."""
        words: dict[Path, str] = {}
        for word, path in self.requested_files:
            try:
                require_writable_file_place(path)
            except Fault as fault:
                raise Fault(f"{word}: {fault}") from fault
            if is_special_file(path):
                continue
            place = Path(os.path.realpath(path))
            if place in words:
                raise Fault(f"{word}: {printable_path(path)}: {words[place]} is written there")
            words[place] = word
            if place.suffix == SUFFIX or place.name == SETTINGS:
                raise Fault(f"{word}: {printable_path(path)}: has the name of a script or of settings")
        _refuse_overwriting_scripts_or_output([it for it in self.requested_files if it[1].is_file()], scripts)

    def write_reports_collecting_faults(
        self, outcomes: Sequence[ScriptOutcome], totals: OutcomeTotals, seconds: float, shard: Shard | None
    ) -> list[Fault]:
        """Writes the reports, and answers why some couldn't be written."""
        faults: list[Fault] = []
        for word, path in self.requested_files:
            try:
                write_file_atomically(path, _report_octets(word, outcomes, totals, seconds, shard))
            except Fault as fault:
                faults.append(fault)
        return faults


def _report_octets(
    word: str, outcomes: Sequence[ScriptOutcome], totals: OutcomeTotals, seconds: float, shard: Shard | None
) -> bytes:
    if word == _JUNIT:
        # Only who requests this file pays for what writes it.
        from pdsuite.reports.junit import junit_xml

        return junit_xml(outcomes, seconds, totals.is_unproved)
    forms: dict[str, Formatter] = {_JSON: JsonFormatter(shard), _TAP: TapFormatter()}
    return format_report(forms[word], outcomes, totals, seconds).encode()


def _refuse_overwriting_scripts_or_output(files: Iterable[tuple[str, Path]], scripts: Iterable[str]) -> None:
    """Refuses to put a report in the place of a script, or of the file that standard output goes to."""
    known = {_device_and_inode_if_present(path): f"{word}: {printable_path(path)}" for word, path in files}
    if known and (found := known.get(_device_and_inode_if_present(sys.stdout.fileno()))) is not None:
        raise Fault(f"{found}: standard output goes there")
    for script in scripts if known else ():
        if (found := known.get(_device_and_inode_if_present(script))) is not None:
            raise Fault(f"{found}: is one of the scripts")


def _device_and_inode_if_present(path: str | Path | int) -> tuple[int, int] | None:
    """The device and inode of a file that is there, or is open; no other file has both. None where there is no file."""
    try:
        found = os.stat(path)
    except (OSError, ValueError):
        return None
    return found.st_dev, found.st_ino
