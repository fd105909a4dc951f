"""The options of the command kernel.py, and its scripts one after another, with the runs of each side by side."""

from __future__ import annotations

import argparse
import os
import sys
import tomllib
from collections.abc import Iterator, Sequence, Set
from dataclasses import dataclass
from multiprocessing import get_context
from multiprocessing.pool import Pool
from pathlib import Path

from kernel.compare import FIELDS
from kernel.device import NoDevice
from kernel.report import script_lines, total_line
from kernel.run import RunOutcome, run_script
from kernel.script import TimedEvent, UnsupportedScript, parse_script_into_runnable_events
from kernel.settings import Tuning, settings_of, tuning_of
from pdsuite.faults import Fault

DESCRIPTION = """Runs packetdrill scripts against the TCP of this machine's kernel, each several times, and says how
often each passes and at which line and field it fails otherwise. It needs root, a tun device and network namespaces.
A packet's time may be off by an eighth of the time awaited, and by 10 ms at least."""
SECOND_TRIES = 3


@dataclass(frozen=True)
class KernelOptions:
    """The options of the command, as they were parsed."""

    files: tuple[Path, ...]
    runs: int
    jobs: int
    ignored: frozenset[str]
    switches: dict[str, str]
    settings: str
    verbose: bool


@dataclass(frozen=True)
class ScriptJob:
    """One script, ready to be run."""

    path: Path
    events: tuple[TimedEvent, ...]
    tuning: Tuning
    ignored: Set[str]


def parse_field_list(text: str) -> frozenset[str]:
    """The fields of a list like `win,options,push`."""
    names = frozenset(text.split(","))
    if names - set(FIELDS):
        raise argparse.ArgumentTypeError(f"fields are {', '.join(FIELDS)}")
    return names


def parse_sysctl(text: str) -> tuple[str, str]:
    """A sysctl and its value, of `NAME=VALUE`."""
    name, sign, value = text.partition("=")
    if not sign:
        raise argparse.ArgumentTypeError("wanted NAME=VALUE")
    return name, value


def parse_options(arguments: Sequence[str]) -> KernelOptions:
    parser = argparse.ArgumentParser(prog="kernel.py", description=DESCRIPTION)
    add = parser.add_argument
    add("files", nargs="+", type=Path, metavar="FILE", help="a script, or a folder with *.pkt below it")
    add("--runs", type=int, default=10, help="how often each script is run (10)")
    add("--jobs", type=int, default=10, help="how many runs go on side by side (10)")
    add("--ignore", type=parse_field_list, default=frozenset(), help=f"fields left uncompared, of {', '.join(FIELDS)}")
    add("--sysctl", type=parse_sysctl, action="append", default=[], metavar="NAME=VALUE", help="a switch of the kernel")
    add("--settings", default="", help="settings as TOML, before those of pdsuite.toml")
    add("-v", "--verbose", action="store_true", help="print what the first run of each script saw")
    got = parser.parse_args(arguments)
    files = tuple(script_files(got.files))
    return KernelOptions(files, got.runs, got.jobs, got.ignore, dict(got.sysctl), got.settings, got.verbose)


def script_files(paths: Sequence[Path]) -> Iterator[Path]:
    for path in paths:
        yield from sorted(path.rglob("*.pkt")) if path.is_dir() else [path]


def read_job(path: Path, options: KernelOptions) -> ScriptJob:
    """Reads a script and its settings."""
    text = path.read_text(encoding="latin-1")
    events = parse_script_into_runnable_events(text)
    settings = settings_of(path, text, options.settings)
    return ScriptJob(path, events, tuning_of(events, settings, options.switches), options.ignored)


def make_pool(jobs: int) -> Pool:
    """Processes for runs: a new one for each, since a namespace is a process's own."""
    return get_context("fork").Pool(jobs, maxtasksperchild=1)


def run_once_returning_any_fault(job: ScriptJob) -> RunOutcome | UnsupportedScript | NoDevice:
    """A run in a process of its own; a fault comes back as a value."""
    try:
        return run_script(job.events, job.tuning, job.ignored)
    except (UnsupportedScript, NoDevice) as fault:
        return fault


def outcomes_retrying_disturbed_runs(pool: Pool, job: ScriptJob, runs: int) -> list[RunOutcome]:
    """The runs of a script; those in which the tool was late are made again, a few times."""
    done: list[RunOutcome] = []
    for turn in range(1 + SECOND_TRIES):
        wanted = runs - len(done)
        found = []
        for result in pool.map(run_once_returning_any_fault, [job] * wanted, chunksize=1):
            if not isinstance(result, RunOutcome):
                raise result
            found.append(result)
        done += [it for it in found if not it.is_disturbed or turn == SECOND_TRIES]
        if len(done) == runs:
            break
    return done


def print_outcomes(job: ScriptJob, outcomes: Sequence[RunOutcome], options: KernelOptions) -> None:
    """Prints the lines about one script."""
    for line in script_lines(str(job.path), outcomes):
        print(line)
    if options.verbose:
        for line in outcomes[0].seen:
            print(f"    {line}")
    sys.stdout.flush()


def run_scripts_in_turn_returning_status(options: KernelOptions, pool: Pool) -> int:
    """Runs the scripts one after the other, and prints the settings wherever they change."""
    results: list[list[RunOutcome]] = []
    refused, last = 0, ""
    for path in options.files:
        try:
            job = read_job(path, options)
            outcomes = outcomes_retrying_disturbed_runs(pool, job, options.runs)
        except UnsupportedScript as fault:
            print(f"{path}: not run, {fault}")
            refused += 1
            continue
        if str(job.tuning) != last:
            last = str(job.tuning)
            print(f"with {last}")
        print_outcomes(job, outcomes, options)
        results.append(outcomes)
    print(total_line(results, refused))
    return 0 if all(not it.differences for them in results for it in them) else 1


def main(arguments: Sequence[str]) -> int:
    """The status is 0 where each run passes, 1 where one fails, and 2 where nothing can be run."""
    options = parse_options(arguments)
    ignored = ",".join(sorted(options.ignored)) or "nothing"
    print(f"kernel {os.uname().release}, {options.runs} runs each, ignoring {ignored}")
    try:
        with make_pool(options.jobs) as pool:
            return run_scripts_in_turn_returning_status(options, pool)
    except (NoDevice, Fault, OSError, tomllib.TOMLDecodeError) as fault:
        print(f"kernel.py: {fault}", file=sys.stderr)
        return 2
