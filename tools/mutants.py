#!/usr/bin/env -S python3 -B
"""Tries mutants that the gate leaves out: of all crates or files that have such, or of those named.

mutants.py contracts [CRATE..]: whether the prover refuses each mutant of crates/*/contracts.mutants. The libraries
below the crates are built first, where that isn't done, then crates are tried side by side. The last line is `N
refused, M not refused`; one that is refused only because a proof names what it took away says little of the contract,
and counts as not refused.

mutants.py tests [CRATE..]: whether the test that each mutant of crates/*/tests.mutants names sees it, in ten runs of
ten. No contract refuses these. The last line is `N seen, M not seen`.

mutants.py python [FILE..]: whether the test that each mutant of client/*.mutants, tools/*.mutants and tests/*.mutants
names sees it. These are mutants of Python and shell. With --programs FOLDER its programs are tested, else the proved
ones of this tree. The last line is `N seen, M not seen`.

It works on copies. Crates need some minutes each; the status is 0 where M is 0, and 2 where nothing is tried.
tools/mutant_files.py says how a mutant is written.
"""
from __future__ import annotations

import argparse
import os
import sys
import tempfile
from pathlib import Path

import signals
from mutant_contracts import crates_at_once_by_cpus_and_memory, try_contract_mutants_returning_status
from mutant_files import Mutant, MutantError, read_crate_mutants, read_python_mutants
from mutant_python import TreeCopies, try_python_mutants_returning_status
from mutant_tests import RunLimits, try_test_mutants_returning_status
from parallel import Commands
from proofs import TOP
from rt_try import NotRunError, check_kit_on_path


CONTRACTS, TESTS, PYTHON = "contracts", "tests", "python"


def mutants_of_chosen_places_and_names(options: argparse.Namespace) -> dict[str, list[Mutant]]:
    """The mutants that the options choose, by their crates or files."""
    is_python = options.kind == PYTHON
    mutants = read_python_mutants(TOP) if is_python else read_crate_mutants(TOP, options.kind)
    for place in options.places:
        if place not in mutants:
            raise MutantError(f"there is no {place if is_python else f'crates/{place}/{options.kind}.mutants'}")
    mutants = {place: mutants[place] for place in dict.fromkeys(options.places) or mutants}
    if options.names:
        mutants = {place: [it for it in each if it.name in options.names] for place, each in mutants.items()}
        found = {it.name for each in mutants.values() for it in each}
        for name in options.names:
            if name not in found:
                raise MutantError(f"no mutant there has the name {name}")
    return {place: each for place, each in mutants.items() if each}


def positive_integer(text: str) -> int:
    """A number from 1 on."""
    number = int(text)
    if number < 1:
        raise ValueError
    return number


def make_parser() -> argparse.ArgumentParser:
    about = {"description": __doc__, "formatter_class": argparse.RawDescriptionHelpFormatter}
    whole = argparse.ArgumentParser(allow_abbrev=False, **about)  # type: ignore[arg-type]
    kinds = whole.add_subparsers(dest="kind", required=True, metavar="|".join((CONTRACTS, TESTS, PYTHON)))
    for kind in (CONTRACTS, TESTS, PYTHON):
        options = kinds.add_parser(kind, allow_abbrev=False)
        options.add_argument("-j", dest="at_once", type=positive_integer, help="how many are tried at once")
        options.add_argument(
            "--name", dest="names", action="append", default=[], help="a mutant to try, of these alone"
        )
        if kind == TESTS:
            options.add_argument("--times", type=positive_integer, default=10, help="how often each test is run (10)")
            options.add_argument(
                "--seconds", type=positive_integer, default=40, help="how long one run of a test may take (40)"
            )
        if kind == PYTHON:
            options.add_argument("--programs", metavar="FOLDER", type=Path, help="the programs that are tested")
            options.add_argument("--seconds", type=positive_integer, default=600, help="how long a test may take (600)")
        options.add_argument("places", metavar="FILE" if kind == PYTHON else "CRATE", nargs="*")
    return whole


def try_chosen_mutants(options: argparse.Namespace) -> int:
    mutants = mutants_of_chosen_places_and_names(options)
    if options.kind != PYTHON:
        check_kit_on_path()
    with tempfile.TemporaryDirectory(prefix="mutants-") as folder:
        work = Path(folder)
        os.environ["TMPDIR"] = str(work)
        if options.kind == CONTRACTS:
            return try_contract_mutants_returning_status(
                mutants, options.at_once or crates_at_once_by_cpus_and_memory(), work
            )
        at_once = options.at_once or len(os.sched_getaffinity(0))
        if options.kind == PYTHON:
            programs = options.programs and options.programs.absolute()
            return try_python_mutants_returning_status(mutants, at_once, TreeCopies(work, options.seconds, programs))
        return try_test_mutants_returning_status(
            mutants, at_once, RunLimits(options.times, options.seconds, work, Commands())
        )


def main() -> int:
    options = make_parser().parse_args()
    signals.install_handlers_raising_at_first_signal()
    try:
        return try_chosen_mutants(options)
    except (MutantError, NotRunError) as reason:
        print(f"mutants: {reason}", file=sys.stderr)
        return 2
    except signals.StoppedBySignal as signal:
        signals.end_process_by(signal.number)


if __name__ == "__main__":
    sys.exit(main())
