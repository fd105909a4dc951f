"""Runs a program on many cases without proofs, after one build:

run_cases.py [--seconds N] [--tree FOLDER] PROGRAM CASES ANSWERS [-- ARGUMENT..]

The program is the one of this tree, or of the one below FOLDER. The folder CASES has for each case a file NAME, its
input, and a file NAME.args, its arguments, one a line; each ARGUMENT stands before these in every case. The folder
ANSWERS gets NAME.output and NAME.errors, what the program wrote, and NAME.status: a number, or where there is none why,
as `TooSlow: the program didn't end within 60 seconds`. Where nothing was run, a line on standard error says why, with
what `rt try` printed, and the status is 2; else it is 0.
"""
from __future__ import annotations

import argparse
import os
import sys
import tempfile
from pathlib import Path

import rt_try
import signals

FAULT = 2


def read_cases_by_name_in_folder(folder: Path) -> dict[str, rt_try.TryCase]:
    """The cases of a folder by their names."""
    files = sorted(it for it in folder.iterdir() if it.suffix != ".args")
    return {
        it.name: rt_try.TryCase(read_case_arguments_one_per_line(it.with_name(f"{it.name}.args")), it.read_bytes())
        for it in files
    }


def read_case_arguments_one_per_line(file: Path) -> tuple[bytes, ...]:
    return tuple(file.read_bytes().split(b"\n")[:-1])


def write_result(folder: Path, name: str, result: rt_try.TryResult) -> None:
    """Writes what a program answered."""
    if isinstance(result, rt_try.TryOutput):
        (folder / f"{name}.output").write_bytes(result.output)
        (folder / f"{name}.errors").write_bytes(result.errors)
        (folder / f"{name}.status").write_text(str(result.status))
    else:
        (folder / f"{name}.output").write_bytes(b"")
        (folder / f"{name}.errors").write_bytes(result.printed)
        (folder / f"{name}.status").write_text(f"{result.name}: {result.why}")


def run_cases_by_one_rt_try_and_write_results(options: argparse.Namespace) -> None:
    cases = read_cases_by_name_in_folder(options.cases)
    with tempfile.TemporaryDirectory(prefix=f"{options.program}-") as folder:
        arguments = [os.fsencode(it) for it in options.arguments]
        results = rt_try.run_cases(
            options.program, list(cases.values()), Path(folder), options.seconds, arguments, options.tree
        )
    for name, result in zip(cases, results):
        write_result(options.answers, name, result)


def main() -> int:
    parser = argparse.ArgumentParser(allow_abbrev=False, description=(__doc__ or "").partition(":\n")[0])
    parser.add_argument("--seconds", type=int, default=rt_try.SECONDS, help="what a case may take")
    parser.add_argument("--tree", metavar="FOLDER", type=Path, default=rt_try.TOP, help="the tree of the program")
    parser.add_argument("program", metavar="PROGRAM")
    parser.add_argument("cases", metavar="CASES", type=Path)
    parser.add_argument("answers", metavar="ANSWERS", type=Path)
    parser.add_argument("arguments", metavar="ARGUMENT", nargs="*", help="an argument of every case")
    options = parser.parse_args()
    signals.install_handlers_raising_at_first_signal()
    try:
        run_cases_by_one_rt_try_and_write_results(options)
    except rt_try.NotRunError as error:
        print(f"{options.program}: unproved: {error}", file=sys.stderr)
        sys.stderr.flush()
        sys.stderr.buffer.write(
            rt_try.printed_lines_with_whole_paths(options.program, error.reason.printed, options.tree.absolute())
        )
        return FAULT
    except signals.StoppedBySignal as signal:
        signals.end_process_by(signal.number)
    return 0


if __name__ == "__main__":
    sys.exit(main())
