#!/usr/bin/env -S python3 -B
"""Applies the mutants of rules.mutants to the sender, and checks the lists of `pdsuite compare` by full reports:

bench/compare.py [--base SENDER] SUITE

SENDER is what --base of compare takes: this tree, if it isn't given. For each mutant a line says how many scripts
turned and how long compare took. The status is 1 where a list isn't what the reports give, or no script turned. It
takes two builds for a mutant, and more where the base isn't proved.
"""

import argparse
import json
import subprocess
import sys
import tempfile
import time
from collections.abc import Iterator
from pathlib import Path
from typing import Any

from trees import TOP, copy_tree_with_mutant, parse_mutants_of_text

RULES = TOP / "bench" / "rules.mutants"
# A verdict with its number of events or its kind, and the line.
Row = tuple[str, "int | None"]


def run_for_json(*command: "str | Path") -> Any:
    """Runs a pdsuite, and answers the JSON that it prints."""
    done = subprocess.run(command, stdin=subprocess.DEVNULL, stdout=subprocess.PIPE)
    if done.returncode not in (0, 1):
        raise SystemExit(f"{' '.join(map(str, command))} ended with status {done.returncode}")
    return json.loads(done.stdout)


def rows_of_report(report: Any) -> Iterator[tuple[str, Row]]:
    """The rows of a report of `run`, by paths, in the form that `compare` gives them."""
    for it in report["scripts"]:
        words = (it["verdict"], it.get("events"), it.get("kind"))
        yield it["path"], (" ".join(str(word) for word in words if word is not None), it.get("line"))


def scripts_listed_as_turned(compared: Any) -> dict[str, tuple[Row, Row]]:
    """The scripts that `compare` lists as turned, with their rows."""
    turned = [it for it in compared["scripts"] if it["kind"] == "turned"]
    return {it["path"]: (row_of_side(it["before"]), row_of_side(it["after"])) for it in turned}


def row_of_side(side: Any) -> Row:
    return side["row"], side["line"]


def main() -> int:
    parser = argparse.ArgumentParser(allow_abbrev=False, description=(__doc__ or "").partition(":\n")[0])
    parser.add_argument("--base", metavar="SENDER", default=str(TOP))
    parser.add_argument("suite", metavar="SUITE", type=Path)
    options = parser.parse_args()
    is_well = True
    with tempfile.TemporaryDirectory(prefix="compare-") as folder:
        before = dict(rows_of_report(report_of_sender(options.base, options.suite)))
        for number, mutant in enumerate(parse_mutants_of_text(RULES.read_text(), folders=())):
            tree = copy_tree_with_mutant(Path(folder, str(number)), mutant)
            begin = time.monotonic()
            compared = run_for_json(
                TOP / "pdsuite", "compare", "--base", options.base, "--with", tree, "--json", options.suite
            )
            seconds = time.monotonic() - begin
            after = dict(rows_of_report(report_of_sender(str(tree), options.suite)))
            listed = scripts_listed_as_turned(compared)
            turned = {path: (before[path], row) for path, row in after.items() if before[path] != row}
            is_same = bool(listed) and listed == turned
            is_well = is_well and is_same
            print(
                f"{mutant.name}: {'same' if is_same else 'OTHER'}: {compared['total']} in {seconds:.1f} s", flush=True
            )
    return 0 if is_well else 1


def report_of_sender(sender: str, suite: Path) -> Any:
    """The full report of a sender: a tree, or a folder of programs."""
    tree = Path(sender)
    if (tree / "pdsuite").is_file():
        return run_for_json(tree / "pdsuite", "run", "--json", suite)
    return run_for_json("env", f"PDSUITE_PROGRAMS={sender}", TOP / "pdsuite", "run", "--json", suite)


if __name__ == "__main__":
    sys.exit(main())
