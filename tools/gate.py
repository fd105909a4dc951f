#!/usr/bin/env -S python3 -B
"""Proves every crate from nothing by the kit's gate, `rt ci`, and keeps the checksums of the programs that it built.

`rt ci` reads the tree itself. So where a file changes meanwhile that it reads, also one whose change is taken back, no
program is taken for proved, and that counts as a failure. The last line is that of `rt ci`, `N passed, M failed`.
"""
from __future__ import annotations

import re
import subprocess
import sys

import proof_sums
import stamps
from copies import record_stamps_once_later_changes_show
from crate_graph import parse_dependencies_between_crates
from proof_sums import program_path
from proofs import TOP
from proving_kit import ProvingKit, ProofRefusedError, kit_whose_version_matches_its_file
from source_sums import (
    TABLE,
    Unreadable,
    paths_and_kinds_read_in_crates,
    sources_of_proof,
    sorted_files_among_places_or_refuse,
    sums_of_files,
)

COUNTS = re.compile(r"(\d+) passed, (\d+) failed\b")


def run_gate_printing_all_but_last_line(kit: ProvingKit) -> tuple[str, int]:
    """Runs the kit's gate, hands its lines through but for the last, and gives that with the status."""
    last = ""
    with subprocess.Popen(
        [kit.command, "ci"], cwd=TOP, stdout=subprocess.PIPE, stderr=subprocess.STDOUT, text=True, errors="replace"
    ) as gate:
        assert gate.stdout is not None
        for line in gate.stdout:
            print(last, end="", flush=True)
            last = line
    return last, gate.returncode


def write_program_and_source_sums_files(programs: list[str], sums: dict[str, str], kit: ProvingKit) -> None:
    """Keeps the checksums of programs and of what their proofs read beside them."""
    top = str(TOP)
    for program in programs:
        path = program_path(program)
        read = {it: sums[it] for it in sources_of_proof(top, program)}
        proof_sums.replace_file_if_possible(
            f"{top}/{path}.sums", proof_sums.sums_file_text(sums_of_files(top, [path]), read, kit.name)
        )


def run_gate_keeping_sums_unless_tree_changed() -> int:
    kit = kit_whose_version_matches_its_file()
    top = str(TOP)
    crates = tuple(parse_dependencies_between_crates((TOP / TABLE).read_text()))
    programs = {it: stamps.stamp_of_link_target_or_absent(f"{top}/{program_path(it)}") for it in crates}
    before = record_stamps_once_later_changes_show(TOP, crates)
    sums = sums_of_files(top, sorted_files_among_places_or_refuse(paths_and_kinds_read_in_crates(top, crates)))
    last, status = run_gate_printing_all_but_last_line(kit)
    built = [
        it
        for it, stamp in programs.items()
        if stamps.stamp_of_link_target_or_absent(f"{top}/{program_path(it)}") not in (stamp, stamps.ABSENT)
    ]
    try:
        if changed := before.find_first_path_changed_since_copied():
            raise ProofRefusedError(f"{changed} has changed while rt ci ran: no program is taken for proved")
        kit.check_unchanged()
        write_program_and_source_sums_files(built, sums, kit)
    except (ProofRefusedError, Unreadable) as why:
        print(f"gate: {why}")
        last = COUNTS.sub(lambda it: f"{it[1]} passed, {int(it[2]) + 1} failed", last)
        status = status or 1
    print(last, end="")
    return status


def main() -> int:
    try:
        return run_gate_keeping_sums_unless_tree_changed()
    except (ProofRefusedError, Unreadable, OSError) as why:
        print(f"gate: {why}", file=sys.stderr)
        return 2
    except KeyboardInterrupt:
        return 130


if __name__ == "__main__":
    sys.exit(main())
