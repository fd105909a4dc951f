"""Whether the prover refuses the mutants of crates/*/contracts.mutants, on a copy of the crates and their proofs."""
from __future__ import annotations

import os
import shutil
import sys
from pathlib import Path

from crate_graph import parse_dependencies_between_crates, crates_below_one_in_build_order
from mutant_files import Mutant, MutantError
from parallel import Commands
from proofs import TOP, copy_given_crates_without_output, free_memory_within_machine_and_cgroup, link_or_copy

# The memory that the check of a crate takes at most, in octets.
MEMORY = 4_000_000_000
REFUSED = ": refused, as it must be"
# Of a mutant that is refused only because a proof names what it took away.
EMPTY = "says little of the contract"


def crates_at_once_by_cpus_and_memory() -> int:
    """How many crates are tried at once where nobody says: each takes a processor and its memory."""
    return max(1, min(len(os.sched_getaffinity(0)), free_memory_within_machine_and_cgroup() // MEMORY))


def crate_size(crate: str) -> int:
    """How many octets of code, definitions and proofs a crate has."""
    folders = (TOP / "crates" / crate / part for part in ("src", "specs", "proofs"))
    return sum(file.stat().st_size for folder in folders for file in folder.rglob("*") if file.is_file())


def make_tree_with_mutant_edit_files(mutants: dict[str, list[Mutant]], libraries: list[str], tree: Path) -> None:
    """A tree of the crates to be tried and those below them, with these mutants in place of those of the gate."""
    (tree / ".git").mkdir(parents=True)
    crates = list(dict.fromkeys([*libraries, *mutants]))
    copy_given_crates_without_output(crates, tree)
    for crate in crates:
        out = TOP / "crates" / crate / "out"
        if out.is_dir():
            shutil.copytree(out, tree / "crates" / crate / "out", copy_function=link_or_copy, symlinks=True)
        shutil.rmtree(tree / "crates" / crate / "must-fail", ignore_errors=True)
    for crate, its_mutants in mutants.items():
        folder = tree / "crates" / crate / "must-fail"
        folder.mkdir()
        for mutant in its_mutants:
            (folder / f"{mutant.name}.edit").write_text(mutant.kit_edit_file_text)


def build_missing_libraries(libraries: list[str], tree: Path, commands: Commands) -> None:
    """Builds the libraries below the crates where that isn't done, one after another."""
    log = tree / "log"
    for name in libraries:
        print(f"mutants: building {name}, where that isn't done", file=sys.stderr, flush=True)
        if commands.run_command(["rt", "lib"], tree / "crates" / name, log):
            last = log.read_text(errors="replace").splitlines()[-5:]
            raise MutantError("\n".join([f"{name} isn't proved:", *last]))


def count_refused_by_contract_in_output(printed: str) -> int:
    """How many mutants were refused for what a contract says, by what `rt must-fail` printed.

    >>> empty = "refused, as it must be; says little of the contract"
    >>> count_refused_by_contract_in_output(f"a: refused, as it must be\\nb: {empty}\\nc\\n")
    1
    """
    return sum(REFUSED in line and EMPTY not in line for line in printed.splitlines())


def try_contract_mutants_returning_status(mutants: dict[str, list[Mutant]], at_once: int, work: Path) -> int:
    """Tries the mutants of some crates, the largest crate first; the status is 0 if all are refused.

    Each crate is proved once and its mutants after it, with one check at a time, else each would begin as many as the
    memory holds.
    """
    uses = parse_dependencies_between_crates((TOP / "crates.txt").read_text())
    order = sorted(mutants, key=lambda crate: -crate_size(crate))
    libraries = list(dict.fromkeys(it for crate in order for it in crates_below_one_in_build_order(crate, uses)))
    tree, commands, refused = work / "tree", Commands(), dict.fromkeys(order, 0)
    make_tree_with_mutant_edit_files(mutants, libraries, tree)
    try:
        build_missing_libraries(libraries, tree, commands)
    except BaseException:
        commands.stop_all_and_refuse_new()
        raise

    def read_log_after_rt_must_fail(crate: str) -> tuple[str, str]:
        log = work / crate
        commands.run_command(["rt", "must-fail", crate], tree, log, RT_JOBS="1")
        return crate, log.read_text(errors="replace")

    for crate, printed in commands.map_unordered(order, at_once, read_log_after_rt_must_fail):
        print(printed, end="", flush=True)
        refused[crate] = count_refused_by_contract_in_output(printed)
    for crate in order:
        print(f"{crate}: {refused[crate]} of {len(mutants[crate])} refused")
    count, every = sum(refused.values()), sum(map(len, mutants.values()))
    print(f"{count} refused, {every - count} not refused")
    return 0 if count == every else 1
