"""Proves and builds programs, all where none is named, and the crates below them: prove [--lanes N] [CRATE..]

A library that is named is proved with those below it. The proofs read copies of their files, made at the beginning. So
an edit meanwhile is in no program, whether it stays or is taken back: where one stays, a line says that the tree has
changed since. The errors name the tree's own files.

Two crates are proved side by side, in two lanes, where the machine has four processors and 16 GB of free memory.
`rt lib` locks each library below the one that it proves, so each lane works in a copy of its own. The files that are
kept of a crate come into its lane by hard links, and so do those of a proof into the tree and the other lane. The
copies are gone at the end.

Prints on standard error which crate is proved, how many are left, and about how long they take: as long as they took
last on this machine, as a file below ~/.cache/pdregress says. Where one isn't proved, it prints each error with its
file and line, each contract that is refused with the definitions that it cites, which definitions aren't those by which
it was proved last, and which laws name them. Interrupted, it keeps what was proved. Both end with status 2, and so does
a kit that doesn't print what its file KIT-ID has, or changes meanwhile. Two calls in one tree work one after the other.
In the end it keeps copies of all programs that are proved, with their commit, as tools/last_proved.py says.
"""
from __future__ import annotations

import argparse
import contextlib
import fcntl
import os
import shutil
import sys
import tempfile
import time
from collections.abc import Callable, Iterator
from concurrent.futures import FIRST_COMPLETED, Future, ThreadPoolExecutor, wait
from dataclasses import dataclass, field
from pathlib import Path

import proof_sums
import proving_kit
import signals
from changed_rules import changed_definitions_and_laws_report_lines, write_definitions_of_last_proof
from cited import Definitions, add_contracts_to_errors
from copies import copy_to_trees_returning_checksums
from crate_graph import parse_dependencies_between_crates, crates_below_one_in_build_order
from last_proved import keep_programs
from proofs import (
    JOBS,
    LANE,
    TOP,
    Lane,
    Times,
    Unproved,
    remaining_crates_and_minutes_in_words,
    replace_all_parts_linking_or_copying,
    has_processors_and_memory_for_two_lanes,
    lock_crate,
    times_key_by_whether_incremental_is_kept,
    moment_of_last_proof_or_zero,
)
from prove_errors import errors_in_log
from proving_kit import ProvingKit, ProofRefusedError
from source_sums import (
    TABLE,
    Unreadable,
    paths_and_kinds_read_in_crates,
    sources_of_proof,
    sorted_files_among_places_or_refuse,
    sums_of_files,
)


# The last message about a proof that was refused.
REFUSED = TOP / "crates" / "pdregress" / "out" / "refused"


class Interrupted(Exception):
    """A signal came, while these crates were proved."""


@dataclass
class RunningProof:
    """A crate that is proved now, in which lane, since when, and what its time is kept as."""

    crate: str
    lane: Lane
    key: str
    begun: float


@dataclass
class Work:
    """The crates that are to be proved, those that are, and those that a lane is at.

    `sums` are the checksums of what was copied, and `folder` is one for what is handed over.
    """

    kit: ProvingKit
    sums: dict[str, str]
    folder: Path
    uses: dict[str, list[str]]
    waiting: list[str]
    times: Times
    expected: dict[str, float]
    proved: set[str] = field(default_factory=set)
    running: dict[Future[None], RunningProof] = field(default_factory=dict)

    def print_crate_begun_and_what_is_left(self, crate: str, lanes: int) -> None:
        """Prints that a crate is begun, and what is left."""
        left = {*self.waiting, crate, *(it.crate for it in self.running.values())}
        seconds = max(
            [sum(map(self.expected.__getitem__, left)) / lanes, *map(self.seconds_of_crate_and_chain_above, left)]
        )
        print_message(f"proving {crate}; {remaining_crates_and_minutes_in_words(len(left), seconds)} are left")

    def find_ready_crate_with_longest_chain(self) -> str | None:
        """Of the crates whose libraries are proved the one with the longest chain of others above it."""
        ready = [it for it in self.waiting if self.proved.issuperset(self.uses[it])]
        return max(ready, key=self.seconds_of_crate_and_chain_above) if ready else None

    def seconds_of_crate_and_chain_above(self, crate: str) -> float:
        """The seconds of a crate and the longest chain of others above it."""
        above = max(
            (self.seconds_of_crate_and_chain_above(it) for it in self.waiting if crate in self.uses[it]), default=0.0
        )
        return self.expected[crate] + above

    def prove_all_keeping_parts_of_stopped_proofs(self, lanes: list[Lane]) -> None:
        """Proves the crates, one in each lane at a time."""
        pool = ThreadPoolExecutor(len(lanes))
        try:
            while self.waiting or self.running:
                self.fill_free_lanes(pool, lanes)
                for future in wait(self.running, return_when=FIRST_COMPLETED).done:
                    self.hand_over_finished_proof_or_raise(future, lanes)
        finally:
            for lane in lanes:
                lane.stop_and_refuse_new()
            pool.shutdown()
            for it in self.running.values():
                with contextlib.suppress(ProofRefusedError), lock_crate(it.crate, waits=False) as is_held:
                    if is_held:
                        self.raise_if_lane_copy_or_kit_changed(it.lane)
                        replace_all_parts_linking_or_copying(
                            it.lane.out_folder_of_crate_in_lane(it.crate), out_folder_of_crate(it.crate), self.folder
                        )

    def fill_free_lanes(self, pool: ThreadPoolExecutor, lanes: list[Lane]) -> None:
        """Gives each lane that is free a crate, with what is kept of it."""
        busy = [it.lane.tree for it in self.running.values()]
        for lane in (it for it in lanes if it.tree not in busy):
            crate = self.find_ready_crate_with_longest_chain()
            if crate is None:
                return
            self.waiting.remove(crate)
            with lock_crate(crate):
                replace_all_parts_linking_or_copying(
                    out_folder_of_crate(crate), lane.out_folder_of_crate_in_lane(crate), self.folder
                )
            self.print_crate_begun_and_what_is_left(crate, len(lanes))
            running = RunningProof(crate, lane, times_key_by_whether_incremental_is_kept(crate), time.time())
            prove_crate = lane.prove_program_or_raise if is_program(lane.tree, crate) else lane.prove_library_or_raise
            self.running[pool.submit(prove_crate, crate)] = running

    def hand_over_finished_proof_or_raise(self, future: Future[None], lanes: list[Lane]) -> None:
        """Gives the other lane what it reads of a crate that was proved, and the tree all that is kept of it."""
        future.result()
        it = self.running[future]
        self.raise_if_lane_copy_or_kit_changed(it.lane)
        self.keep_proof_time_if_proved_anew(it)
        out = it.lane.out_folder_of_crate_in_lane(it.crate)
        write_definitions_of_last_proof(out, folders_of_crate_and_below(it.lane.tree, it.crate, self.uses))
        if is_program(it.lane.tree, it.crate):
            self.write_sums_of_program_and_its_sources(it.crate, it.lane.tree)
        else:
            for other in (lane for lane in lanes if lane.tree != it.lane.tree):
                replace_all_parts_linking_or_copying(
                    out / "rlib", other.out_folder_of_crate_in_lane(it.crate) / "rlib", self.folder
                )
        with lock_crate(it.crate):
            replace_all_parts_linking_or_copying(out, out_folder_of_crate(it.crate), self.folder)
        # Only now, so that what was proved isn't lost where a signal comes in the midst.
        del self.running[future]
        self.proved.add(it.crate)

    def raise_if_lane_copy_or_kit_changed(self, lane: Lane) -> None:
        """Checks that what is proved in a lane is what was copied, by the kit that was there at the beginning."""
        if changed := lane.copy.find_first_path_changed_since_copied():
            raise ProofRefusedError(f"{lane.tree}/{changed} has changed while it was proved: run this again")
        self.kit.check_unchanged()

    def keep_proof_time_if_proved_anew(self, it: RunningProof) -> None:
        """Keeps what a proof took, if it was one: a crate that hasn't changed isn't proved again."""
        if moment_of_last_proof_or_zero(it.lane.out_folder_of_crate_in_lane(it.crate)) >= it.begun:
            self.times.keep_seconds(it.key, time.time() - it.begun)

    def write_sums_of_program_and_its_sources(self, program: str, tree: Path) -> None:
        """Keeps the checksums of a program and of what its proof read beside it."""
        path = proof_sums.program_path(program)
        read = {it: self.sums[it] for it in sources_of_proof(str(tree), program)}
        proof_sums.replace_file_if_possible(
            f"{tree}/{path}.sums", proof_sums.sums_file_text(sums_of_files(str(tree), [path]), read, self.kit.name)
        )


def print_message(text: str) -> None:
    print(f"prove: {text}", file=sys.stderr, flush=True)


def out_folder_of_crate(crate: str) -> Path:
    """The folder of what is kept of a crate of the tree."""
    return TOP / "crates" / crate / "out"


def is_program(tree: Path, crate: str) -> bool:
    return (tree / "crates" / crate / "src" / "main.rt").exists()


def prove_in_lanes_and_name_file_edited_since(
    named: list[str], uses: dict[str, list[str]], lanes: int, kit: ProvingKit
) -> str | None:
    """Proves crates and those below them. If the tree has other files than their proofs read, the answer says so."""
    crates = tuple(dict.fromkeys(low for it in named for low in [*crates_below_one_in_build_order(it, uses), it]))
    times = Times.read()
    out = out_folder_of_crate(named[0])
    out.mkdir(parents=True, exist_ok=True)
    for left in TOP.glob(f"crates/*/out/{LANE}*"):
        shutil.rmtree(left, ignore_errors=True)
    with tempfile.TemporaryDirectory(prefix=LANE, dir=out) as folder:
        trees = [Path(folder) / str(number) for number in range(lanes)]
        read, copies = copy_to_trees_returning_checksums(TOP, crates, trees)
        work = Work(kit, read, Path(folder), uses, list(crates), times, times.expected_seconds_by_crate(uses))
        flags = ["--jobs", str(JOBS)] if lanes > 1 else []
        try:
            work.prove_all_keeping_parts_of_stopped_proofs([Lane(copy, kit.command, flags) for copy in copies])
        except KeyboardInterrupt:
            raise Interrupted(" and ".join(it.crate for it in work.running.values())) from None
    try:
        differing = (
            read.items()
            ^ sums_of_files(
                str(TOP), sorted_files_among_places_or_refuse(paths_and_kinds_read_in_crates(str(TOP), crates))
            ).items()
        )
    except Unreadable as why:
        return str(why)
    return f"{min(differing)[0]} has changed since this began" if differing else None


@contextlib.contextmanager
def lock_tree() -> Iterator[None]:
    """Lets no other call work in this tree meanwhile."""
    tree = os.open(TOP, os.O_RDONLY)
    try:
        try:
            fcntl.flock(tree, fcntl.LOCK_EX | fcntl.LOCK_NB)
        except BlockingIOError:
            print_message("waiting for another call that proves here")
            fcntl.flock(tree, fcntl.LOCK_EX)
        yield
    finally:
        os.close(tree)


def folders_of_crate_and_below(tree: Path, crate: str, uses: dict[str, list[str]]) -> list[Path]:
    """The folders of a crate and of those below it."""
    return [tree / "crates" / it for it in [*crates_below_one_in_build_order(crate, uses), crate]]


def refusal_report_lines(crate: str, folders: list[Path], shown: Callable[[str], str], top: Path) -> Iterator[str]:
    """Why a crate isn't proved, with each contract that is refused, and which definitions have changed since it was.

    Paths of errors are as they are shown, those of definitions below a folder.
    """
    folder = TOP / "crates" / crate
    log = folder / "out" / "build.log"
    text = log.read_text(errors="replace")
    found = add_contracts_to_errors(errors_in_log(text, folder, shown), Definitions(folders), top)
    yield f"prove: {crate} isn't proved, or wasn't built:"
    yield from list(found) or text.splitlines()[-5:] or [""]
    yield from changed_definitions_and_laws_report_lines(log.parent, folders)
    yield f"prove: the whole log: {log}"


def print_and_write_refusal_for_editors(crate: str, uses: dict[str, list[str]]) -> None:
    """Prints why a crate isn't proved, and leaves that for `watch` and editors, which may be called from elsewhere."""
    folders = folders_of_crate_and_below(TOP, crate, uses)
    print(*refusal_report_lines(crate, folders, os.path.relpath, Path()), sep="\n", file=sys.stderr, flush=True)
    with contextlib.suppress(OSError):
        REFUSED.parent.mkdir(parents=True, exist_ok=True)
        beside = REFUSED.with_suffix(".new")
        beside.write_text("".join(f"{line}\n" for line in refusal_report_lines(crate, folders, os.path.abspath, TOP)))
        beside.replace(REFUSED)


def prove_crates_then_copy_all_proved_programs(named: list[str], every: list[str], lanes: int) -> None:
    """Proves crates that are named, those that aren't proved, by the kit that is there before and after."""
    kit = proving_kit.kit_whose_version_matches_its_file()
    with lock_tree():
        REFUSED.unlink(missing_ok=True)
        uses = parse_dependencies_between_crates((TOP / TABLE).read_text())
        left = [it for it in named if not (is_program(TOP, it) and proof_sums.is_proved_keeping_stamps(str(TOP), it))]
        changed = prove_in_lanes_and_name_file_edited_since(left, uses, lanes, kit) if left else None
        # Also where nothing was left to prove, and by what its command says.
        kit.check_unchanged()
        proving_kit.kit_whose_version_matches_its_file()
        if changed:
            raise ProofRefusedError(f"{changed}, and what was proved is as all was before: run this again")
        proved = [it for it in every if proof_sums.is_proved_keeping_stamps(str(TOP), it)]
        # If only libraries are named, the kept programs stay.
        if set(proved).intersection(named):
            keep_programs(proved)


def print_proved_programs_and_libraries(crates: list[str]) -> None:
    programs = [it for it in crates if is_program(TOP, it)]
    if programs:
        print_message(f"proved and built: {', '.join(programs)}")
    if libraries := [it for it in crates if it not in programs]:
        print_message(f"proved: {', '.join(libraries)}")


def main() -> int:
    every = (TOP / "packaging" / "programs.txt").read_text().split()
    uses = parse_dependencies_between_crates((TOP / TABLE).read_text())
    parser = argparse.ArgumentParser(prog="prove", allow_abbrev=False, description=(__doc__ or "").partition("\n")[0])
    parser.add_argument("crates", metavar="CRATE", nargs="*", help=f"{', '.join(every)}, or a library")
    parser.add_argument("--lanes", type=int, choices=(1, 2), help="how many crates are proved side by side")
    options = parser.parse_args()
    named = list(dict.fromkeys(options.crates)) or every
    for unknown in (it for it in named if it not in uses):
        parser.error(f"there is no crate {unknown}; there are {', '.join(uses)}")
    signals.install_handlers_raising_at_first_signal()
    try:
        prove_crates_then_copy_all_proved_programs(
            named, every, options.lanes or (2 if has_processors_and_memory_for_two_lanes() else 1)
        )
        print_proved_programs_and_libraries(named)
    except Unproved as crate:
        print_and_write_refusal_for_editors(str(crate), uses)
        return 2
    except Interrupted as at:
        print_message(f"interrupted at {at}; what was proved is kept: run it again to go on")
        return 2
    except (ProofRefusedError, Unreadable) as why:
        print_message(str(why))
        return 2
    except OSError as error:
        print_message(f"can't go on: {error}")
        return 2
    except KeyboardInterrupt:
        return 2
    return 0


if __name__ == "__main__":
    sys.exit(main())
