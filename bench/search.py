#!/usr/bin/env -S python3 -B
"""Applies the mutants of search.mutants to the sender, and has the search of `pdsuite compare --search` find each:

bench/search.py [--inputs N] [--seed N] [--as-found] [--save FOLDER] [--program FILE] [NAME..]

Those of these names are tried, or all, in one build. The search varies the scripts of this tree's suite, without what
was written there for these very mutants. Since the processors may be busy, it is bounded by a count of inputs in place
of time: four idle processors try some 63 a second on an unproved sender, so that 3,780 are 60 seconds.

For each mutant a line says whether a script of that suite fails with it; after how many inputs the search found it, if
it did; and how many lines the script has. With --as-found the script isn't cut down. The program with all mutants is
kept as FILE, and taken from there if it is there; it has to be of these sources and mutants. The status is 1 where a
mutant that no script sees isn't found.
"""

import argparse
import shutil
import sys
import tempfile
from collections.abc import Sequence
from dataclasses import dataclass
from pathlib import Path

from trees import TOP, Mutant, copy_tree_with_mutant, parse_mutants_of_text
from build_cache import OPTIMISED
from build_mutants import build_with_all_mutants, programs_with_mutant
from kit_tools import kit_or_raise_unknown_kit_error
from mutant_bodies import apply_all_mutants

sys.path.insert(0, str(TOP / "client"))

from pdsuite.compare.affected import changed_functions_and_constants_of_trees  # noqa: E402
from pdsuite.compare.senders import Sender  # noqa: E402
from pdsuite.programs.verdict import Verdict  # noqa: E402
from pdsuite.search.candidates import CandidateLists  # noqa: E402
from pdsuite.search.find import DiffersTest, FailsTest  # noqa: E402
from pdsuite.search.finished_script import least_script_of_find  # noqa: E402
from pdsuite.search.initial_inputs import record_corpus_without_fixed_settings, suite_scripts_of_tree  # noqa: E402
from pdsuite.search.oracle import (  # noqa: E402
    ConfiguredScript,
    ProgramOracle,
    SenderOracle,
    input_counts_of_successive_queries,
)
from pdsuite.search.relevance import emphasis_of_changes  # noqa: E402
from pdsuite.search.save import save_script_and_settings  # noqa: E402
from pdsuite.search.search import Search  # noqa: E402
from pdsuite.signals import Stop  # noqa: E402

MUTANTS = TOP / "bench" / "search.mutants"
SUITE = "examples/suite"
# Scripts of the suite that were written for these mutants, and the ends of others.
LATER = (
    "new_octets_begin_the_count_anew", "blocks_below_una_are_no_duplicates", "window_stays_in_recovery",
    "ack_of_what_is_queued", "largest_window_counts_later_acks", "an_expiry_sends_too",
    "slow_start_after_idle_follows_no_expiry",
)  # fmt: skip
LONGER = ("one_segment_after_an_expiry", "smaller_window_stays")
END = "// cwnd is 2,500\n"
# A find is cut down for so many seconds at most.
SECONDS = 60.0


@dataclass(frozen=True)
class SearchBench:
    """The common parts of all searches: the base, its scripts, the program with all mutants, and the options."""

    base: Path
    scripts: Sequence[ConfiguredScript]
    program: Path
    options: argparse.Namespace
    stop: Stop

    def search_mutant_and_answer_seen_and_found(self, mutant: Mutant, number: int, folder: Path) -> tuple[bool, bool]:
        """Searches a mutant; whether a script of the suite sees it, and whether it was found."""
        before = self._oracle_of_mutant(0, folder / "before")
        after = self._oracle_of_mutant(number, folder / "after")
        is_seen = any(it.verdict is not Verdict.PASS for it in after.run_scripts_for_rows(self.scripts))
        tree = copy_tree_with_mutant(folder / "tree", mutant)
        emphasis = emphasis_of_changes(changed_functions_and_constants_of_trees(self.base, tree), frozenset())
        begun = record_corpus_without_fixed_settings(list(self.scripts), before, frozenset())
        drawing = CandidateLists(self.options.seed, input_counts_of_successive_queries(), emphasis, begun)
        seconds = 0.0 if self.options.as_found else SECONDS
        search = Search(before, FailsTest(after), DiffersTest(after), drawing, seconds, self.options.inputs)
        searched = search.run(lambda inputs: None)
        found = "NOT FOUND"
        if searched.find is not None:
            script = least_script_of_find(searched.find, before, after).script
            found = f"found, inputs {searched.coverage.inputs}, lines {script.octets.count(10)}"
            if self.options.save is not None:
                self.options.save.mkdir(parents=True, exist_ok=True)
                save_script_and_settings(self.options.save / f"{mutant.name}.pkt", script.octets, script.settings)
        print(f"{mutant.name}: {'seen by the suite; ' if is_seen else ''}{found}", flush=True)
        return is_seen, searched.find is not None

    def _oracle_of_mutant(self, number: int, folder: Path) -> SenderOracle:
        sender = Sender(folder.name, programs_with_mutant(self.program, number, folder), None)
        return ProgramOracle(sender, self.stop)


def copy_suite_as_before_these_mutants(place: Path) -> None:
    """This tree's suite, without what was written for these mutants."""
    shutil.copytree(TOP / SUITE, place, ignore=shutil.ignore_patterns(*(f"{it}.pkt" for it in LATER)))
    for path in (path for name in LONGER for path in place.rglob(f"{name}.pkt")):
        path.write_text(path.read_text().partition(END)[0])


def build_all_or_exit(mutants: Sequence[Mutant], folder: Path) -> Path:
    """The program with all mutants, built in a folder."""
    tree, work = copy_tree_with_mutant(folder / "tree"), folder / "build"
    for number, why in apply_all_mutants(dict(enumerate(mutants, 1)), tree).left_out.items():
        raise SystemExit(f"{mutants[number - 1].name}: {why}")
    work.mkdir()
    return build_with_all_mutants(kit_or_raise_unknown_kit_error(), tree, work, OPTIMISED, lambda phase: None)


def main() -> int:
    parser = argparse.ArgumentParser(allow_abbrev=False, description=(__doc__ or "").partition(":\n")[0])
    parser.add_argument("--inputs", type=int, default=3_780)
    parser.add_argument("--seed", type=int, default=7)
    parser.add_argument("--as-found", action="store_true")
    parser.add_argument("--save", type=Path)
    parser.add_argument("--program", type=Path)
    parser.add_argument("names", metavar="NAME", nargs="*")
    options = parser.parse_args()
    mutants = parse_mutants_of_text(MUTANTS.read_text(), True, ())
    with tempfile.TemporaryDirectory(prefix="search-") as folder, Stop() as stop:
        base = copy_tree_with_mutant(Path(folder, "base"))
        copy_suite_as_before_these_mutants(base / SUITE)
        program = options.program or Path(folder, "program")
        if not program.exists():
            shutil.copy(build_all_or_exit(mutants, Path(folder)), program)
        bench = SearchBench(base, suite_scripts_of_tree(base, stop), program, options, stop)
        found = []
        for number, mutant in enumerate(mutants, 1):
            if not options.names or mutant.name in options.names:
                work = Path(folder, mutant.name)
                work.mkdir()
                found.append(bench.search_mutant_and_answer_seen_and_found(mutant, number, work))
                shutil.rmtree(work)
    live = [is_found for is_seen, is_found in found if not is_seen]
    print(f"total {len(found)} seen by the suite {len(found) - len(live)} others {len(live)} found {sum(live)}")
    return 0 if all(live) else 1


if __name__ == "__main__":
    sys.exit(main())
