#!/usr/bin/env -S python3 -B
"""Measures how `pdsuite watch` follows a changed sender, with real builds:

bench/sender.py [--saves N] [--seed N] [--rule NAME].. [--kept]

It works in a clone of this tree, and gives the sender the rules of rules.mutants, one after another. It says how long
after each save the first new row came, and how long after the save of a script its row. Then it saves rules, settings
and scripts at random: a rule as it is kept already or for a new build, or one that doesn't compile. Each report that
counts as current has to have the rows of the rule that stands then, and the rows that stand last are to be those that
`pdsuite run` has of the same tree. A build takes a minute or more; with --kept the storm makes none anew.
"""

import argparse
import os
import random
import re
import subprocess
import sys
import tempfile
import threading
import time
from collections.abc import Callable, Iterator, Mapping
from dataclasses import dataclass, field
from pathlib import Path

TOP = Path(__file__).resolve().parents[1]
sys.path.insert(0, str(TOP / "tools"))

from mutant_files import files_and_texts_changed_by_mutant, parse_mutants_of_text  # noqa: E402

RULES = TOP / "bench/rules.mutants"
OWN, WRONG = "the sender as it is", "one that doesn't compile"
# The source that gets a comment where a build is to be a new one, or a word where none is to be made.
SOURCE = Path("crates/pd_board/src/queries.rt")
# The scripts, and those of them that are saved.
SUITE = "storm"
SAVED = ("recovery-without-sack/third_duplicate.pkt", "nagle/small_segment_waits.pkt")
# A first line with which a script fails, whatever the rule.
BAD = b"0 bind(3, ..., ...) = 1\n"
SETTINGS = ("", "limited_transmit = false\n", "min_rto_us = 200000\n")
# So many seconds a rule that doesn't compile stays, so that it is seen.
SEEN = 2.0
# So many seconds after the last save the rows are to be those of a run.
PATIENCE = 1_200.0
BEFORE = "(by the sender before)"
LEFT = "the sender has changed"
STANDS = ("the sender is built without proofs", "the sender is proved", "the sender stands again")
ROW = re.compile(r"(storm/\S+\.pkt)(?::(\d+))?: (pass \d+|fail [a-z]+|syntax|unsupported|limit|error)")

Rows = Mapping[str, str]


@dataclass
class SenderTree:
    """A clone with a copy of the suite, the texts of each rule by its files, and which rule was put there when."""

    top: Path
    texts: dict[str, dict[Path, str]] = field(default_factory=dict)
    saves: list[tuple[float, str]] = field(default_factory=list)

    def clone_and_read_rules(self, names: list[str]) -> None:
        """Clones, and reads the rules, all where none is named."""
        subprocess.run(["git", "-c", "advice.detachedHead=false", "clone", "-q", TOP, self.top], check=True)
        subprocess.run(["cp", "-R", self.top / "examples/suite", self.top / SUITE], check=True)
        mutants = parse_mutants_of_text(RULES.read_text(), folders=())
        rules = {
            it.name: dict(files_and_texts_changed_by_mutant(it, self.top))
            for it in mutants
            if it.name in names or not names
        }
        own = {path: path.read_text() for texts in rules.values() for path in texts}
        own[self.top / SOURCE] = (self.top / SOURCE).read_text()
        self.texts = {OWN: own, **{name: {**own, **texts} for name, texts in rules.items()}}
        self.texts[WRONG] = {**own, self.top / SOURCE: own[self.top / SOURCE] + "wrong\n"}

    def save_rule(self, rule: str, comment: str = "") -> float:
        """Gives the sender a rule, with a comment for a build of its own; the moment of the save."""
        self.saves.append((time.monotonic(), rule))
        for path, text in self.texts[rule].items():
            text += comment if path == self.top / SOURCE else ""
            if path.read_text() != text:
                path.write_text(text)
        return time.monotonic()

    def save_settings(self, settings: str) -> None:
        """Gives all scripts a setting."""
        (self.top / SUITE / "pdsuite.toml").write_text(f"root = true\n{settings}")

    def run_suite(self) -> Rows:
        """The rows of `pdsuite run`."""
        command = [self.top / "pdsuite", "run", "-v", SUITE]
        printed = subprocess.run(command, cwd=self.top, capture_output=True, text=True).stdout
        return {it[1]: row_of_match(it) for it in map(ROW.match, printed.splitlines()) if it}

    def rules_that_stood_between(self, since: float, until: float) -> set[str]:
        """The rules that stood at some time between two moments."""
        before = [rule for saved, rule in self.saves if saved <= since]
        return {*before[-1:], *(rule for saved, rule in self.saves if since < saved <= until)}


def row_of_match(found: "re.Match[str]") -> str:
    return f"{found[2] or ''} {found[3]}"


class WatchRun:
    """A started `pdsuite watch -v`: what it has printed, the rows that stand, and those of each report that is current.

    Of a report it is known after which moment it began, and when it ended.
    """

    def __init__(self, tree: Path) -> None:
        self.rows: dict[str, str] = {}
        self.is_current = True
        self.reports: list[tuple[float, float, Rows]] = []
        self.lines: list[tuple[float, str]] = []
        self._since = 0.0
        self._news = threading.Condition()
        self._process = subprocess.Popen(
            [tree / "pdsuite", "watch", "-v", SUITE], cwd=tree, stdout=subprocess.PIPE, stderr=sys.stderr, text=True
        )
        self._reader = threading.Thread(target=self._read_lines)
        self._reader.start()

    def wait_until(self, happened: Callable[[], bool], seconds: float = PATIENCE) -> None:
        """Waits until something is so of what was printed."""
        with self._news:
            if not self._news.wait_for(happened, seconds):
                raise SystemExit("it never came; the last lines:\n" + "\n".join(line for _, line in self.lines[-30:]))

    def wait_for_line(self, since: float, *begins: str) -> float:
        """Waits for a line with one of these beginnings that comes after a moment; its moment."""

        def moments_of_such_lines() -> Iterator[float]:
            return (moment for moment, line in self.lines if moment >= since and line.startswith(begins))

        self.wait_until(lambda: next(moments_of_such_lines(), None) is not None)
        return next(moments_of_such_lines())

    def terminate(self) -> None:
        self._process.terminate()
        self._process.wait()
        self._reader.join()

    def _read_lines(self) -> None:
        assert self._process.stdout is not None
        for line in self._process.stdout:
            with self._news:
                self._note_line(line.rstrip("\n"), time.monotonic())
                self._news.notify_all()

    def _note_line(self, line: str, moment: float) -> None:
        self.lines.append((moment, line))
        if line.startswith(LEFT):
            self.is_current, self._since = False, moment
        elif line.startswith(STANDS):
            self.is_current = True
        elif BEFORE not in line and (found := ROW.match(line)):
            self.rows[found[1]] = row_of_match(found)
        elif line.startswith("total "):
            if self.is_current and BEFORE not in line:
                self.reports.append((self._since, moment, dict(self.rows)))
            self._since = moment


def print_delays_of_first_rows_after_saves(tree: SenderTree, watching: WatchRun) -> None:
    """Says how long after a save of each rule, and of a script, the first row comes."""
    script = tree.top / SUITE / SAVED[0]
    for rule in [it for it in tree.texts if it not in (OWN, WRONG)] + [OWN]:
        saved = tree.save_rule(rule)
        stands = watching.wait_for_line(saved, *STANDS)
        moment = watching.wait_for_line(stands, "total ", f"{SUITE}/")
        print(f"{rule}: the first new row {moment - saved:.1f} s after the save", flush=True)
        watching.wait_for_line(stands, "total ")
        text = script.read_bytes()
        script.write_bytes(BAD + text)
        saved = time.monotonic()
        moment = watching.wait_for_line(saved, f"{SUITE}/")
        print(f"a script: its row {(moment - saved) * 1_000:.0f} ms after the save", flush=True)
        watching.wait_for_line(moment, "total ")
        script.write_bytes(text)
        watching.wait_for_line(watching.wait_for_line(time.monotonic(), f"{SUITE}/"), "total ")


def rows_of_each_rule(tree: SenderTree) -> dict[str, list[Rows]]:
    """The rows of each rule under each setting, but for the scripts that are saved; none of one that isn't built."""
    found: dict[str, list[Rows]] = {WRONG: []}
    for rule in (it for it in tree.texts if it != WRONG):
        tree.save_rule(rule)
        found[rule] = []
        for settings in SETTINGS:
            tree.save_settings(settings)
            found[rule].append(without_saved_scripts(tree.run_suite()))
    tree.save_settings("")
    return found


def without_saved_scripts(rows: Rows) -> Rows:
    return {path: row for path, row in rows.items() if path.removeprefix(f"{SUITE}/") not in SAVED}


def save_at_random_until_rows_match_a_run(
    tree: SenderTree, watching: WatchRun, saves: int, seed: int, most: int
) -> None:
    """Saves rules, settings and scripts at random, and waits until the rows that stand are those of a run.

    A save of a rule has at most so many lines that make its build a new one.
    """
    chance = random.Random(seed)
    texts = {name: (tree.top / SUITE / name).read_bytes() for name in SAVED}
    for number in range(saves):
        match chance.randrange(6):
            case 0 | 1:
                tree.save_rule(chance.choice(list(tree.texts)), f"// save {number}\n" * chance.randrange(most + 1))
            case 2:
                tree.save_settings(chance.choice(SETTINGS))
            case _:
                name = chance.choice(SAVED)
                (tree.top / SUITE / name).write_bytes(chance.choice((b"", b"// saved\n", BAD)) + texts[name])
        time.sleep(chance.choice((0.02, 0.2, 1.0, 8.0)))
    last = chance.choice([it for it in tree.texts if it != WRONG])
    tree.save_rule(WRONG)
    time.sleep(SEEN)
    saved = tree.save_rule(last, "// the last save\n" * most)
    watching.wait_for_line(saved, *STANDS)
    truth = tree.run_suite()
    watching.wait_until(lambda: watching.is_current and watching.rows == truth)
    print(f"{saves} saves, the last one of {last}: the {len(truth)} rows that stand are those of a run", flush=True)


def are_reports_right(tree: SenderTree, watching: WatchRun, known: Mapping[str, list[Rows]]) -> bool:
    """Whether each report that counts as current has the rows of a rule that stood while it was made."""
    is_well = True
    for since, moment, rows in watching.reports:
        standing = tree.rules_that_stood_between(since, moment)
        shown = [rule for rule, each in known.items() if without_saved_scripts(rows) in each]
        if not standing.intersection(shown):
            print(f"a report shows {' or '.join(shown) or 'other rows'}, where {' or '.join(sorted(standing))} stands")
            is_well = False
    print(f"{len(watching.reports)} reports were shown as current, {len(tree.saves)} rules saved")
    return is_well


def main() -> int:
    parser = argparse.ArgumentParser(allow_abbrev=False, description=(__doc__ or "").partition(":\n")[0])
    parser.add_argument("--saves", type=int, default=60, help="so many saves at random")
    parser.add_argument("--seed", type=int, default=1, help="which ones")
    parser.add_argument("--rule", action="append", default=[], help="a rule of rules.mutants, and no other")
    parser.add_argument("--kept", action="store_true", help="have no rule built anew in the storm")
    options = parser.parse_args()
    print(f"{os.cpu_count()} processors, load {os.getloadavg()[0]:.1f}", flush=True)
    with tempfile.TemporaryDirectory(prefix="pdsender-") as folder:
        tree = SenderTree(Path(folder) / "tree")
        tree.clone_and_read_rules(options.rule)
        tree.save_rule(OWN)
        watching = WatchRun(tree.top)
        try:
            watching.wait_for_line(0.0, "total ")
            print_delays_of_first_rows_after_saves(tree, watching)
            known = rows_of_each_rule(tree)
            save_at_random_until_rows_match_a_run(tree, watching, options.saves, options.seed, 0 if options.kept else 1)
        finally:
            watching.terminate()
        is_well = are_reports_right(tree, watching, known)
    print(f"load {os.getloadavg()[0]:.1f}")
    return 0 if is_well else 1


if __name__ == "__main__":
    sys.exit(main())
