"""The mutants of the sender, which break its rules: their build, and the scripts that turn under each."""

import json
from collections.abc import Callable, Generator, Iterator, Mapping, Sequence
from contextlib import closing
from dataclasses import dataclass
from enum import StrEnum
from pathlib import Path

from pdsuite.faults import Fault, error_reason
from pdsuite.output.octets import printable_path
from pdsuite.programs.locate import REGRESS
from pdsuite.programs.verdict import Row, Verdict
from pdsuite.rules.reached_rules import RuleUse
from pdsuite.rules.rule_list import SenderRule
from pdsuite.run.batches import Batch, SuiteScript
from pdsuite.run.local_mapper import local_mapper
from pdsuite.run.run_batches import SettledPiece
from pdsuite.signals import Stop

LIST = "mutants.json"
# The number of the unchanged sender.
UNCHANGED = 0
# A mutant may go on forever or take all memory: so many seconds of a processor and so many KiB a program may take.
_LIMITED = '#!/bin/sh\nulimit -t 10\nulimit -v 4194304\nexec "$0.limited" "$@"\n'


@dataclass(frozen=True)
class BuiltMutant:
    """A mutant that is built: its number in the program, its name, the rules that it breaks, and what is wrong."""

    number: int
    name: str
    rules: tuple[str, ...]
    words: str


@dataclass(frozen=True)
class MutantBuild:
    """The program of all mutants, in which a number of 4 octets chooses one; and why others aren't built, by names."""

    octets: bytes
    place: int
    mutants: Sequence[BuiltMutant]
    left_out: Mapping[str, str]

    def put_program_of_mutant(self, number: int, folder: Path) -> Path:
        """Puts the program of a mutant, or of the unchanged sender, in place of the one that a folder has."""
        program, limited = folder / REGRESS, folder / f"{REGRESS}.limited"
        end = self.place + 4
        limited.unlink(missing_ok=True)
        limited.write_bytes(self.octets[: self.place] + number.to_bytes(4, "little") + self.octets[end:])
        limited.chmod(0o755)
        program.write_text(_LIMITED)
        program.chmod(0o755)
        return program


def read_mutant_build(folder: Path) -> MutantBuild:
    """The mutants that were built in a folder."""
    try:
        listed = json.loads((folder / LIST).read_bytes())
        mutants = [BuiltMutant(it["number"], it["name"], tuple(it["rules"]), it["words"]) for it in listed["mutants"]]
        left_out = {it["name"]: it["why"] for it in listed["left out"]}
        return MutantBuild((folder / REGRESS).read_bytes(), listed["place"], mutants, left_out)
    except OSError as error:
        raise Fault(f"{printable_path(folder)}: {error_reason(error)}") from error


@dataclass(frozen=True)
class TriedMutant:
    """A mutant, and the scripts that turn under it, in the order of paths.

    Where its program ends on a script, that one turns, and others aren't tried.
    """

    mutant: BuiltMutant
    turned: tuple[str, ...]


class Guard(StrEnum):
    """How scripts guard a rule."""

    NOT = "not come to"  # a mutant of it turns none, and no script comes to it
    ONLY = "only come to"  # a mutant of it turns none, though scripts come to it
    GUARDED = "guarded"  # each mutant of it turns a script


@dataclass(frozen=True)
class GuardedRule:
    """A rule with the scripts that come to it, and its mutants."""

    use: RuleUse
    mutants: Sequence[TriedMutant]

    @property
    def living(self) -> list[TriedMutant]:
        """The mutants that turn no script."""
        return [it for it in self.mutants if not it.turned]

    @property
    def guard(self) -> Guard:
        if not self.living:
            return Guard.GUARDED
        return Guard.ONLY if self.use.scripts else Guard.NOT


def guarded_rules(uses: Mapping[str, RuleUse], tried: Sequence[TriedMutant]) -> list[GuardedRule]:
    """The rules that have mutants: those that no script guards first, else in the order that they have.

    A rule that the list lacks comes after the others of its kind.
    """
    names = dict.fromkeys([*uses, *(rule for it in tried for rule in it.mutant.rules)])
    rules = [
        GuardedRule(uses.get(name, RuleUse(SenderRule(name))), [it for it in tried if name in it.mutant.rules])
        for name in names
    ]
    order = [*Guard]
    return sorted((it for it in rules if it.mutants), key=lambda it: order.index(it.guard))


@dataclass(frozen=True)
class MutantRunner:
    """Runs scripts under mutants: their build, the batches, a folder for programs, and how many run at once."""

    build: MutantBuild
    batches: Sequence[Batch]
    folder: Path
    workers: int
    stop: Stop

    def try_mutants(self, mutants: Sequence[BuiltMutant], progress: Callable[[int], None]) -> Iterator[TriedMutant]:
        """The scripts that turn under each mutant; `progress` gets how many are tried."""
        progress(0)
        rows = {script.index: row for script, row in self._rows_of_scripts(UNCHANGED)}
        for count, mutant in enumerate(mutants, 1):
            turned = sorted(self._places_and_paths_that_turn(mutant, rows))
            yield TriedMutant(mutant, tuple(path for _, path in turned))
            progress(count)

    def _places_and_paths_that_turn(self, mutant: BuiltMutant, rows: Mapping[int, Row]) -> Iterator[tuple[int, str]]:
        """The scripts with other rows than these, up to the first on which the mutant's program ends."""
        with closing(self._rows_of_scripts(mutant.number)) as found:
            for script, row in found:
                if row != rows[script.index]:
                    yield script.index, script.path
                    if row.verdict is Verdict.ERROR:
                        return

    def _rows_of_scripts(self, number: int) -> Generator[tuple[SuiteScript, Row], None, None]:
        program = self.build.put_program_of_mutant(number, self.folder)
        with closing(local_mapper(program, (), self.workers, self.stop)(self.batches)) as steps:
            for step in steps:
                if isinstance(step, SettledPiece):
                    yield from ((script, outcome.row) for script, outcome in step.outcomes)
