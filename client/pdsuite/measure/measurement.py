"""Measures two senders: each plays the same transfers, by equal seeds, several programs at a time."""

import os
from collections.abc import Callable, Iterator, Mapping, Sequence
from concurrent.futures import Future, ThreadPoolExecutor, as_completed
from dataclasses import dataclass
from pathlib import Path

from pdsuite.compare.sides import Side
from pdsuite.measure.paths import NetworkPath
from pdsuite.measure.transfer import TransferResult, play_transfer_as_generator
from pdsuite.measure.transfer_batch import TransferOutcome, UnfinishedTransferError, play_transfers
from pdsuite.programs.locate import REGRESS
from pdsuite.scripts.defaults import DEFAULTS
from pdsuite.scripts.settings import Settings, sorted_settings
from pdsuite.signals import Stop, StoppedError

# So many transfers share a program.
_PIECE = 16
_MSS, _ROOM = "mss", "sndbuf"


@dataclass(frozen=True, slots=True)
class TransferCase:
    """Transfers of one size over one path, and how many of them there are."""

    path: NetworkPath
    size: int
    runs: int

    def seed_of_run(self, seed: int, run: int) -> str:
        """The seed by which chance is drawn in a run, the same for both senders."""
        return f"{seed} {self.path.name} {self.size} {run}"


@dataclass(frozen=True)
class Pair:
    """The results of the same transfer under both senders."""

    run: int
    before: TransferResult
    after: TransferResult

    @property
    def sides(self) -> tuple[TransferResult, TransferResult]:
        return self.before, self.after


@dataclass(frozen=True)
class MeasuredCase:
    """The results of the runs that both senders played to the end, and why others came to none."""

    case: TransferCase
    pairs: tuple[Pair, ...]
    unfinished: tuple[str, ...] = ()


@dataclass(frozen=True)
class MeasureResult:
    """The results of all cases; and the status, if a signal ended the measurement before all was played."""

    cases: tuple[MeasuredCase, ...]
    status: int | None = None

    @property
    def transfer_count(self) -> int:
        """How many transfers were played."""
        return 2 * sum(len(it.pairs) for it in self.cases)


@dataclass(frozen=True)
class _Piece:
    """Some runs of a case, for one of the sides."""

    case: int
    side: int
    runs: range


def cases_of_paths(paths: Sequence[NetworkPath], runs: int) -> list[TransferCase]:
    """The cases of paths. Where chance has no part in a path, one run has all."""
    return [TransferCase(path, size, runs if path.has_chance else 1) for path in paths for size in path.sizes]


def side_settings_with_path_mss(side: Side, common: Settings, path: NetworkPath) -> Settings:
    """The settings of a side over a path: the sender's segments are as large as the path's, unless it is set."""
    own = {_MSS: path.mss} if path.mss != DEFAULTS[_MSS] else {}
    return side.adapted_given_and_own_settings(sorted_settings({**own, **dict(common)}))


@dataclass(frozen=True)
class Measurement:
    """The transfers to play: cases by a seed, under both sides, which have programs."""

    cases: Sequence[TransferCase]
    sides: tuple[Side, Side]
    common: Settings
    seed: int

    def run(self, stop: Stop, advance: Callable[[int, int], None]) -> MeasureResult:
        """Plays all. `advance` gets how many transfers are played, and of how many. A signal leaves what there is."""
        pieces = list(self._pieces_round_robin())
        count = sum(len(it.runs) for it in pieces)
        found: dict[tuple[int, int], dict[int, TransferOutcome]] = {}
        status: int | None = None
        done = 0
        with ThreadPoolExecutor(len(os.sched_getaffinity(0))) as pool:
            futures: dict[Future[list[TransferOutcome]], _Piece] = {
                pool.submit(self._play_piece_of_one_side, it, stop): it for it in pieces
            }
            try:
                for future in as_completed(futures):
                    piece = futures[future]
                    played = dict(zip(piece.runs, future.result()))
                    found.setdefault((piece.case, piece.side), {}).update(played)
                    done += len(played)
                    advance(done, count)
            except StoppedError as stopped:
                status = stopped.status
                pool.shutdown(cancel_futures=True)
        return MeasureResult(
            tuple(self._pair_outcomes_and_list_unplayed(number, found) for number in range(len(self.cases))), status
        )

    def _pieces_round_robin(self) -> Iterator[_Piece]:
        """The pieces, the first runs of all cases before others, so that a signal leaves something of each."""
        most = max((it.runs for it in self.cases), default=0)
        for begin in range(0, most, _PIECE):
            for number, case in enumerate(self.cases):
                if runs := range(begin, min(begin + _PIECE, case.runs)):
                    yield from (_Piece(number, side, runs) for side in (0, 1))

    def _play_piece_of_one_side(self, piece: _Piece, stop: Stop) -> list[TransferOutcome]:
        case, side = self.cases[piece.case], self.sides[piece.side]
        settings = side_settings_with_path_mss(side, self.common, case.path)
        room = int(str(dict(settings).get(_ROOM, DEFAULTS[_ROOM])))
        games = [
            play_transfer_as_generator(case.path, case.size, case.seed_of_run(self.seed, run), room)
            for run in piece.runs
        ]
        return play_transfers(games, program_path_of_side(side, REGRESS), settings, stop)

    def _pair_outcomes_and_list_unplayed(
        self, number: int, found: Mapping[tuple[int, int], Mapping[int, TransferOutcome]]
    ) -> MeasuredCase:
        before, after = (found.get((number, side), {}) for side in (0, 1))
        pairs = []
        unplayed = []
        for run in sorted(before.keys() & after.keys()):
            one, other = before[run], after[run]
            if isinstance(one, TransferResult) and isinstance(other, TransferResult):
                pairs.append(Pair(run, one, other))
            unplayed += [
                f"run {run}, {name}: {it}"
                for name, it in (("before", one), ("after", other))
                if isinstance(it, UnfinishedTransferError)
            ]
        return MeasuredCase(self.cases[number], tuple(pairs), tuple(unplayed))


def program_path_of_side(side: Side, name: str) -> Path:
    """A program of a side."""
    return (side.sender.programs or {})[name]
