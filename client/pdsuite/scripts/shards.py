"""Shards: the parts of a suite that several machines run, each its own."""

import os
import re
from collections.abc import Mapping, Sequence
from dataclasses import dataclass
from heapq import heapify, heappop, heappush

from pdsuite.scripts.discover import ScriptFile

_WORDS = re.compile(r"([0-9]{1,9})/([0-9]{1,9})", re.ASCII)


@dataclass(frozen=True, order=True)
class Shard:
    """One of so many parts; the first has the number 1."""

    number: int
    count: int

    def __str__(self) -> str:
        return f"{self.number}/{self.count}"


def parse_shard_if_valid(words: str) -> Shard | None:
    """The shard that is written as K/N, where there can be one."""
    found = _WORDS.fullmatch(words)
    shard = Shard(int(found[1]), int(found[2])) if found else None
    return shard if shard is not None and 1 <= shard.number <= shard.count else None


def balance_by_octets(octets: Mapping[str, int], count: int) -> list[list[str]]:
    """The names in so many parts, each name in one of them, so that none has many more octets than another.

    The greatest come first, each into the part that has the fewest octets by then. Parts that stay empty are left out.
    """
    chosen: list[list[str]] = [[] for _ in range(min(count, len(octets)))]
    loads = [(0, 0, number) for number in range(len(chosen))]
    heapify(loads)
    for name in sorted(octets, key=lambda it: (-octets[it], os.fsencode(it))):
        load, names, number = heappop(loads)
        chosen[number].append(name)
        heappush(loads, (load + octets[name], names + 1, number))
    return chosen


def scripts_of_shard(found: Sequence[ScriptFile], shard: Shard) -> list[ScriptFile]:
    """The scripts of a shard, in the order in which all were found."""
    names = [os.path.abspath(it.path) for it in found]
    each = balance_by_octets({name: _file_size_or_zero(it) for name, it in zip(names, found)}, shard.count)
    chosen = set(each[shard.number - 1]) if shard.number <= len(each) else set()
    return [it for name, it in zip(names, found) if name in chosen]


def _file_size_or_zero(found: ScriptFile) -> int:
    """The size of a script's file; of one that can't be looked at it is none."""
    try:
        return 0 if found.fault else os.stat(found.path).st_size
    except (OSError, ValueError):
        return 0
