"""Folders that moved, as two reports have it: their scripts went here and came there, with the texts that they had."""

import os
from collections import defaultdict
from collections.abc import Callable, Iterable, Iterator, Mapping, Set
from dataclasses import dataclass

from pdsuite.run.outcomes import ScriptOutcome
from pdsuite.watch.plan_changes import WantedScript

# By their paths, in the order of these.
Outcomes = Mapping[str, ScriptOutcome]
# Folders, each with the names of its scripts.
_Folders = Mapping[str, frozenset[str]]


@dataclass(frozen=True)
class Move:
    """A folder's path before and after, and its scripts' paths before, each with the one after."""

    old: str
    new: str
    scripts: Mapping[str, str]


def folder_moves_between(
    before: Outcomes,
    after: Outcomes,
    wanted_before: Mapping[str, WantedScript],
    wanted_after: Mapping[str, WantedScript],
) -> list[Move]:
    """The folders that moved. One that can't be distinguished from another that went, or came, isn't among them."""
    gone, come = _script_names_of_folders_sharing_no_path(before, after), _script_names_of_folders_sharing_no_path(
        after, before
    )
    if not gone or not come:
        return []
    stay, were = _set_of_folders_above(after), _set_of_folders_above(before)
    pairs: dict[tuple[str, str], dict[str, str]] = defaultdict(dict)
    for old, new in _unambiguous_folder_pairs_by_script_names(gone, come):
        scripts = {os.path.join(old, name): os.path.join(new, name) for name in sorted(gone[old])}
        if all(
            _octets_of_wanted_script_or_none(wanted_before, it) == _octets_of_wanted_script_or_none(wanted_after, other)
            for it, other in scripts.items()
        ):
            pairs[_topmost_moved_pair_above(old, new, stay, were)].update(scripts)
    return [Move(old, new, scripts) for (old, new), scripts in sorted(pairs.items())]


def _script_names_of_folders_sharing_no_path(these: Outcomes, others: Outcomes) -> _Folders:
    """The folders all of whose scripts are in the one report and not in the other, each with their names."""
    lost = {path for path in these if path not in others}
    shared = {os.path.dirname(path) for path in these.keys() - lost}
    folders: dict[str, set[str]] = defaultdict(set)
    for path in lost:
        folder, name = os.path.split(path)
        if folder and folder not in shared:
            folders[folder].add(name)
    return {folder: frozenset(names) for folder, names in folders.items()}


def _set_of_folders_above(outcomes: Outcomes) -> set[str]:
    """All folders that scripts lie in or below."""
    folders: set[str] = set()
    for folder in {os.path.dirname(path) for path in outcomes}:
        while folder and folder not in folders:
            folders.add(folder)
            folder = os.path.dirname(folder)
    return folders


def _unambiguous_folder_pairs_by_script_names(gone: _Folders, come: _Folders) -> Iterator[tuple[str, str]]:
    """The folders that went and came with the same scripts; where these are several, with the same name too."""
    came = _folders_by_given_key(come, lambda folder: (come[folder], ""))
    named = _folders_by_given_key(come, lambda folder: (come[folder], os.path.basename(folder)))
    for (names, _), olds in _folders_by_given_key(gone, lambda folder: (gone[folder], "")).items():
        arrivals = came.get((names, ""), [])
        if len(olds) == len(arrivals) == 1:
            yield olds[0], arrivals[0]
            continue
        for key, again in _folders_by_given_key(olds, lambda folder: (names, os.path.basename(folder))).items():
            if len(again) == len(named.get(key, [])) == 1:
                yield again[0], named[key][0]


_Key = tuple[frozenset[str], str]


def _folders_by_given_key(folders: Iterable[str], key_of: Callable[[str], _Key]) -> dict[_Key, list[str]]:
    found: dict[_Key, list[str]] = defaultdict(list)
    for folder in folders:
        found[key_of(folder)].append(folder)
    return found


def _topmost_moved_pair_above(old: str, new: str, stay: Set[str], were: Set[str]) -> tuple[str, str]:
    """The folders above two, below which both have the same path, as far as the one is gone and the other new."""
    while os.path.basename(old) == os.path.basename(new):
        above, beyond = os.path.dirname(old), os.path.dirname(new)
        if not above or not beyond or above in stay or beyond in were:
            break
        old, new = above, beyond
    return old, new


def _octets_of_wanted_script_or_none(wanted: Mapping[str, WantedScript], path: str) -> bytes | None:
    it = wanted.get(path)
    return None if it is None else it.text.octets
