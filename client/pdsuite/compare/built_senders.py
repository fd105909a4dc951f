"""The senders that aren't proved, with programs that are built of their trees, side by side, or were built before."""

from collections.abc import Callable, Sequence
from concurrent.futures import ThreadPoolExecutor
from dataclasses import replace
from pathlib import Path

from pdsuite.compare.senders import Sender
from pdsuite.output.screen import Screen
from pdsuite.programs.build import (
    BuildError,
    BuildMode,
    NoKeptBuildError,
    build_if_needed_and_get_folder,
    find_kept_build,
)
from pdsuite.programs.locate import RECORD, REGRESS
from pdsuite.programs.unproved_programs import build_progress_printer
from pdsuite.signals import Stop


def build_missing_programs(senders: Sequence[Sender], way: BuildMode, stop: Stop, screen: Screen) -> list[Sender]:
    """The senders, each with programs; where none can be built and kept, one stays a tree."""
    trees = list(dict.fromkeys(it.asserted_tree_to_build for it in senders if not it.has_programs))
    with ThreadPoolExecutor() as pool:
        folders = dict(zip(trees, pool.map(lambda tree: find_kept_build(tree, way), trees)))
    if lacking := [it for it, folder in folders.items() if folder is None]:
        what = "the sender" if len(lacking) == 1 else "both senders"
        screen.print_note_on_stderr(f"pdsuite: building {what} first")
        folders |= _build_trees_returning_folders(lacking, way, stop, screen)
    return [
        it if it.has_programs else _with_programs_from_build_folder(it, folders[it.asserted_tree_to_build])
        for it in senders
    ]


def _build_trees_returning_folders(
    trees: Sequence[Path], way: BuildMode, stop: Stop, screen: Screen
) -> dict[Path, Path | None]:
    """The folders of both programs of each tree."""
    # Of several the line at the bottom of a terminal says how far the one is that spoke last.
    show_progress = build_progress_printer(screen, "" if len(trees) == 1 else " one of both")
    try:
        with ThreadPoolExecutor(len(trees)) as pool:
            return dict(
                zip(trees, pool.map(lambda tree: _build_or_none_if_not_keepable(tree, way, stop, show_progress), trees))
            )
    finally:
        screen.clear_live_lines()


def _build_or_none_if_not_keepable(
    tree: Path, way: BuildMode, stop: Stop, show_progress: Callable[[str, float], None]
) -> Path | None:
    try:
        return build_if_needed_and_get_folder(tree, way, stop, show_progress)
    except NoKeptBuildError:
        return None


def build_plain_if_sender_is_optimised(sender: Sender, stop: Stop) -> Sender | None:
    """The same sender as a plain build, which says where it stops, if it is an optimised one that can be built so."""
    programs = sender.programs or {}
    if not sender.is_build or programs[REGRESS].parent.name != "optimised":
        return None
    try:
        return _with_programs_from_build_folder(
            sender, build_if_needed_and_get_folder(sender.asserted_tree_to_build, "plain", stop)
        )
    except (NoKeptBuildError, BuildError):
        return None


def _with_programs_from_build_folder(sender: Sender, folder: Path | None) -> Sender:
    if folder is None:
        return sender
    return replace(sender, programs={name: folder / name for name in (REGRESS, RECORD)}, is_build=True)
