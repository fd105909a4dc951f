"""Tables of pdsuite.toml that no script has: each is reported, with the name that may have been meant."""

import os
import stat
from bisect import bisect
from collections.abc import Iterable, Iterator, Set
from pathlib import Path

from pdsuite.output.octets import printable_path, printable_text
from pdsuite.scripts.config import Layer, SuiteConfig
from pdsuite.scripts.defaults import nearest_word
from pdsuite.scripts.discover import SUFFIX

# So many tables of a file are reported, and so many names are looked through for the nearest one.
_MOST = 10
_NAMES = 1_000


def unused_table_warning_lines(layer: Layer, folder: str, known: Set[str] = frozenset()) -> Iterator[str]:
    """The lines of a file's tables whose scripts aren't in its folder; those of `known` are taken to be there."""
    lost = [name for name in unused_table_names(layer, folder) if name not in known]
    for name in lost[:_MOST]:
        yield f'{layer.places.file_and_line_of_key(name)}: ["{printable_text(name)}"]: {_reason_unused(name, folder)}'
    if len(lost) > _MOST:
        yield f"{layer.file_or_option_name}: and {len(lost) - _MOST:,} more tables of scripts that aren't there"


def unused_table_names(layer: Layer, folder: str) -> list[str]:
    """The names in a file's tables that are those of no script in its folder."""
    return [name for name in layer.tables if not _is_plain_file_in(name, folder)]


def unused_table_warning_lines_under_paths(suite: SuiteConfig, paths: Iterable[Path]) -> list[str]:
    """The lines of the files that lie in folders which paths name."""
    return [
        line
        for folder, layer in already_read_layers_under_paths(suite, paths)
        for line in unused_table_warning_lines(layer, folder)
    ]


def already_read_layers_under_paths(suite: SuiteConfig, paths: Iterable[Path]) -> Iterator[tuple[str, Layer]]:
    """The files that were read and lie in folders which paths name, by their folders.

    Files above these folders are left out, since their tables are about scripts that aren't meant.
    """
    roots = [os.path.realpath(it) for it in paths if os.path.isdir(it)]
    for folder, layer in suite.sorted_read_layers_with_folders():
        if any(os.path.commonpath((root, folder)) == root for root in roots):
            yield folder, layer


def _is_plain_file_in(name: str, folder: str) -> bool:
    """Whether a name is that of a file in a folder, of no link and of no folder."""
    try:
        mode = os.lstat(os.path.join(folder, name)).st_mode
    except (OSError, ValueError):
        return False
    return os.sep not in name and not stat.S_ISLNK(mode) and not stat.S_ISDIR(mode)


def _reason_unused(name: str, folder: str) -> str:
    if os.path.islink(os.path.join(folder, name)):
        return "this is a link, and settings go by the name of the file that it leads to"
    stem = nearest_word(name.removesuffix(SUFFIX), _neighbouring_script_stems(name, folder))
    near = f"; the nearest is {printable_path(stem)}{SUFFIX}" if stem else ""
    return f"no script of this name is beside the file{near}; `pdsuite expect --prune` takes the table away"


def _neighbouring_script_stems(name: str, folder: str) -> list[str]:
    """Names of scripts in a folder, without their ends: those that come before and after this one in their order."""
    try:
        names = sorted(it for it in os.listdir(folder) if it.endswith(SUFFIX))
    except OSError:
        return []
    place = bisect(names, name)
    near = names[max(0, place - _NAMES // 2) : place + _NAMES // 2]
    return [it.removesuffix(SUFFIX) for it in near if _is_plain_file_in(it, folder)]
