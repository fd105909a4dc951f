"""The folder of a page: which files it has, and that nothing else is overwritten."""

from collections.abc import Collection, Iterable
from contextlib import suppress
from pathlib import Path

from pdsuite.faults import Fault, error_reason
from pdsuite.files import write_file_atomically
from pdsuite.output.octets import printable_path
from pdsuite.page.links import FOLDER, PLOTS, is_script_page_file, is_plot_file
from pdsuite.page.render import GENERATOR, STATIC, static_file_octets

TABLE = "index.html"
_MARK = f'<meta name="generator" content="{GENERATOR}">'.encode()
_HEAD = 1_024


def prepare_page_folder_or_refuse_foreign_files(folder: Path) -> None:
    """Makes the folder, with what all pages use; a fault where it can't be, or holds what is no part of a page."""
    try:
        if folder.exists() and (other := _first_foreign_name(folder)):
            raise Fault(f"{printable_path(folder)}: holds {printable_path(other)}, which is no part of a page")
        (folder / FOLDER).mkdir(parents=True, exist_ok=True)
    except OSError as error:
        raise Fault(f"{printable_path(folder)}: {error_reason(error)}") from error
    for name in STATIC:
        write_file_atomically(folder / name, static_file_octets(name))


def remove_stale_pages(folder: Path, files: Iterable[str], plots: Collection[str]) -> None:
    """Takes away the pages of scripts, and the files of diagrams, that aren't among these, and a folder of none."""
    for name, is_ours, stay in ((FOLDER, is_script_page_file, set(files)), (PLOTS, is_plot_file, set(plots))):
        for path in (folder / name).iterdir() if (folder / name).exists() else ():
            if is_ours(path.name) and path.name not in stay:
                path.unlink(missing_ok=True)
    if not plots:
        with suppress(OSError):  # it isn't there, or holds what is hidden
            (folder / PLOTS).rmdir()


def _first_foreign_name(folder: Path) -> str | None:
    """The first name in the folder that no page has; hidden names don't count."""
    for name in _visible_names(folder):
        if name not in (TABLE, FOLDER, PLOTS, *STATIC):
            return name
    table = folder / TABLE
    if table.exists() and _MARK not in table.read_bytes()[:_HEAD]:
        return TABLE
    for part, is_ours in ((FOLDER, is_script_page_file), (PLOTS, is_plot_file)):
        for name in _visible_names(folder / part) if (folder / part).exists() else []:
            if not is_ours(name):
                return f"{part}/{name}"
    return None


def _visible_names(folder: Path) -> list[str]:
    return sorted(it.name for it in folder.iterdir() if not it.name.startswith("."))
