"""`pdsuite import`: brings over those scripts of the kernel's self-tests that this profile runs. It runs nothing."""

import os
from collections.abc import Iterator, Sequence
from pathlib import Path


from pdsuite.faults import Fault, PlacedFault
from pdsuite.files import real_path_requiring_new_or_empty_folder, write_folder_atomically
from pdsuite.imports.as_json import as_json
from pdsuite.imports.conversion import ImportSource, Imported, NotImported, convert_script
from pdsuite.imports.findings import Reason
from pdsuite.imports.listing import (
    Listed,
    exit_status_by_errors_and_not_imported,
    import_result_lines_of_script,
    summary_lines,
)
from pdsuite.imports.tables import is_encodable_as_toml_key, settings_files_of
from pdsuite.output.octets import printable_path
from pdsuite.output.screen import Screen
from pdsuite.output.styled_text import styled_text_of_one_plain_piece
from pdsuite.scripts.config import SuiteConfig, layer_of_option, old_name_refusals
from pdsuite.scripts.discover import SUFFIX, ScriptFile, find_scripts
from pdsuite.scripts.settings import set_command_words_or_placeholders
from pdsuite.scripts.text import (
    LONGEST_FILE,
    UnfitTextError,
    make_newline_ended_text_within_limits,
    read_regular_file_up_to_limit,
)
from pdsuite.scripts.unused_tables import unused_table_warning_lines_under_paths
from pdsuite.signals import Stop

_NO_WORD = "?"


def import_scripts(source: Path, target: Path, keep_packets: bool, is_json: bool, screen: Screen) -> int:
    """Imports a script, or those of a folder, into another folder, and answers the exit status."""
    with Stop() as stop:
        is_script = source.suffix == SUFFIX and source.is_file()
        if not source.is_dir() and not is_script:
            what = f"neither a folder nor a file *{SUFFIX}" if os.path.lexists(source) else "No such file or directory"
            raise Fault(f"{printable_path(source)}: {what}")
        place = real_path_requiring_new_or_empty_folder(target)
        if place.is_relative_to(os.path.realpath(source)):
            raise Fault(f"{printable_path(target)}: lies in the folder that is imported")
        suite = SuiteConfig(layer_of_option(""))
        found = find_scripts([source], (), stop)
        if not found:
            raise Fault("no script found")
        scripts = list(_read_and_convert_each_script(found, suite, keep_packets, stop))
        _refuse_unused_tables_and_bad_settings(suite, source)
        if any(isinstance(it.came, Imported) for it in scripts):
            write_folder_atomically(place, _files_to_write(source.parent if is_script else source, scripts, stop))
    screen.show(styled_text_of_one_plain_piece(as_json(scripts) if is_json else _listing_text(scripts)))
    return exit_status_by_errors_and_not_imported(scripts)


def _listing_text(scripts: Sequence[Listed]) -> str:
    """The listing for people: the result of each script, and then the summary."""
    lines = [line for it in scripts for line in import_result_lines_of_script(it)]
    return "".join(f"{line}\n" for line in [*lines, *summary_lines(scripts)])


def _read_and_convert_each_script(
    found: Sequence[ScriptFile], suite: SuiteConfig, keep_packets: bool, stop: Stop
) -> Iterator[Listed]:
    for it in found:
        stop.raise_if_stopped()
        yield Listed(it.path, it.fault or _read_and_convert_script(it, suite, keep_packets))


def _read_and_convert_script(found: ScriptFile, suite: SuiteConfig, keep_packets: bool) -> Imported | NotImported | str:
    """Reads and converts a script, and answers the result, or why the script can't be read."""
    try:
        octets = read_regular_file_up_to_limit(found.path, LONGEST_FILE + 1)
    except UnfitTextError as unfit:
        return str(unfit)
    own = dict(suite.settings_of_script(found)) if suite.has_config_file_in_or_above_folder(found) else None
    try:
        make_newline_ended_text_within_limits(octets)
    except UnfitTextError as unfit:
        return NotImported((Reason(1, str(unfit)),))
    source = ImportSource(_decode_losslessly(octets), own, lambda path: _text_of_setup_command_file(found.path, path))
    came = convert_script(source, keep_packets)
    if isinstance(came, Imported) and came.settings and not is_encodable_as_toml_key(os.path.basename(found.path)):
        return NotImported((Reason(1, "a name that isn't UTF-8, which no pdsuite.toml can have"),))
    return came


def _text_of_setup_command_file(script: str, path: str) -> str:
    """A file with commands of set-up, by its path from the folder of a script."""
    return _decode_losslessly(read_regular_file_up_to_limit(os.path.join(os.path.dirname(script), path), LONGEST_FILE))


def _decode_losslessly(octets: bytes) -> str:
    """Octets as a text that says them all."""
    return octets.decode("utf-8", "surrogateescape")


def _refuse_unused_tables_and_bad_settings(suite: SuiteConfig, source: Path) -> None:
    """Refuses settings of a pdsuite.toml that no run could be given, or no script has."""
    for line in [*unused_table_warning_lines_under_paths(suite, [source]), *old_name_refusals(suite.all_claims())]:
        raise PlacedFault(line)
    for claim in suite.all_claims():
        if _NO_WORD in set_command_words_or_placeholders(claim.key, claim.value):
            raise PlacedFault(claim.refusal_line("BadValue"))


def _files_to_write(source: Path, scripts: Sequence[Listed], stop: Stop) -> Iterator[tuple[str, bytes]]:
    """The files of the imported scripts, by their paths from the folder, and then their settings."""
    imported = {os.path.relpath(it.path, source): it.came for it in scripts if isinstance(it.came, Imported)}
    for path, script in imported.items():
        stop.raise_if_stopped()
        yield path, script.text.encode("utf-8", "surrogateescape")
    yield from settings_files_of({path: (it.settings, it.shared) for path, it in imported.items()})
