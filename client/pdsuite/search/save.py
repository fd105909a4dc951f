"""Saves a find as a script, with its settings in the pdsuite.toml beside it."""

import os
from pathlib import Path

from pdsuite.faults import Fault
from pdsuite.files import append_to_file, write_file_atomically
from pdsuite.imports.tables import is_encodable_as_toml_key, table_of_script
from pdsuite.output.octets import printable_path
from pdsuite.scripts.config import CONFIG_FILE, SuiteConfig, layer_of_option, read_layer_if_file_exists
from pdsuite.scripts.discover import SUFFIX, ScriptFile
from pdsuite.scripts.settings import Settings

_OPTION = "--save"


def refuse_save_path_misnamed_or_configured(path: Path) -> None:
    """Refuses a file that a script can't be saved as: it would run under settings that nobody searched under."""
    name, folder = path.name, Path(os.path.realpath(path.parent))
    if not folder.is_dir():
        raise Fault(f"{_OPTION}: {printable_path(path)}: the folder above it isn't there")
    if path.suffix != SUFFIX or not is_encodable_as_toml_key(name):
        raise Fault(f"{_OPTION}: {printable_path(path)}: no name of a script: it has to end with {SUFFIX}, as UTF-8")
    layer = read_layer_if_file_exists(folder / CONFIG_FILE)
    has_table = layer is not None and any(name in it for it in (layer.tables, layer.strict, layer.expected))
    settings = SuiteConfig(layer_of_option("")).settings_of_script(ScriptFile(os.fspath(path), os.fspath(folder), name))
    if settings or has_table:
        raise Fault(
            f"{_OPTION}: {printable_path(path)}: a {CONFIG_FILE} has settings for it; choose another name or folder"
        )


def save_script_and_settings(path: Path, octets: bytes, settings: Settings) -> None:
    """Writes a script; its settings come to the end of the file beside it."""
    write_file_atomically(path, octets)
    if settings:
        append_to_file(path.with_name(CONFIG_FILE), table_of_script(path.name, settings).encode())
