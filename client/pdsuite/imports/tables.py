"""The pdsuite.toml of each folder that scripts are imported into: a table for each script with settings."""

import json
import os
import textwrap
from collections.abc import Iterator, Mapping, Sequence

from pdsuite.imports.setup import SetupWords, union_of_setup_words
from pdsuite.scripts.config import CONFIG_FILE
from pdsuite.scripts.settings import Settings, settings_as_toml

_HEAD = "# The settings of the scripts in this folder, as pdsuite import read them.\n"
_ROOT = "root = true\n"
_WIDTH = 100


def settings_files_of(scripts: Mapping[str, tuple[Settings, SetupWords]]) -> Iterator[tuple[str, bytes]]:
    """The files, by their paths from the top, for scripts by theirs. The one in the top lets no other in above it.

    The words of a shared set-up for which there is no setting come once, in the head.
    """
    folders: dict[str, list[tuple[str, Settings, SetupWords]]] = {"": []}
    for path, (settings, shared) in scripts.items():
        folder, name = os.path.split(path)
        if settings:
            folders.setdefault(folder, []).append((name, settings, shared))
    for folder, tables in folders.items():
        head = (
            _HEAD
            + _head_comments_of_shared_setup_words(union_of_setup_words(it for _, _, it in tables))
            + ("" if folder else _ROOT)
        )
        text = head + "".join(table_of_script(name, settings) for name, settings, _ in tables)
        yield os.path.join(folder, CONFIG_FILE), text.encode()


def _head_comments_of_shared_setup_words(shared: SetupWords) -> str:
    """The words of a set-up that no setting stands for, as comments."""
    return _wrap_comment("Of what defaults.sh says, this sender hasn't: ", shared.features) + _wrap_comment(
        "As defaults.sh says, this sender has: ", shared.alike
    )


def _wrap_comment(begin: str, words: Sequence[str]) -> str:
    if not words:
        return ""
    lines = textwrap.wrap(begin + ", ".join(words), _WIDTH, initial_indent="# ", subsequent_indent="#   ")
    return "".join(f"{line}\n" for line in lines)


def is_encodable_as_toml_key(name: str) -> bool:
    """Whether TOML can have a name as a key: it is UTF-8."""
    try:
        name.encode()
    except UnicodeEncodeError:
        return False
    return True


def table_of_script(name: str, settings: Settings) -> str:
    """The table of a script with these settings."""
    # TOML escapes a key as JSON does, but for one octet.
    key = json.dumps(name, ensure_ascii=False).replace("\x7f", "\\u007f")
    return f"\n[{key}]\n{settings_as_toml(settings)}\n"
