"""Which kit proves: that of the first command `rt` on the PATH, by the file KIT-ID beside the folder of this command.

Each start of a program asks for it, so nothing is run, and little is imported.
"""
from __future__ import annotations

import os

COMMAND = "rt"
NAME = "KIT-ID"


def find_kit_command_on_path() -> str | None:
    """The path of the kit's command, or None where there is none on the PATH."""
    for folder in os.environ.get("PATH", os.defpath).split(os.pathsep):
        path = os.path.join(folder, COMMAND)
        if os.path.isfile(path) and os.access(path, os.X_OK):
            return path
    return None


def kit_id_path_beside_folder_of_command(command: str) -> str:
    """The file that names the kit of a command, all links followed."""
    return os.path.join(os.path.dirname(os.path.dirname(os.path.realpath(command))), NAME)


def read_kit_id_file_or_empty(command: str) -> str:
    """The name of a command's kit: the words of its KIT-ID. Without one it is empty, which is the name of no kit."""
    try:
        with open(kit_id_path_beside_folder_of_command(command), encoding="utf-8", errors="replace") as file:
            return " ".join(file.read().split())
    except OSError:
        return ""


def kit_id_on_path_or_none_without_rt() -> str | None:
    """The name of the kit that is on the PATH, or None where there is none."""
    command = find_kit_command_on_path()
    return None if command is None else read_kit_id_file_or_empty(command)
