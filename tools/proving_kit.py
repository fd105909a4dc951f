"""The kit by which ./prove proves: one that prints its name, and that is the same from the beginning to the end."""
from __future__ import annotations

import os
import shlex
import subprocess
from dataclasses import dataclass
from pathlib import Path

from kit import find_kit_command_on_path, kit_id_path_beside_folder_of_command, read_kit_id_file_or_empty
from stamps import stamps_of


class ProofRefusedError(Exception):
    """Why nothing is proved by the kit that is there."""


@dataclass(frozen=True)
class ProvingKit:
    """A kit's command, what names the kit, and the stamps of its programs."""

    command: str
    name: str
    stamps: dict[str, str]

    def check_unchanged(self) -> None:
        """Checks that this kit is the one that is on the PATH, and as it was."""
        if kit_on_path_or_refuse() != self:
            raise ProofRefusedError(f"the kit of {self.command} has changed while it proved: run this again")


def kit_on_path_or_refuse() -> ProvingKit:
    """The kit whose command is on the PATH, by its files alone."""
    command = find_kit_command_on_path()
    if command is None:
        raise ProofRefusedError("the Rattle kit's command 'rt' has to be on the PATH")
    place = Path(kit_id_path_beside_folder_of_command(command))
    name = read_kit_id_file_or_empty(command)
    if not name:
        raise ProofRefusedError(f"{command} is of no kit: {place} doesn't say which")
    programs = sorted(str(it) for it in Path(os.path.realpath(command)).parent.iterdir())
    return ProvingKit(os.path.abspath(command), name, stamps_of("", [str(place), *programs]))


def kit_whose_version_matches_its_file() -> ProvingKit:
    """The kit whose command is on the PATH, if it prints the name that its file has."""
    it = kit_on_path_or_refuse()
    call = shlex.join([it.command, "--version"])
    try:
        printed = subprocess.run(
            [it.command, "--version"], stdin=subprocess.DEVNULL, capture_output=True, encoding="utf-8", errors="replace"
        )
    except OSError as error:
        raise ProofRefusedError(f"{call}: {error.strerror}") from None
    if printed.returncode:
        raise ProofRefusedError(f"{call} ends with status {printed.returncode}")
    if " ".join(printed.stdout.split()) != it.name:
        place = kit_id_path_beside_folder_of_command(it.command)
        raise ProofRefusedError(f"{call} prints {printed.stdout.strip()!r}, and {place} has {it.name!r}")
    return it
