"""Prints where a proved program is, for tools/proved_program.sh: proved_program.py [--sums | --files] NAME

proof_sums.py reads all files and decides. That takes a tenth of a second, so it keeps their stamps, and while all files
have these, nothing is read.
"""
from __future__ import annotations

import os
import sys

import stamps
from kit import kit_id_on_path_or_none_without_rt

TOP = os.path.dirname(os.path.dirname(os.path.realpath(__file__)))


def are_stamps_unchanged_since_proved(program: str) -> bool:
    """Whether nothing has changed since a program was found to be proved."""
    try:
        with open(f"{TOP}/crates/{program}/out/{program}.stamps", "rb", buffering=0) as file:
            return stamps.are_stamps_unchanged(TOP, program, kit_id_on_path_or_none_without_rt(), file.read())
    except OSError:
        return False


def main(arguments: list[str]) -> int:
    if len(arguments) == 1 and are_stamps_unchanged_since_proved(arguments[0]):
        os.write(1, os.fsencode(f"{TOP}/crates/{arguments[0]}/out/{arguments[0]}\n"))
        return 0
    from proof_sums import print_program_path_sums_or_files  # Imported late, since it takes time.

    return print_program_path_sums_or_files(TOP, arguments)


if __name__ == "__main__":
    sys.exit(main(sys.argv[1:]))
