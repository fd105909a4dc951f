"""The lines that `pdsuite --version` prints."""

from collections.abc import Iterator

from pdsuite.faults import Fault
from pdsuite.output.octets import printable_path
from pdsuite.output.screen import print_line_on_stderr
from pdsuite.programs.locate import RECORD, REGRESS, client_version_or_commit, locate_given_or_proved_program, sha256_of


def commit_and_program_checksum_lines() -> Iterator[str]:
    """The commit of the client, and each program with its SHA-256. Where pdrecord isn't there, a line says so."""
    yield f"pdsuite {client_version_or_commit()}"
    yield _program_name_sha256_and_path_line(REGRESS)
    try:
        yield _program_name_sha256_and_path_line(RECORD)
    except Fault as fault:
        print_line_on_stderr(f"pdsuite: {fault}; nothing is recorded")


def _program_name_sha256_and_path_line(name: str) -> str:
    path = locate_given_or_proved_program(name)
    return f"{name} {sha256_of(path)} {printable_path(path)}"
