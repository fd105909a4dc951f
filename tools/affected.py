#!/usr/bin/env -S python3 -B
"""Which rows of tests/cases, paragraphs of pages and rules a changed sender affects; `pdsuite compare` runs it.

affected.py starts: prints how the programs are started for the rows. Each start is three parts: the program's name and
its arguments, with zeros between them; its input; and how many octets it writes at most. A part is octets after a line
with their number.

affected.py list ANSWERS [--before FOLDER]: prints JSON that names the rows that are answered otherwise now, and the
paragraphs that may be wrong now. The file ANSWERS has six parts for each start: the output, the error text and the
status of the sender before, and those of the one after. A status that is no number means that there is no answer.
FOLDER is the tree of the sender before, by which the paragraphs are found.

affected.py changed --before FOLDER [--after FOLDER]: prints JSON that lists the functions and constants of the sender
that changed, with the names in them. Without --after it is this tree's.

affected.py rules --before FOLDER [--after FOLDER]: prints JSON with the names of the affected rules, each with the
definitions, the code and the defaults that changed, and with those that affect no rule.
"""
from __future__ import annotations

import argparse
import json
import re
import sys
from collections.abc import Iterator, Sequence
from dataclasses import asdict
from pathlib import Path
from typing import Optional

from affected_rules import affected_rules
from affected_sections import affected_paragraphs_and_unmatched_items, each_changed_code_item_with_names

TOP = Path(__file__).resolve().parents[1]
sys.path.insert(0, str(TOP / "tests"))

from harness.calls import ProgramCall, ProgramOutput  # noqa: E402
from harness.affected import affected_rows, tables_about_sender, calls_of_tables, count_unanswered_cases  # noqa: E402

NUMBER = re.compile(rb"(\d+)\n")
# A program writes so many octets at most, and so many for each octet of its input, also where it explains.
OUTPUT = 4_096
OUTPUT_PER_OCTET = 2
EXPLANATION_PER_OCTET = 24


def length_prefixed(octets: bytes) -> bytes:
    """A part, after the number of its octets."""
    return b"%d\n%b" % (len(octets), octets)


def leading_length_prefixed_parts(octets: bytes) -> Iterator[bytes]:
    """The parts of a text.

    >>> list(leading_length_prefixed_parts(length_prefixed(b"a") + length_prefixed(b"") + length_prefixed(b"1\\n2")))
    [b'a', b'', b'1\\n2']
    """
    at = 0
    while found := NUMBER.match(octets, at):
        at = found.end() + int(found[1])
        yield octets[found.end() : at]


def encode_program_call_with_output_limit(call: ProgramCall) -> bytes:
    """A start of a program."""
    per_octet = EXPLANATION_PER_OCTET if b"--explain" in call.arguments else OUTPUT_PER_OCTET
    most = OUTPUT + per_octet * len(call.given)
    command = b"\0".join([call.program.encode(), *call.arguments])
    return b"".join(map(length_prefixed, (command, call.given, b"%d" % most)))


def program_output_if_status_is_number(output: bytes, errors: bytes, status: bytes) -> Optional[ProgramOutput]:
    """The answer to a start, if there is one."""
    return ProgramOutput(output, errors, int(status)) if status.strip().isdigit() else None


def affected_rows_paragraphs_and_unanswered_count(answers: bytes, before: Optional[Path]) -> dict[str, object]:
    """The rows and paragraphs that are affected."""
    tables = tables_about_sender()
    each = list(zip(*[leading_length_prefixed_parts(answers)] * 6))
    old = [program_output_if_status_is_number(*it[:3]) for it in each]
    new = [program_output_if_status_is_number(*it[3:]) for it in each]
    paragraphs = None if before is None else [asdict(it) for it in affected_paragraphs_and_unmatched_items(before, TOP)]
    return {
        "rows": [asdict(it) for it in affected_rows(tables, old, new)],
        "unheard": count_unanswered_cases(tables, new),
        "sections": paragraphs,
    }


def main(arguments: Sequence[str]) -> int:
    parser = argparse.ArgumentParser(description=__doc__, formatter_class=argparse.RawDescriptionHelpFormatter)
    commands = parser.add_subparsers(dest="command", required=True)
    commands.add_parser("starts")
    list_command = commands.add_parser("list")
    list_command.add_argument("--before", metavar="FOLDER", type=Path)
    list_command.add_argument("answers", metavar="ANSWERS", type=Path)
    for name in ("changed", "rules"):
        command = commands.add_parser(name)
        command.add_argument("--before", metavar="FOLDER", type=Path, required=True)
        command.add_argument("--after", metavar="FOLDER", type=Path, default=TOP)
    options = parser.parse_args(arguments)
    if options.command == "changed":
        print(json.dumps([asdict(it) for it in each_changed_code_item_with_names(options.before, options.after)]))
    elif options.command == "rules":
        print(json.dumps(asdict(affected_rules(options.before, options.after))))
    elif options.command == "starts":
        sys.stdout.buffer.writelines(
            encode_program_call_with_output_limit(it) for it in calls_of_tables(tables_about_sender())
        )
    else:
        print(json.dumps(affected_rows_paragraphs_and_unanswered_count(options.answers.read_bytes(), options.before)))
    return 0


if __name__ == "__main__":
    sys.exit(main(sys.argv[1:]))
