"""Tables of scripts that are compared by their verdicts: whole ones, and those with each octet at a place."""

from collections.abc import Iterator
from dataclasses import dataclass, replace

from harness.compare import (
    RowCase,
    TableKind,
    ExpectedScript,
    read_case,
    script_answers,
    check_scripts,
    verdict_with_known_class_or_raise,
)
from harness.tables import CaseRow, Table, RowError, parse_octets, split_at_mark

PLAIN = frozenset(b"\t\r") | frozenset(range(0x20, 0x7F))


def split_into_settings_and_options(terms: str) -> tuple[list[str], list[str]]:
    """The settings, as `KEY VALUE`, and the header options of `TERM, ..`."""
    each = [term for term in terms.split(", ") if term]
    return [it for it in each if not it.startswith("--")], [it for it in each if it.startswith("--")]


def parse_script_row(table: Table, row: CaseRow) -> tuple[str, str, bytes]:
    """The verdict, the terms and the octets of a row `VERDICT: SCRIPT` or `VERDICT under TERM, ..: SCRIPT`."""
    head, text = split_at_mark(row.text, ":", "a row has a colon after its verdict")
    verdict, _, terms = head.partition(" under ")
    return verdict_with_known_class_or_raise(verdict), terms, table.before.given + parse_octets(text.removeprefix(" "))


def read_script_check(table: Table, row: CaseRow) -> Iterator[ExpectedScript]:
    verdict, terms, text = parse_script_row(table, row)
    settings, options = split_into_settings_and_options(terms)
    header = "".join(f"{option} " for option in options).encode()
    yield ExpectedScript(row, "".join(f"set {it}\n" for it in settings), header + text, verdict)


def read_scripts(table: Table) -> Iterator[RowCase[ExpectedScript]]:
    """A script a row."""
    for row in table.rows:
        yield read_case(row, lambda: read_script_check(table, row))


@dataclass(frozen=True)
class OpenOctet:
    """A text with an octet left open, the verdict with most octets there, and the exceptions."""

    row: CaseRow
    front: bytes
    back: bytes
    most: str
    strange: str
    excepted: str = ""
    octets: bytes = b""

    def script_and_verdict_for_octet(self, octet: int) -> ExpectedScript:
        """The script with this octet."""
        if octet in self.octets:
            wanted = self.excepted
        else:
            wanted = self.most if octet in PLAIN else self.strange
        text = self.front + bytes([octet]) + self.back
        return ExpectedScript(replace(self.row, part=f", at {octet}"), "", text, wanted)


def read_open_octet(lines: list[CaseRow]) -> OpenOctet:
    """The place of a line `= VERDICT: TEXT`, in which an `@` stands for the octet, and of those below it."""
    verdict, text = split_at_mark(lines[0].text[2:], ": ", "a place has a verdict and a text")
    front, back = split_at_mark(text, "@", "the text of a place has an @")
    place = OpenOctet(
        lines[0], parse_octets(front), parse_octets(back), verdict_with_known_class_or_raise(verdict), verdict
    )
    for row in lines[1:]:
        mark, _, rest = row.text.partition(" ")
        if mark == "-":
            verdict, named = split_at_mark(rest, ": ", "an exception has a verdict and octets")
            place = replace(place, excepted=verdict_with_known_class_or_raise(verdict), octets=parse_octets(named))
        elif mark == "*":
            place = replace(place, strange=verdict_with_known_class_or_raise(rest))
        else:
            raise RowError("a line of a place begins with = and then - or *")
    return place


def octet_checks(lines: list[CaseRow]) -> Iterator[ExpectedScript]:
    if not lines[0].text.startswith("= "):
        raise RowError("a line of a place begins with = and then - or *")
    place = read_open_octet(lines)
    return (place.script_and_verdict_for_octet(octet) for octet in range(256) if octet != ord("\n"))


def read_open_octets(table: Table) -> Iterator[RowCase[ExpectedScript]]:
    """Each octet but the newline at a place. The verdict is another with the octets of `- VERDICT: OCTETS`, and with
    those that are neither blanks nor printable where there is a line `* VERDICT`."""
    groups: list[list[CaseRow]] = []
    for row in table.rows:
        if row.text.startswith("= ") or not groups:
            groups.append([])
        groups[-1].append(row)
    for lines in groups:
        yield read_case(lines[0], lambda: octet_checks(lines))


SCRIPTS = TableKind(read_scripts, check_scripts, answer=script_answers)
PLACES = TableKind(read_open_octets, check_scripts, answer=script_answers)
