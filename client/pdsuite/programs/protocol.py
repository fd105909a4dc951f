"""The commands to the program, and how its answers are read. Names are given here and seen nowhere else."""

import json
import re
from collections.abc import Mapping, Sequence

from pdsuite.output.octets import printable_octets
from pdsuite.programs.verdict import Row, Verdict
from pdsuite.scripts.text import ScriptText
from pdsuite.scripts.text_edit import Edit

SETTLE = b"settle\n"
SHOW = b"show\n"
# The option that has a program list the rules that events come to.
LIST_RULES = "--rules"
# The longest row, refusal or line of totals, and more.
LONGEST_LINE = 256
# The longest block, and more; and as JSON, where nothing is cut.
LONGEST_BLOCK = 65_536
LONGEST_CAUSE = 1 << 20
_SHOWN = 80

_ROW = re.compile(rb"(pass|syntax|unsupported|limit) (\d{1,6})|fail (\d{1,6}) ([a-z]+)")
_BLOCK = re.compile(rb"(s\d{1,4}):(\d{1,6}): (.*)")
_INDENT = b"  "
_TOTAL = re.compile(rb"total (\d+) pass \d+ fail \d+ syntax \d+ unsupported \d+ limit \d+ pending 0")

# The explanation of a script, by the keys of its JSON.
Cause = Mapping[str, object]
# The rules of the sender that the events of a script came to, by the lines of the events.
RulesByLine = Mapping[int, tuple[str, ...]]
# The line of a job where a program counts steps: the script's name, and how many steps it took.
_STEPS = re.compile(rb"^job \d+ (\S+) steps (\d+)$", re.MULTILINE)
# The line of an event where a program lists rules: the script's name, the event's line, and the rules.
_RULES = re.compile(rb"^job \d+ (\S+) line (\d+) rules (.+)$", re.MULTILINE)

_WORDS = (Verdict.PASS, Verdict.SYNTAX, Verdict.UNSUPPORTED, Verdict.LIMIT)
_VERDICTS = {it.value.encode(): it for it in _WORDS}


class UnexpectedAnswerError(Exception):
    """An answer that isn't the one to the query; the text says what it has in its place."""


def script_name_of_number(number: int) -> bytes:
    """The name of the script with this number in a run: never a word of a command or of a report."""
    return b"s%d" % number


def add_command(name: bytes, text: ScriptText) -> bytes:
    """The command that adds a script."""
    return b"add %s %d\n%s" % (name, text.lines, text.octets)


def edit_command(name: bytes, change: Edit) -> bytes:
    """The command that edits a script."""
    return b"edit %s %d %d %d\n%s" % (name, change.first, change.removed, change.put.lines, change.put.octets)


def remove_command(name: bytes) -> bytes:
    """The command that removes a script."""
    return b"remove %s\n" % name


def set_command(key: str, word: str) -> bytes:
    """The command that sets a key."""
    return f"set {key} {word}\n".encode()


def set_and_show_commands(key: str, word: str) -> bytes:
    """The commands that set a key in an empty run, and have it answered."""
    return set_command(key, word) + SHOW


def refusal_kind_if_refused(answer: bytes) -> str | None:
    """The name of the refusal that an answer begins with: `BadValue` of `refused 4 BadValue`."""
    first = answer.split(b"\n", 1)[0].split(b" ")
    return printable_octets(first[2]) if first[0] == b"refused" and len(first) == 3 else None


def parse_new_rows(answer: bytes, before: bytes, names: Sequence[bytes], count: int) -> list[Row]:
    """The rows of these names in an answer, after the ones that came before and before the totals of `count` rows."""
    if not answer.startswith(before):
        raise UnexpectedAnswerError(_quote_first_differing_line(answer, before))
    lines = answer[len(before) :].split(b"\n")
    known: dict[bytes, Row] = {}
    rows = [_require_row_of_name(line, name, known) for line, name in zip(lines, names)]
    last = lines[len(names)] if len(lines) > len(names) else b""
    total = _TOTAL.fullmatch(last)
    if total is None or int(total[1]) != count or lines[len(names) + 1 :] != [b""]:
        raise UnexpectedAnswerError(_quote_unexpected_line(last))
    return rows


def parse_blocks_by_script_and_line(errors: bytes) -> dict[tuple[bytes, int], list[bytes]]:
    """The printed blocks, by the names of their scripts and their lines: what each is, and the lines below."""
    blocks: dict[tuple[bytes, int], list[bytes]] = {}
    block: list[bytes] = []
    for line in errors.split(b"\n")[:-1]:
        if found := _BLOCK.fullmatch(line):
            block = blocks[found[1], int(found[2])] = [found[3]]
        elif block and line.startswith(_INDENT):
            block.append(line.removeprefix(_INDENT))
        else:
            raise UnexpectedAnswerError(f'said "{printable_octets(line, _SHOWN)}", which is no line of a block')
    return blocks


def parse_causes_by_script_and_line(errors: bytes) -> dict[tuple[bytes, int], Cause]:
    """Explanations printed as JSON, one a line, by the names of scripts and their lines; other lines are skipped."""
    causes: dict[tuple[bytes, int], Cause] = {}
    for line in errors.split(b"\n"):
        if not line.startswith(b"{"):
            continue
        cause = _json_object_or_empty(line)
        match cause:
            case {"name": str(name), "line": int(number)}:
                causes[name.encode(), number] = cause
            case _:
                raise UnexpectedAnswerError(f'said "{printable_octets(line, _SHOWN)}", which tells of no script')
    return causes


def parse_step_counts_by_script(errors: bytes) -> dict[bytes, int]:
    """How many steps jobs took, by the names of their scripts, as a program says that counts them."""
    return {name: int(steps) for name, steps in _STEPS.findall(errors)}


def parse_rules_by_script(errors: bytes) -> dict[bytes, RulesByLine]:
    """The rules that events came to, by the names of their scripts, as a program says that lists them.

    A line of a script that has several events has the rules of all of them, each once.
    """
    rules: dict[bytes, dict[int, tuple[str, ...]]] = {}
    for name, line, words in _RULES.findall(errors):
        of_script = rules.setdefault(name, {})
        of_script[int(line)] = tuple(
            dict.fromkeys([*of_script.get(int(line), ()), *printable_octets(words).split(" ")])
        )
    return dict(rules)


def _json_object_or_empty(line: bytes) -> Cause:
    try:
        found = json.loads(line)
    except (ValueError, RecursionError):
        found = None
    return found if isinstance(found, dict) else {}


def rows_before_total(answer: bytes) -> bytes:
    """The rows of an answer, which the next answer of the same run begins with."""
    return answer[: answer.rindex(b"total ")]


def _require_row_of_name(line: bytes, name: bytes, known: dict[bytes, Row]) -> Row:
    """The row of this name in a line. `known` has what words were read as before, since many rows are equal."""
    printed_name, _, words = line.partition(b" ")
    if words not in known:
        known[words] = _parse_row(words, line)
    if printed_name != name:
        raise UnexpectedAnswerError(_quote_unexpected_line(line))
    return known[words]


def _parse_row(words: bytes, line: bytes) -> Row:
    found = _ROW.fullmatch(words)
    if found is None:
        raise UnexpectedAnswerError(_quote_unexpected_line(line))
    if found[4] is not None:
        return Row(Verdict.FAIL, int(found[3]), found[4].decode())
    return Row(_VERDICTS[found[1]], int(found[2]))


def _quote_first_differing_line(answer: bytes, before: bytes) -> str:
    for line, wanted in zip(answer.split(b"\n"), before.split(b"\n")):
        if line != wanted:
            return _quote_unexpected_line(line)
    return _quote_unexpected_line(b"")


def _quote_unexpected_line(line: bytes) -> str:
    if line.startswith(b"refused "):
        return printable_octets(line, _SHOWN)
    return f'answered "{printable_octets(line, _SHOWN)}", which isn\'t the row that is due'
