"""Tables of how scripts are explained: by which rule they stop, and where they are refused."""

import json
from collections.abc import Iterator, Mapping, Sequence
from dataclasses import replace
from typing import Optional

from harness.calls import CallSteps, ProgramCall
from harness.compare import (
    RowAnswer,
    RowCase,
    RowResult,
    TableKind,
    ExpectedScript,
    script_places_grouped_into_batches,
    read_case,
    batch_input,
    cut_for_message,
    verdicts_of_batch,
)
from harness.tables import PROGRAM, CaseRow, Table, RowError, parse_octets

EXPLAINING = (b"--explain", b"--json")
NO_VERDICT = "nothing"
Explained = list[tuple[ExpectedScript, str, Mapping[str, object]]]


def explain_scripts(scripts: Sequence[ExpectedScript]) -> CallSteps[Explained]:
    """Each script with its verdict, and with its block or an empty one."""
    each_batch = [[scripts[place] for place in places] for places in script_places_grouped_into_batches(scripts)]
    found: Explained = []
    outputs = yield [ProgramCall(PROGRAM, EXPLAINING, batch_input(batch)) for batch in each_batch]
    for batch, output in zip(each_batch, outputs):
        lines = output.errors.split(b"\n") if output else []
        objects = [json.loads(line) for line in lines if line.startswith(b"{")]
        blocks = {block["name"]: block for block in objects}
        for number, (script, verdict) in enumerate(zip(batch, verdicts_of_batch(output, len(batch))), 1):
            found.append((script, verdict or NO_VERDICT, blocks.get(f"a{number}", {})))
    return found


def explanation_line(verdict: str, block: Mapping[str, object]) -> str:
    """The answer to a script: its verdict, and the rule by which it stops, or the place where it is refused and what
    could stand there."""
    if verdict != f"{block.get('verdict')} {block.get('line')}":
        return verdict
    expected = block.get("expected")
    if isinstance(expected, list):
        column = block["column"]
        place = "end" if column is None else f"column {column}"
        return f"{verdict} {place}: " + " | ".join(expected)
    limit = f" {block['limit']}" if "limit" in block else ""
    return f"{verdict} {block.get('rule')}{limit}: {block.get('rule_words')}"


def read_explained_row(table: Table, row: CaseRow, wanted: str) -> Iterator[ExpectedScript]:
    if not row.text.startswith("<") or not wanted:
        raise RowError("a line begins with > and then with <")
    yield ExpectedScript(row, "", table.before.given + parse_octets(row.text.partition(" ")[2]), wanted)


def read_explained(table: Table) -> Iterator[RowCase[ExpectedScript]]:
    """A line `> ANSWER` is the wanted answer to the scripts of the lines `< SCRIPT` after it, a case each."""
    wanted = ""
    for row in table.rows:
        if row.text.startswith("> "):
            wanted = row.text[2:]
        else:
            yield read_case(row, lambda: read_explained_row(table, row, wanted))


def check_explanations(scripts: Sequence[ExpectedScript]) -> CallSteps[list[RowResult]]:
    """Compares the answers to scripts."""
    results = []
    for script, verdict, block in (yield from explain_scripts(scripts)):
        answer = explanation_line(verdict, block)
        fault = f"{cut_for_message(str(script.row))}\n-{script.wanted}\n+{answer}"
        results.append(RowResult(fault if answer != script.wanted else ""))
    return results


def explained_answers(scripts: Sequence[ExpectedScript]) -> CallSteps[list[Optional[RowAnswer]]]:
    """The answer to each script; none where its run stopped."""
    answers = {
        script.row: explanation_line(verdict, block) for script, verdict, block in (yield from explain_scripts(scripts))
    }
    return [None if answers[script.row] == NO_VERDICT else answers[script.row] for script in scripts]


def beginning_checks(row: CaseRow) -> Iterator[ExpectedScript]:
    text = parse_octets(row.text)
    for count in range(len(text)):
        part = replace(row, part=f", at {count}")
        yield from (ExpectedScript(part, "", text[:count] + more, "") for more in (b"", b"\\"))


def read_beginnings(table: Table) -> Iterator[RowCase[ExpectedScript]]:
    """Each beginning of a script, by itself and with a backslash after it."""
    for row in table.rows:
        yield read_case(row, lambda: beginning_checks(row))


def check_refused_beginnings_are_explained(scripts: Sequence[ExpectedScript]) -> CallSteps[list[RowResult]]:
    """Checks that where one is refused, something could stand there, and the marked text is shown."""
    results = []
    for script, verdict, block in (yield from explain_scripts(scripts)):
        column, line = block.get("column"), block.get("text")
        is_shown = isinstance(line, str) and (column is None or isinstance(column, int) and column < len(line))
        is_explained = verdict == f"syntax {block.get('line')}" and block.get("expected") and is_shown
        is_wrong = not is_explained and (verdict.startswith("syntax") or verdict == NO_VERDICT)
        results.append(RowResult(f"{cut_for_message(str(script.row))}: {verdict}, {block}" if is_wrong else ""))
    return results


EXPLAINED = TableKind(read_explained, check_explanations, answer=explained_answers)
BEGINNINGS = TableKind(read_beginnings, check_refused_beginnings_are_explained)
