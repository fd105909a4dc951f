"""Explanations as objects: what the program says by keys, the place in the text, and the packets by field."""

import json
import re
from collections.abc import Mapping
from pathlib import Path
from typing import Any

import jsonschema
import pytest

from pdsuite.programs.verdict import Row, Verdict
from pdsuite.run.explanation import explanation_with_place_and_packet_fields
from pdsuite.scripts.text import make_newline_ended_text_within_limits
from tests.helpers import TOP, Call, write
from tests.schemas import held, schema_of, validator

SCRIPT = b"""0 write(4, ..., 1000) = 1000 // \xc3\xbc \xff
/* \xc3\xbc */ +0 > P. 1:501(500) ack 1 win 9 <mss 1000,
    nop>
+.1 close(4) = 1
"""
SENT = "+0 > P. 1:1001(1000) ack 1 win 511 <...> // 0.200000"
# So many times a text, as rows write it.
_REPEATED = re.compile(r"\\<(\d+) (.*?)\\>")
# A rule by which packets leave, and its words or its key, as the program's source has them.
_NAMED_RULE = re.compile(r'SendRule::(\w+) => "([^"]+)"')
PACKETS = {"script_packet": r"+0 > P. 1:501(500) ack 1 win 9 <mss 1000,\x0a    nop>", "actual_packet": SENT}


def explained(row: Row, cause: Mapping[str, object], text: bytes = SCRIPT) -> Any:
    """The explanation of a row."""
    return explanation_with_place_and_packet_fields(
        row, {"name": "s7", "line": row.number, **cause}, make_newline_ended_text_within_limits(text)
    )


def place(line: int, column: int, end_line: int, end_column: int, field: str = "") -> dict[str, object]:
    """A place as it is reported."""
    where: dict[str, object] = {"line": line, "column": column, "end_line": end_line, "end_column": end_column}
    if field:
        where["field"] = field
    return where


@pytest.mark.parametrize(
    ("kind", "where"),
    [
        ("time", place(2, 9, 2, 11, "time")),
        ("flags", place(2, 14, 2, 16, "flags")),
        ("seq", place(2, 17, 2, 27, "seq")),
        ("ack", place(2, 28, 2, 33, "ack")),
        ("win", place(2, 34, 2, 39, "win")),
        ("options", place(2, 40, 3, 8, "options")),
        ("missing", place(2, 9, 3, 8)),
    ],
)
def test_the_field_that_differs_has_its_place_in_octets(kind: str, where: object) -> None:
    assert explained(Row(Verdict.FAIL, 2, kind), {"kind": kind, **PACKETS})["place"] == where


def test_both_packets_are_told_by_field() -> None:
    found = explained(Row(Verdict.FAIL, 2, "seq"), PACKETS)
    script, actual = found["fields"]["script_packet"], found["fields"]["actual_packet"]
    assert script == {
        "time": "+0",
        "flags": "P.",
        "seq": {"start": 1, "end": 501},
        "ack": 1,
        "win": 9,
        "options": "<mss 1000, nop>",
    }
    assert actual == {**script, "seq": {"start": 1, "end": 1001}, "win": 511, "options": "<...>"}
    assert "name" not in found and found["actual_packet"] == SENT


@pytest.mark.parametrize(
    ("row", "cause", "where"),
    [
        (Row(Verdict.FAIL, 4, "result"), {"call": "+.1 close(4) = 1"}, place(4, 15, 4, 16, "result")),
        (Row(Verdict.FAIL, 4, "backwards"), {"event": "+.1 close(4) = 1"}, place(4, 0, 4, 3, "time")),
        (Row(Verdict.UNSUPPORTED, 4), {"rule": "call_name"}, place(4, 4, 4, 9, "call")),
        (Row(Verdict.LIMIT, 4), {"rule": "outbox"}, place(4, 0, 4, 16)),
        (Row(Verdict.SYNTAX, 1), {"column": 2}, place(1, 2, 1, 7)),
        (Row(Verdict.SYNTAX, 1), {"column": 41}, place(1, 35, 1, 36)),
        (Row(Verdict.SYNTAX, 2), {"column": 2, "text_line": 1}, place(1, 2, 1, 7)),
        (Row(Verdict.SYNTAX, 1), {"column": None}, place(1, 0, 1, 36)),
        (Row(Verdict.FAIL, 3, "seq"), {}, place(3, 4, 3, 8)),
    ],
)
def test_other_rows_have_their_places(row: Row, cause: dict[str, object], where: object) -> None:
    assert explained(row, cause)["place"] == where


def test_a_packet_that_the_client_reads_otherwise_is_told_as_the_program_shows_it() -> None:
    row = Row(Verdict.FAIL, 1, "seq")
    found = explained(row, {"script_packet": "+0 > . 1:2(1) ack 1", "actual_packet": "no packet"}, b"?\n")
    assert found["fields"] == {"script_packet": {"time": "+0", "flags": ".", "seq": {"start": 1, "end": 2}, "ack": 1}}
    assert "fields" not in explained(row, {"script_packet": "no packet", "actual_packet": 7}, b"?\n")


def test_what_is_not_safe_to_print_is_shown() -> None:
    found = explained(Row(Verdict.FAIL, 1, "result"), {"call": "\x1b[2J", "state": {"\x07": ["\x9b", 1, None]}})
    assert (found["call"], found["state"]) == (r"\x1b[2J", {r"\x07": [r"\xc2\x9b", 1, None]})


def test_a_report_has_whole_explanations_and_what_the_last_run_left_has_none(
    fake_program: Path, tmp_path: Path, call: Call
) -> None:
    write(
        tmp_path / "suite", a=b"row fail 2 seq\n+0 > . 1:2(1) ack 1\n", b=b"row pass 1\n", c=b"row fail 1 ack\nsilent\n"
    )
    called = call(fake_program, "run", "--json", "suite", XDG_CACHE_HOME=str(tmp_path / "cache"))
    first, second, third = held("run", called.out)["scripts"]
    assert first["explanation"]["fields"]["actual_packet"]["seq"] == {"start": 1, "end": 3}
    assert first["explanation"]["state"] == {"name": "ESTABLISHED"}
    words = "new data (RFC 9293, section 3.8.6.2.1)"
    assert first["explanation"]["sent_by"] == {"line": 1, "rule": "rfc9293.new-data", "rule_words": words}
    assert "explanation" not in second and "explanation" not in third
    (kept,) = tmp_path.glob("cache/pdsuite/*.json")
    assert "explanation" not in kept.read_text()


def test_a_program_that_ends_on_a_script_is_told_of_once(fake_program: Path, tmp_path: Path, call: Call) -> None:
    write(tmp_path, a=b"row fail 1 seq\ncrash\n", b=b"row fail 1 seq\n+0 > . 1:2(1) ack 1\n")
    called = call(fake_program, "run", "--json", ".")
    ended = "pdsuite: pdregress was ended by SIGSEGV; {} a.pkt\n"
    assert called.err == ended.format("a new run begins at") + ended.format("nothing is told of")
    assert ["explanation" in it for it in held("run", called.out)["scripts"]] == [False, True]


def rows_of_the_programs() -> list[str]:
    """The lines that rows of the programs expect of `--json`, an object each."""
    files = sorted((TOP / "tests/cases/runs").glob("*.cases"))
    lines = [line for file in files for line in file.read_text().splitlines()]
    reported = (line.removeprefix("! ") for line in lines if line.startswith('! {"'))
    return [_REPEATED.sub(lambda it: it[2] * int(it[1]), line).replace("\\\\", "\\") for line in reported]


def test_what_the_program_tells_has_the_schema() -> None:
    schema = {**schema_of("run"), "$ref": "#/$defs/explanation"}
    for key in ("type", "required", "properties", "additionalProperties"):
        del schema[key]
    reported = [json.loads(it) for it in rows_of_the_programs()]
    rows = [it for it in reported if it["verdict"] != "pass"]
    assert len({it.get("kind", it["verdict"]) for it in rows}) >= 5
    for row in rows:
        del row["name"]
        jsonschema.validate({**row, "place": place(1, 0, 1, 1)}, schema)


RULE = {"rule": "rfc6298.expiry", "rule_words": "first segment at an expiry (RFC 6298, section 5.4)"}
# Objects, each with whether it is the origin of a packet.
ORIGINS: list[tuple[dict[str, object], bool]] = [
    ({"line": 8}, True),
    ({"timer_us": 0}, True),
    ({"line": 8, **RULE}, True),
    ({"timer_us": 7, **RULE}, True),
    ({**RULE}, False),
    ({}, False),
    ({"line": 8, "timer_us": 7}, False),
    ({"line": 8, "timer_us": 7, **RULE}, False),
    ({"line": 0, **RULE}, False),
    ({"line": 8, "rule": "rfc6298.expiry"}, False),
    ({"line": 8, "rule_words": "first segment"}, False),
    ({"line": 8, **RULE, "rule": "expired"}, False),
    ({"line": 8, **RULE, "rfc": 6298}, False),
]


@pytest.mark.parametrize(("origin", "is_one"), ORIGINS)
def test_an_origin_is_a_line_or_the_timer_and_may_have_the_rule(origin: dict[str, object], is_one: bool) -> None:
    schema = {"$ref": "#/$defs/origin", "$defs": schema_of("run")["$defs"]}
    assert jsonschema.Draft202012Validator(schema).is_valid(origin) == is_one


def test_the_rules_by_which_packets_leave_are_those_of_the_schema_and_of_the_document() -> None:
    _, *functions = (TOP / "crates/pd_explain/src/render/send_rules.rt").read_text().split("pub fn ")
    words, keys = (dict(_NAMED_RULE.findall(it)) for it in functions)
    assert words.keys() == keys.keys() and len(keys) >= 15
    assert schema_of("run")["$defs"]["origin"]["properties"]["rule"]["enum"] == list(keys.values())
    listed = re.findall(r"^- `([^`]+)`: `([^`]+ \(RFC [^`]+\))`", (TOP / "docs/EXPLAIN.md").read_text(), re.MULTILINE)
    assert listed == [(key, words[name]) for name, key in keys.items()]


@pytest.mark.parametrize(
    "change",
    [
        {"verdict": "lost"},
        {"line": 0},
        {"kind": "sequence"},
        {"below": "why"},
        {"more": 1},
        {"explanation": {"verdict": "fail"}},
        {"settings": {"mss": 1.5}},
    ],
)
def test_other_objects_do_not_have_the_schema(change: dict[str, object]) -> None:
    script: dict[str, object] = {"path": "a", "verdict": "fail", "line": 1, "kind": "seq", "below": [], "settings": {}}
    counts = {it: 0 for it in ("pass", "syntax", "unsupported", "limit", "error", "not run")}
    total = {"scripts": 1, "fail": 1, **counts}
    report: dict[str, object] = {"version": 2, "scripts": [script], "total": total, "seconds": 0.5}
    validator("run").validate(report)
    report["scripts"] = [{**script, **change}]
    assert not validator("run").is_valid(report)
