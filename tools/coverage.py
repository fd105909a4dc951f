#!/usr/bin/env python3
"""Prints docs/COVERAGE.md: which scripts of examples/suite test which section of which RFC, and which come to which rule.

    tools/coverage.py >docs/COVERAGE.md

A script's first line names the sections that it tests, as `// RFC 6298, sections 5.1 and 5.4; RFC 9293, section 3.8.1: ..`,
and its second line what would be wrong if it failed. The results of runs, for rules and mutants, are in
examples/suite/reached.toml, which tools/reached_rules.py makes, and all else is in coverage.toml beside it. Where the
files and the scripts contradict each other the tool says so, with the status 1.
"""

import re
import sys
import tomllib
from collections.abc import Iterator
from pathlib import Path
from typing import Any

SUITE = Path(__file__).resolve().parent.parent / "examples/suite"
CITATION = re.compile(r"RFC (\d+), sections? ([^;:]*)")
POINT = re.compile(r"(?:steps?|case|equation|rules?) \d+(?:(?:,| and| to) \d+(?![.\d]))*")
SECTION = re.compile(r"(?<![-\w.])(\d+(?:\.\d+)*)(?: to (\d+(?:\.\d+)*))?")
RULE_LIST = SUITE.parent.parent / "client/pdsuite/rules/rules.toml"
HEAD = """<!-- Made by tools/coverage.py from the scripts, coverage.toml and reached.toml of examples/suite. -->
# What the suite covers

`examples/suite` has {count} scripts that test the sender, section by section of the RFCs; `./pdsuite run examples/suite` runs \
them. The first line of a script names the sections that it tests, and the second says what is wrong if it fails. Inputs and \
expected packets were worked out by hand from the section and from [SENDER.md](SENDER.md). "Own" marks a choice that a section \
leaves open, or that differs from it. The scripts of a folder whose name begins with `with-` run under settings of their own, in \
`pdsuite.toml`. The gate runs all scripts, and each has to pass.

A script can't show that no packet leaves at its end, since it passes even if packets are left unmatched. So a script that forbids \
a packet goes on to the next packet that is due, and fails there by its time or its number if the sender sends too much; or it \
goes on until 1,025 packets are unmatched.
"""
RULES = """
## Rules that the scripts come to

Scripts come to {reached} of the {count} [rules of the sender](RULES.md#the-rules). A mutant is a wrong change of the sender, which \
breaks one of them or more. `./pdsuite rules --rule NAME` lists all scripts of a rule.

| rule | scripts | shortest | mutants that turn a script |
|---|---|---|---|
"""
MUTANTS = """
## Scripts that turn where a rule is broken

If you change a rule, you find here the scripts to look at. {seen} of {count} mutants turn scripts, and the list names some of these. \
It says nothing about other wrong changes: if the suite passes with one, `./pdsuite compare --search` makes a script that sees it. \
`./pdsuite rules --mutants` tries the mutants.
"""


def sections_cited_on_first_line(line: str) -> Iterator[tuple[int, str]]:
    """The RFCs and sections that a script's first line names, but for those in parentheses."""
    for rfc, text in CITATION.findall(re.sub(r"\(.*?\)", "", line)):
        for first, last in SECTION.findall(POINT.sub("", text)):
            chapter, dot, begin = first.rpartition(".")
            end = (last or first).rpartition(".")[2]
            yield from ((int(rfc), f"{chapter}{dot}{number}") for number in range(int(begin), int(end) + 1))


def script_link(script: Path) -> str:
    return f"[`{script.stem}`](../{script.relative_to(SUITE.parent.parent)})"


def render_rfc_sections_removing_their_scripts(
    rfc: dict[str, Any], tests: dict[tuple[int, str], list[Path]]
) -> Iterator[str]:
    yield f"\n## RFC {rfc['number']}, {rfc['title']}\n"
    for row in rfc["sections"]:
        scripts = tests.pop((rfc["number"], row["section"]), [])
        if bool(scripts) == bool(row.keys() & {"none", "see"}):
            raise ValueError(f"RFC {rfc['number']}, section {row['section']}: wants either scripts or `none` or `see`")
        why = row["see"] if "see" in row else f"none: {row.get('none')}"
        yield f"- **{row['section']}** {row['subject']}: {', '.join(map(script_link, scripts)) or why}"


def mutants_by_rule(mutants: dict[str, dict[str, Any]]) -> dict[str, list[dict[str, Any]]]:
    """The mutants that break each rule."""
    found: dict[str, list[dict[str, Any]]] = {}
    for mutant in mutants.values():
        for rule in mutant["rules"]:
            found.setdefault(rule, []).append(mutant)
    return found


def rule_lines(reached: dict[str, Any], scripts: dict[str, Path]) -> Iterator[str]:
    """The table of rules, in the order of rules.toml."""
    rules, broken = reached["rules"], mutants_by_rule(reached["mutants"])
    with RULE_LIST.open("rb") as file:
        names = [name for group in tomllib.load(file).values() for name in group]
    if {*names} != {*rules}:
        raise ValueError(f"reached.toml and rules.toml differ in {min({*names} ^ {*rules})}: tools/reached_rules.py")
    yield RULES.format(reached=sum(bool(it["scripts"]) for it in rules.values()), count=len(rules)).rstrip("\n")
    for name in names:
        it, mutants = rules[name], broken.get(name, [])
        shortest = script_link(scripts[it["shortest"].rpartition("/")[2]]) if "shortest" in it else ""
        seen = f"{sum(bool(one['turned']) for one in mutants)} of {len(mutants)}" if mutants else ""
        yield f"| `{name}` | {it['scripts']} | {shortest} | {seen} |"


def mutant_lines(reached: dict[str, Any], living: dict[str, str], scripts: dict[str, Path]) -> Iterator[str]:
    """The mutants by crates, each with scripts that turn, or why none does."""
    mutants = reached["mutants"]
    if unlike := {name for name, it in mutants.items() if not it["turned"]} ^ living.keys():
        raise ValueError(f"[living] of coverage.toml and reached.toml differ in {min(unlike)}")
    yield MUTANTS.format(seen=sum(bool(it["turned"]) for it in mutants.values()), count=len(mutants)).rstrip("\n")
    crate = ""
    for name, it in mutants.items():
        if crate != name.partition("/")[0]:
            crate = name.partition("/")[0]
            yield f"\n### `{crate}`\n"
        first = [script_link(scripts[script.rpartition("/")[2]]) for script in it.get("first", [])]
        more = it["turned"] - len(first)
        turned = ", ".join(first) + (f" and {more} more" if more else "")
        rules = ", ".join(f"`{rule}`" for rule in it["rules"])
        yield f"- {name.partition('/')[2].replace('_', ' ')} ({rules}): {turned or 'none: ' + living[name]}"


def coverage_lines_refusing_unlisted_sections() -> Iterator[str]:
    scripts = {path.stem: path for path in sorted(SUITE.glob("*/*.pkt"), key=lambda path: path.stem)}
    data = tomllib.loads((SUITE / "coverage.toml").read_text(encoding="utf-8"))
    tests: dict[tuple[int, str], list[Path]] = {}
    for script in scripts.values():
        first, second = script.read_text(encoding="utf-8").split("\n")[:2]
        named = dict.fromkeys(sections_cited_on_first_line(first))
        if not named or not second.startswith("// If it fails, "):
            raise ValueError(
                f"{script}: the first two lines don't name a section and what is wrong if the script fails"
            )
        for section in named:
            tests.setdefault(section, []).append(script)
    yield HEAD.format(count=len(scripts)).rstrip("\n")
    for rfc in data["rfc"]:
        yield from render_rfc_sections_removing_their_scripts(rfc, tests)
    if tests:
        raise ValueError(f"coverage.toml has no section {next(iter(tests))}")
    reached = tomllib.loads((SUITE / "reached.toml").read_text(encoding="utf-8"))
    yield from rule_lines(reached, scripts)
    yield from mutant_lines(reached, data["living"], scripts)


if __name__ == "__main__":
    try:
        print("\n".join(coverage_lines_refusing_unlisted_sections()))
    except (KeyError, ValueError) as fault:
        sys.exit(f"coverage: {fault}")
